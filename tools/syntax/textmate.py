"""A grammar in TextMate's form, which VS Code, Sublime Text and others read, and the rest of an extension for VS Code."""

from __future__ import annotations

import json
import plistlib
import re

from .forms import DIRECTIVES, GROUPS, PORTS, TRANSFERS, WORDS, operators

SCOPES = {"control": "keyword.control.xc", "types": "storage.type.xc", "places": "storage.modifier.xc", "conditions": "support.function.xc"}
NUMBER = r"\b(?:0x[0-9a-fA-F]+|0b[01]+|0[0-7]*|[1-9][0-9]*)[uU]?\b"


def rule(name: str, match: str) -> dict[str, str]:
    return {"name": name, "match": match}


def words_of(group: str) -> str:
    return rf"\b(?:{'|'.join(WORDS[group])})\b"


def symbols_of(symbols: list[str]) -> str:
    return "|".join(map(re.escape, symbols))


def grammar() -> dict[str, object]:
    """The grammar. Of two rules at one place the first is taken."""
    comments = [
        {"name": "comment.block.xc", "begin": r"/\*", "end": r"\*/"},
        rule("comment.line.double-slash.xc", r"//.*$"),
    ]
    rules = [
        *comments,
        {
            "begin": rf"^\s*(#include)\s*(<(?:{DIRECTIVES})\.h>)",
            "end": "$",
            "beginCaptures": {"1": {"name": "keyword.control.directive.xc"}, "2": {"name": "string.quoted.other.xc"}},
            "patterns": comments,
        },
        {
            "begin": r"^\s*(#define)\s+([A-Za-z_]\w*)",
            "end": "$",
            "beginCaptures": {"1": {"name": "keyword.control.directive.xc"}, "2": {"name": "entity.name.constant.xc"}},
            "patterns": [*comments, rule("constant.numeric.xc", NUMBER)],
        },
        rule("invalid.illegal.directive.xc", r"^\s*#.*$"),
        *(rule(SCOPES[group], words_of(group)) for group in GROUPS),
        rule("invalid.illegal.kept.xc", words_of("kept")),
        rule("support.constant.port.xc", rf"\bXS1_PORT_(?:{PORTS})\b"),
        rule("constant.numeric.xc", NUMBER),
        rule("invalid.illegal.number.xc", r"\b[0-9]\w*"),
        rule("entity.name.function.xc", r"\b[A-Za-z_]\w*(?=\s*\()"),
        rule("keyword.operator.transfer.xc", symbols_of([*TRANSFERS[:2], "=>", *TRANSFERS[2:]])),
        rule("keyword.operator.xc", symbols_of([it for it in operators() if it != "=>"])),
    ]
    return {"name": "XC", "scopeName": "source.xc", "fileTypes": ["xc"], "patterns": rules}


MATCHER = {
    "name": "xcsim",
    "owner": "xcsim",
    "fileLocation": ["autoDetect", "${workspaceFolder}"],
    "pattern": {"regexp": r"^(.+?):(\d+):(\d+): (error): (.*)$", "file": 1, "line": 2, "column": 3, "severity": 4, "message": 5},
}
PACKAGE = {
    "name": "xc-of-xcsim",
    "displayName": "XC",
    "description": "XC as xcsim reads it: colours, brackets, and what xcsim refuses. Made by tools/editor-files.",
    "version": "1.0.0",
    "publisher": "xcsim",
    "private": True,
    "engines": {"vscode": "^1.60.0"},
    "contributes": {
        "languages": [{"id": "xc", "aliases": ["XC"], "extensions": [".xc"], "configuration": "./language-configuration.json"}],
        "grammars": [{"language": "xc", "scopeName": "source.xc", "path": "./syntaxes/xc.tmLanguage.json"}],
        "problemMatchers": [MATCHER],
    },
}
BRACKETS = [["{", "}"], ["[", "]"], ["(", ")"]]
CONFIGURATION = {
    "comments": {"lineComment": "//", "blockComment": ["/*", "*/"]},
    "brackets": BRACKETS,
    "autoClosingPairs": [*BRACKETS, ["/*", " */"]],
    "surroundingPairs": BRACKETS,
}


def as_json(value: object) -> str:
    return json.dumps(value, indent=2) + "\n"


def files() -> dict[str, str]:
    """The files for VS Code, and the grammar for Sublime Text and TextMate, by their paths."""
    return {
        "vscode/package.json": as_json(PACKAGE),
        "vscode/language-configuration.json": as_json(CONFIGURATION),
        "vscode/syntaxes/xc.tmLanguage.json": as_json(grammar()),
        "sublime/xc.tmLanguage": plistlib.dumps(grammar(), sort_keys=False).decode(),
    }
