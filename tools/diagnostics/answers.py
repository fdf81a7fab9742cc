"""What the lines of xcsim's standard error, and the `err` records of a trace, say; and how it is shown."""

from __future__ import annotations

import re
from dataclasses import dataclass
from typing import Iterator, Optional

from .hints import first_unbuilt, hint_of_grammar, place, unbuilt_words
from .rules import Rule, read_rules
from .source import Source

REFUSED = re.compile(r"(.+?):([0-9]+)(?::([0-9]+))?: rule ([0-9]{3,4})")
OF_FILE = re.compile(r"(no file|too long|read fault) (.+)")
USAGE = "usage: xcsim "
FULL = "out of memory"
RULES = read_rules()


@dataclass(frozen=True)
class Finding:
    """Something that is wrong: in which file, where in it, which rule it breaks, and what else there is to say. What has no place in
    a file has the line 0."""

    file: str
    line: int
    column: int
    rule: Rule
    note: str = ""


def finding_of(line: str) -> Optional[Finding]:
    """What a line of standard error says; None where it says nothing of the kind."""
    if match := REFUSED.fullmatch(line):
        rule = RULES.get(f"rule {match[4]}")
        return Finding(match[1], int(match[2]), int(match[3] or 1), rule) if rule else None
    if match := OF_FILE.fullmatch(line):
        return Finding(match[2], 0, 0, RULES[f"line {match[1]} NAME"])
    if line.startswith(USAGE):
        return Finding("xcsim", 0, 0, RULES["line the usage line"])
    return Finding("xcsim", 0, 0, RULES["line out of memory"]) if line == FULL else None


def finding_of_trap(file: str, core: int, text: str) -> Finding:
    """What an `err` record says, of which `text` is what stands behind the core."""
    where, _, kind = text.partition(" ")
    line, _, column = where.partition(":")
    return Finding(file, int(line), int(column), RULES[f"trap {kind}"], f"on core {core}, where a thread is trapped from there on")


def shown(finding: Finding, source: Optional[Source]) -> Iterator[str]:
    """The lines that tell a finding, with the text where it is at hand. The first one is as compilers write it."""
    where = f"{finding.file}:{finding.line}:{finding.column}" if finding.line else finding.file
    yield f"{where}: error: {said(finding, source)}{named(finding.rule)}"
    if source and finding.line:
        yield from excerpt(source, finding.line, finding.column)
    if finding.line:
        yield f"  rule: {finding.rule.broken}"
    if finding.note:
        yield f"  note: {finding.note}"
    yield from helped(finding, source)


def named(rule: Rule) -> str:
    return "" if rule.name.startswith("line ") else f" [{rule.name}]"


def said(finding: Finding, source: Optional[Source]) -> str:
    """What is told of the place."""
    at = source.at(finding.line, finding.column) if source and finding.line else ""
    if finding.rule.name == "rule 201" and source and source.is_end(finding.line, finding.column):
        return "the text ends before the program does"
    return finding.rule.says.replace("{}", f"`{at}`" if at else "it")


def excerpt(source: Source, line: int, column: int) -> Iterator[str]:
    """The line of a place, with its number, and a caret below."""
    found = source.excerpt(line, column)
    if found is not None:
        yield f"{line:5} | {found[0]}"
        yield f"      | {found[1]}"


def helped(finding: Finding, source: Optional[Source]) -> Iterator[str]:
    """What there is to do."""
    help_text = finding.rule.help
    if finding.rule.name == "rule 201" and source:
        help_text = hint_of_grammar(source, finding.line, finding.column)
    if help_text:
        yield f"  help: {help_text}"
    if finding.rule.name == "rule 299" and source and (token := first_unbuilt(source, unbuilt_words())):
        yield f"  note: the first word of such a form is at {place(token)}"
        yield from excerpt(source, token.line, token.column)
