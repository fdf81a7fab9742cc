"""The files for editors: that they are those of the words, how Vim and the grammar colour a text, and how errors are read."""

import json
import os
import plistlib
import re
import shutil
import subprocess
import tempfile
import unittest

from syntax import textmate, vim
from syntax.forms import WORDS, operators

from .samples import TOP, example, written

EDITORS = os.path.join(TOP, "tools", "editors")
VIM = shutil.which("vim")

TEXT = """\
#include <xs1.h>
#define BIT 868 // x
#if 1
out port p = XS1_PORT_1A; /* TODO
 int */ in port q = XS1_PORT_2A;
void f(chanend c, int &x) {
  p @ 09 <: 0x1Fu; c :> x;
  float y = x <<= 2 + BIT;
  q when pinseq(1) :> void;
  on tile[0] : par { f(c); } // if
}
"""

# what some of the words are, by line and column: in words of both editors' files
MEANT = [
    (1, 1, "Include", "keyword.control.directive"),
    (1, 10, "Include", "string.quoted.other"),
    (2, 1, "Define", "keyword.control.directive"),
    (2, 9, "Defined", "entity.name.constant"),
    (2, 13, "Number", "constant.numeric"),
    (2, 17, "Comment", "comment.line.double-slash"),
    (3, 1, "NoDirective", "invalid.illegal.directive"),
    (4, 1, "Places", "storage.modifier"),
    (4, 5, "Types", "storage.type"),
    (4, 10, "", ""),
    (4, 14, "Port", "support.constant.port"),
    (4, 27, "Comment", "comment.block"),
    (5, 2, "Comment", "comment.block"),
    (5, 9, "Places", "storage.modifier"),
    (5, 20, "", ""),
    (6, 8, "Types", "storage.type"),
    (6, 23, "Operator", "keyword.operator"),
    (7, 5, "Transfer", "keyword.operator.transfer"),
    (7, 7, "NoNumber", "invalid.illegal.number"),
    (7, 10, "Transfer", "keyword.operator.transfer"),
    (7, 13, "Number", "constant.numeric"),
    (7, 22, "Transfer", "keyword.operator.transfer"),
    (8, 3, "Kept", "invalid.illegal.kept"),
    (8, 15, "Operator", "keyword.operator"),
    (8, 23, "", ""),
    (9, 5, "Conditions", "support.function"),
    (9, 10, "Conditions", "support.function"),
    (9, 23, "Types", "storage.type"),
    (10, 3, "Places", "storage.modifier"),
    (10, 11, "Number", "constant.numeric"),
    (10, 16, "Control", "keyword.control"),
    (10, 32, "Comment", "comment.line.double-slash"),
]


def names_by(grammar, text):
    """What a grammar says of each letter: of the rules of one level, as this one has them, and their ends."""
    found, inside = [], None
    for line in text.splitlines():
        names, at = [""] * len(line), 0
        while at <= len(line):
            rules = inside.get("patterns", []) if inside else grammar["patterns"]
            candidates = [(m, rule) for rule in rules if (m := re.compile(rule.get("match") or rule["begin"]).search(line, at))]
            if inside and (m := re.compile(inside["end"]).search(line, at)):
                candidates.insert(0, (m, None))
            if not candidates:
                names[at:] = [inside.get("name", "") if inside else ""] * (len(line) - at)
                break
            match, rule = min(candidates, key=lambda it: it[0].start())
            own = inside.get("name", "") if inside else ""
            names[at : match.start()] = [own] * (match.start() - at)
            names[match.start() : match.end()] = [own if rule is None else rule.get("name", "")] * (match.end() - match.start())
            for number, capture in (rule or {}).get("beginCaptures", {}).items():
                names[match.start(int(number)) : match.end(int(number))] = [capture["name"]] * len(match[int(number)])
            inside = None if rule is None else rule if "begin" in rule else inside
            if match.end() == at and rule is None and at == len(line):
                break
            at = match.end()
        found.append(names)
    return found


class Files(unittest.TestCase):
    def test_they_are_those_of_the_words(self):
        files = {**vim.files(), **textmate.files()}
        stored = {os.path.relpath(os.path.join(at, it), EDITORS) for at, _, names in os.walk(EDITORS) for it in names}
        self.assertEqual(stored, {*files})
        for path, text in files.items():
            self.assertEqual(written(os.path.join(EDITORS, path)), text, f"tools/editor-files writes {path} anew")

    def test_grammars_can_be_read(self):
        grammar = json.loads(textmate.files()["vscode/syntaxes/xc.tmLanguage.json"])
        self.assertEqual(plistlib.loads(textmate.files()["sublime/xc.tmLanguage"].encode()), grammar)
        package = json.loads(textmate.files()["vscode/package.json"])
        for path in (package["contributes"]["languages"][0]["configuration"], package["contributes"]["grammars"][0]["path"]):
            self.assertTrue(os.path.exists(os.path.join(EDITORS, "vscode", path)))

    def test_operators(self):
        found = operators()
        self.assertEqual(found[:2], ["<<=", ">>="])
        self.assertEqual(sorted([*found, "<:", ":>", "@", *"(){}[];,"]), sorted(WORDS["symbols"]))

    def test_problem_matcher(self):
        match = re.fullmatch(textmate.MATCHER["pattern"]["regexp"], "a b/c.xc:3:9: error: `y` isn't known here [rule 301]")
        self.assertEqual(match.groups(), ("a b/c.xc", "3", "9", "error", "`y` isn't known here [rule 301]"))


class Grammar(unittest.TestCase):
    def test_what_is_meant(self):
        names = names_by(textmate.grammar(), TEXT)
        for line, column, _, name in MEANT:
            self.assertEqual(names[line - 1][column - 1], f"{name}.xc" if name else "", (line, column))
        self.assertEqual(names[5][5], "entity.name.function.xc")

    def test_examples_have_nothing_that_is_wrong(self):
        for name in (it for it in os.listdir(os.path.join(TOP, "examples")) if it.endswith(".xc")):
            found = {it for line in names_by(textmate.grammar(), written(example(name))) for it in line}
            self.assertFalse([it for it in found if it.startswith("invalid")], name)
            self.assertIn("keyword.operator.transfer.xc", found)


@unittest.skipUnless(VIM, "vim is missing")
class Vim(unittest.TestCase):
    def vim(self, room, *lines):
        """What a script puts into the list `out`, in a Vim that has the files."""
        script, told = os.path.join(room, "script.vim"), os.path.join(room, "told")
        front = ["set nocompatible", f"set rtp^={EDITORS}/vim", "filetype plugin on", "syntax on", "let out = []"]
        with open(script, "w", encoding="utf-8") as file:
            file.write("\n".join([*front, *lines, f"call writefile(out, '{told}')", "qall!", ""]))
        command = [VIM, "-e", "-s", "-u", "NONE", "-i", "NONE", "-n", "-S", script]
        subprocess.run(command, stdin=subprocess.DEVNULL, stdout=subprocess.DEVNULL, timeout=60, check=False)
        return written(told).splitlines()

    def test_what_is_meant(self):
        with tempfile.TemporaryDirectory() as room:
            path = os.path.join(room, "a.xc")
            with open(path, "w", encoding="utf-8") as file:
                file.write(TEXT)
            asked = [f"call add(out, synIDattr(synID({line}, {column}, 1), 'name'))" for line, column, *_ in MEANT]
            told = self.vim(room, f"edit {path}", "call add(out, &filetype)", *asked)
        self.assertEqual(told, ["xc", *(f"xc{name}" if name else "" for _, _, name, _ in MEANT)])

    def test_errors(self):
        lines = ["a.xc:3:9: error: `y` isn't known here [rule 301]", "    3 |   y = 1;", "      |   ^", "b.xc:1:5: rule 701", "s.txt:2: rule 804"]
        asked = "for it in getqflist() | call add(out, join([bufname(it.bufnr), it.lnum, it.col, it.nr, it.text], ' ')) | endfor"
        with tempfile.TemporaryDirectory() as room:
            told = self.vim(room, "compiler! xcsim", f"cgetexpr {json.dumps(lines)}", asked, "call add(out, &makeprg)")
        self.assertEqual(told[0], "a.xc 3 9 -1 `y` isn't known here [rule 301]")
        self.assertEqual([it.split()[:4] for it in told[1:3]], [["b.xc", "1", "5", "701"], ["s.txt", "2", "0", "804"]])
        self.assertEqual(told[3], f"'{TOP}/xcsim' check %:S 2>&1 \\| '{TOP}/tools/explain'")

    def test_make_goes_to_the_error(self):
        with tempfile.TemporaryDirectory() as room:
            for name, text in (("xcsim", "#!/bin/sh\necho \"$2:2:3: rule 301\" >&2\nexit 1\n"), ("a.xc", "int main(void) {\n  y = 1;\n}\n")):
                with open(os.path.join(room, name), "w", encoding="utf-8") as file:
                    file.write(text)
            os.chmod(os.path.join(room, "xcsim"), 0o755)
            os.symlink(os.path.join(TOP, "tools"), os.path.join(room, "tools"))
            lines = [f"let g:xcsim_folder = '{room}'", f"edit {room}/a.xc", "compiler xcsim", "silent make"]
            told = self.vim(room, *lines, "call add(out, line('.') . ' ' . col('.'))", "call add(out, getqflist()[0].text)")
        self.assertEqual(told, ["2 3", "`y` isn't known here [rule 301]"])
