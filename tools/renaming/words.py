"""Words of definitions, types and variants, renamed where they are defined and wherever they are imported.

A row names the module in which a word is defined. The word is changed in that module's file and in each file that imports it from there; a
field of a record, a label of a clause and a comment keep it, but what a comment quotes of it. A file in which the new word stands already is
refused, until a row of its own gives what stands there another name."""

from __future__ import annotations

import re
from dataclasses import dataclass, field

from .places import Moves, Step, code_now, path_now, words_now

Files = dict[str, str]

BEFORE, BEHIND = r"(?<![\w.'-])", r"(?![\w'-])"
OPENED = re.compile(r"(\bopen [^{}]* use \{[^{}]*\})")
QUOTED = re.compile(r"`[^`\n]+`")
REMARK = {".antt": re.compile(r"(?:^|(?<=\s))--(?:\s|$)"), ".rt": re.compile(r"//")}
HOME = re.compile(r"crates/(?P<crate>\w+)/(?P<kind>src|specs|proofs|must-fail)/(?P<inside>.*)")


@dataclass(frozen=True)
class Word:
    """A word with the module that defines it, as `xs_instr/specs/Did` or `xs_core/src/turn`. A variant is written with its type, as
    `Operator::Both`; a constructor is a word of its module as all others are."""

    place: str
    old: str
    new: str

    @property
    def crate(self) -> str:
        return self.place.split("/")[0]

    @property
    def is_of_code(self) -> bool:
        return self.place.split("/")[1] == "src"

    @property
    def modules(self) -> tuple[str, ...]:
        """The modules of definitions from which the word is imported."""
        crate, kind, *inside = self.place.split("/")
        if not self.is_of_code:
            return (".".join(["Rattle", crate, kind, *inside]),)
        of_type, colons, _ = self.old.partition("::")
        return tuple(".".join(["Rattle", crate, "specs", it, *inside, of_type, *(["TheVariants"] if colons else [])]) for it in ("declared", "contracts"))


@dataclass(frozen=True)
class Local:
    """A word of one file, or of all files of a crate, that is changed before all others: where a new word would meet it. `at` is a
    path below crates/. One that is everywhere is also changed behind a dot and in the names of goals."""

    at: str
    old: str
    new: str
    is_everywhere: bool = False


@dataclass(frozen=True)
class Page:
    """What a page says of words in backticks: the text as it was, and as it is."""

    path: str
    old: str
    new: str


@dataclass(frozen=True)
class Sweep:
    """Words that are changed at once, with the modules that get other names."""

    name: str
    subject: str
    why: str
    words: tuple[Word, ...]
    locals: tuple[Local, ...] = ()
    moves: Moves = field(default_factory=dict)
    pages: tuple[Page, ...] = ()


def parts_of(text: str, ending: str) -> list[tuple[str, str]]:
    """The lines of a file, each as its code and its comment."""
    remark, found = REMARK[ending], []
    for line in text.split("\n"):
        match = remark.search(line)
        at = match.start() if match else len(line)
        found.append((line[:at], line[at:]))
    return found


def code_of(text: str, ending: str) -> str:
    return "\n".join(code for code, _ in parts_of(text, ending))


def changed(text: str, ending: str, pattern: str, new: str, quoted: str = "", has_fields: bool = True) -> str:
    """The text with what the pattern finds in its code changed, and what is quoted so in its comments. What a record is opened for are fields."""
    lines = []
    for code, remark in parts_of(text, ending):
        parts = [code] if has_fields else OPENED.split(code)
        code = "".join(part if at % 2 else re.sub(pattern, new, part) for at, part in enumerate(parts))
        if quoted:
            remark = QUOTED.sub(lambda it: re.sub(rf"(?<![\w.-]){quoted}(?![\w-])", new, it[0]), remark)
        lines.append(code + remark)
    return "\n".join(lines)


def plain_word(old: str, ending: str) -> str:
    """A word that is no field, no label of a clause and no name behind a path."""
    label = rf"(?!(?<=ensures ){old} \{{)(?!(?<=requires ){old} \{{)(?!(?<=invariant ){old} \{{)" if ending == ".rt" else ""
    return rf"{BEFORE}(?<!::){label}{re.escape(old)}{BEHIND}"


def imports_of(word: Word, text: str) -> tuple[bool, list[str]]:
    """Whether a text imports the word under its own name, and the names under which it has the word's module."""
    has_name, names = False, []
    for module in word.modules:
        old = word.old.split("::")[-1]
        for items in re.findall(rf"\buse {re.escape(module)}\.\{{([^}}]*)\}}", text):
            has_name |= old in [it.strip() for it in items.split(",")]
        names += re.findall(rf"\buse {re.escape(module)} as (\w+)", text)
    return has_name, names


def rust_imports(word: Word, crate: str, text: str) -> bool:
    """Whether a file of code has a type or function of code under its own name."""
    name = word.old.split("::")[0]
    inside = "::".join(word.place.split("/")[2:])
    froms = [f"crate::{inside}", inside] if crate == word.crate else [word.crate]
    for start in froms:
        if re.search(rf"\buse {re.escape(start)}::(?:{name}\b(?! as)|\{{[^}}]*(?<![\w:]){name}\b(?! as)[^}}]*\}})", text):
            return True
    return False


def word_now(path: str, text: str, word: Word, refused: list[str]) -> str:
    """The text of a file with one word changed. What is to be looked at by hand is put behind `refused`."""
    match, ending = HOME.fullmatch(path), "." + path.rpartition(".")[2]
    of_type, colons, _ = word.old.partition("::")
    old, new = word.old.split("::")[-1], word.new
    if ending not in REMARK or not match or not re.search(rf"\b{old}\b", text):
        return text
    before = text
    is_home = path.removeprefix("crates/").rpartition(".")[0] == word.place
    has_name, names = imports_of(word, text)
    text = imported_now(text, word, names)
    if word.is_of_code and ending == ".rt":
        is_used = is_home or rust_imports(word, match["crate"], before)
        if match["crate"] == word.crate and match["inside"] in ("lib.rt", "main.rt"):
            text = re.sub(rf"(use {word.place.split('/')[-1]}::[^;]*?)\b{old}\b", rf"\1{new}", text)
        if colons and is_used:
            text = changed(text, ending, rf"\b{of_type}::{old}\b", f"{of_type}::{new}", f"{of_type}::{old}")
        if colons and is_home:
            text = changed(text, ending, rf"^(\s+){old}(?=,$|\(| \{{)", rf"\g<1>{new}")
        has_name |= is_used and not colons
    if has_name or is_home and not word.is_of_code and defines(old, text):
        text = changed(text, ending, plain_word(old, ending), new, old, has_fields=False)
        if re.search(plain_word(new, ending), code_of(before, ending)):
            refused.append(f"{path}: {old} -> {new}, which stands there already")
        is_field = rf"(?m)^\s+pub {old} :|[{{;] *{old} =|\bopen [^{{}}]* use \{{(?:[^{{}}]*, )?{old}[,}}]"
        if ending == ".antt" and re.search(is_field, code_of(before, ending)):
            refused.append(f"{path}: {old} is a field, too")
    return text


def imported_now(text: str, word: Word, names: list[str]) -> str:
    """The text with the word changed in its imports, and behind the name of its module."""
    old, new = word.old.split("::")[-1], word.new
    for module in word.modules:
        text = re.sub(rf"(\buse {re.escape(module)}\.\{{)([^}}]*)\}}", lambda it: it[1] + re.sub(rf"(?<!\w)(?<! as ){old}(?!\w)", new, it[2]) + "}", text)
        text = re.sub(rf"{re.escape(module)}\.{old}(?![\w'-])", f"{module}.{new}", text)
    if word.is_of_code:
        inside = "::".join(word.place.split("/")[2:])
        text = re.sub(rf"\b(crate::{inside}|{word.crate})::{old}\b", rf"\1::{new}", text)
    for name in names:
        text = re.sub(rf"(?<![\w.'-]){name}\.{old}(?![\w'-])", f"{name}.{new}", text)
    return text


def defines(old: str, text: str) -> list[str]:
    """The lines of a file that define a word."""
    return re.findall(rf"(?m)^\s*(?:abbrev |pub |record |data )*{old}\b.* :.*$|^\s*pub record {old}$", text)


def local_now(path: str, text: str, row: Local) -> str:
    ending = "." + path.rpartition(".")[2]
    below = path.removeprefix("crates/")
    if ending == ".edit":
        below = f"{below.split('/')[0]}/{text.partition(chr(10))[0].removeprefix('file: ')}"
    if ending not in (*REMARK, ".edit") or not (below == row.at or below.startswith(f"{row.at}/")):
        return text
    pattern = rf"(?<![\w']){row.old}(?![\w'])" if row.is_everywhere else rf"{BEFORE}{row.old}{BEHIND}"
    if ending == ".edit":
        return re.sub(pattern, row.new, text)
    return changed(text, ending, pattern, row.new, row.old)


def moved(files: Files, moves: Moves) -> Files:
    """The files with modules that got other names."""
    found: Files = {}
    step = Step("", "", "", moves)
    for path, text in files.items():
        if not path.startswith("crates/"):
            found[path] = text if path.startswith(("tools/rena", "tools/tests/test_renames")) else words_now(text, moves)
            continue
        now = "crates/" + path_now(path.removeprefix("crates/"), step.moves)
        crate, ending = path.split("/")[1], "." + path.rpartition(".")[2]
        text = code_now(text, crate, crate, moves) if ending in REMARK else words_now(text, moves)
        if ending == ".edit":
            text = re.sub(r"(?m)^file: (.*)$", lambda it: "file: " + path_now(f"{crate}/{it[1]}", moves).partition("/")[2], text)
        found[now] = listed_now(path.removeprefix("crates/"), text, moves)
    return found


def listed_now(path: str, text: str, moves: Moves) -> str:
    """The list of modules in a root, or in a module around others, with their names of today."""
    for before, after in moves.items():
        folder, _, old = before.rpartition("/")
        if path in (f"{folder}/Lib.antt", f"{folder}/lib.rt", f"{folder}/main.rt", f"{folder}.antt", f"{folder}.rt"):
            new = after.rpartition("/")[2]
            text = re.sub(rf"(?m)^((?:pub )?mod ){old}(;?)$", rf"\g<1>{new}\2", text)
            text = re.sub(rf"(?m)^((?:pub )?use ){old}(?=::)", rf"\g<1>{new}", text)
    return text


def swept(files: Files, sweep: Sweep, refused: list[str]) -> Files:
    """All files behind a sweep."""
    found = {}
    for path, text in files.items():
        if path.startswith("crates/"):
            for row in sweep.locals:
                text = local_now(path, text, row)
            for word in sweep.words:
                text = word_now(path, text, word, refused)
        for page in sweep.pages:
            if page.path == path:
                text = text.replace(page.old, page.new)
        found[path] = text
    return moved(found, sweep.moves) if sweep.moves else found
