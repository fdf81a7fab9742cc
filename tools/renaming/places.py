"""Places of the repository and their names in text.

A place is `CRATE/src/MODULE/..`, `CRATE/specs/MODULE/..` or `CRATE/proofs/MODULE/..`, or an item in one of these. A step moves places: the
longest beginning of a place that it names says where the place is now. What is proved of code stands in proofs/ below the code's own module,
so it moves with the code."""

from __future__ import annotations

import re
from dataclasses import dataclass, field

Moves = dict[str, str]

ANTT = re.compile(r"\bRattle\.\w+(?:\.[\w+-]*[\w+])*")
RUST = re.compile(
    r"^use (?P<several>x[a-z]_\w+)::\{(?P<items>[^{}]*)\};$|\b(?P<crate>crate|x[a-z]_\w+)(?P<inside>(?:::\w+)+|(?=::\{))", re.MULTILINE
)
PATH = re.compile(r"(?<![\w-])x[a-z]_\w+(?:/[\w+.-]*[\w+-])+")
WORD = re.compile(r"(?<![A-Za-z0-9_])[xX][a-zA-Z]_\w+")


@dataclass(frozen=True)
class Step:
    """Moves that are done at once: their name, what their commit says, and for each place that moves where it goes."""

    name: str
    subject: str
    why: str
    moves: Moves
    texts: dict[str, str] = field(default_factory=dict)  # files that no move makes, by their paths below crates/
    parted: tuple[str, ...] = ()  # crates between which parts move, the lowest first: what they stand on is looked up in their files

    @property
    def crates(self) -> Moves:
        """The crates that are called otherwise, by what they were called."""
        return {place: now for place, now in self.moves.items() if "/" not in place}


def place_now(place: str, moves: Moves) -> str:
    """Where a place is behind a step."""
    parts = place.split("/")
    for count in range(len(parts), 0, -1):
        now = moves.get("/".join(parts[:count]))
        if now:
            return "/".join([now, *parts[count:]])
    return place


def is_of_code(part: str) -> bool:
    """Whether what stands below proofs/ is a module of the code, or a cycle of its calls."""
    return part[:1].islower() or part[:1] == "+"


def antt_now(name: str, moves: Moves) -> str:
    """A module of definitions or lemmas, or something in it, as `Rattle.CRATE.specs.MODULE.NAME`."""
    _, crate, *rest = name.split(".")
    kind = ""
    if rest[:1] == ["specs"] and len(rest) > 2 and rest[1] in ("declared", "contracts"):
        kind, rest = f"specs.{rest[1]}", rest[2:]
    elif rest[:1] == ["proofs"] and len(rest) > 1 and is_of_code(rest[1]):
        kind, rest = "proofs", rest[1:]
    if not kind:
        return ".".join(["Rattle", *place_now("/".join([crate, *rest]), moves).split("/")])
    crate, _, *rest = place_now("/".join([crate, "src", *rest]), moves).split("/")
    return ".".join(["Rattle", crate, kind, *rest])


def rust_now(path: str, home: str, here: str, moves: Moves) -> str:
    """A path of Rust, as `crate::MODULE::ITEM` or `CRATE::ITEM`, in a file that stood in the crate `home` and stands in the crate `here`. What
    goes to another crate loses the name of its module, since only the root's names are seen there."""
    before, *inside = path.split("::")
    crate = home if before == "crate" else before
    is_ghost = inside[:1] in (["specs"], ["proofs"])
    now, *rest = place_now("/".join([crate, *(inside if is_ghost else ["src", *inside])]), moves).split("/")
    rest = rest if is_ghost else rest[1:]
    if now == here:
        return "::".join(["crate", *rest])
    if not is_ghost:
        rest = rest[1:] if before == "crate" else rest[len(rest) - len(inside) :]
    return "::".join([now, *rest])


def path_now(path: str, moves: Moves) -> str:
    """The path of a file or folder below crates/."""
    *parts, last = path.split("/")
    last, dot, ending = last.partition(".")
    crate, *inside = [*parts, last]
    if inside[:1] == ["proofs"] and len(inside) > 1 and is_of_code(inside[1]):
        crate, _, *inside = place_now("/".join([crate, "src", *inside[1:]]), moves).split("/")
        inside = ["proofs", *inside]
    else:
        crate, *inside = place_now("/".join([crate, *inside]), moves).split("/")
    return "/".join([crate, *inside]) + dot + ending


def plain_now(text: str, moves: Moves) -> str:
    """Text with the new paths below crates/ and the new names of crates, also where those stand in capitals."""
    crates = {place: now for place, now in moves.items() if "/" not in place}

    def word(match: re.Match[str]) -> str:
        now = crates.get(match[0].lower())
        return match[0] if not now else now.upper() if match[0].isupper() else now

    return WORD.sub(word, PATH.sub(lambda it: path_now(it[0], moves), text))


def words_now(text: str, moves: Moves) -> str:
    """Text of a page or a program of tools/ and bench/."""
    return plain_now(ANTT.sub(lambda it: antt_now(it[0], moves), text), moves)


def import_now(crate: str, items: list[str], home: str, here: str, moves: Moves) -> str:
    """An import of several items of a crate, of which some may have got into modules of the crate `here`: a line for each module."""
    modules: dict[str, list[str]] = {}
    for item in items:
        moved = here and f"{crate}/src/{item}" in moves
        module, _, name = rust_now(f"{crate}::{item}", home, here, moves).rpartition("::") if moved else ("", "", item)
        modules.setdefault(module or rust_now(crate, home, here, moves), []).append(name)
    return "\n".join(f"use {module}::{names[0] if len(names) == 1 else '{' + ', '.join(names) + '}'};" for module, names in modules.items())


def code_now(text: str, home: str, here: str, moves: Moves) -> str:
    """Text of a .rt or .antt file that stood in the crate `home` and stands in the crate `here`, which are empty where that isn't known."""

    def path(match: re.Match[str]) -> str:
        if match["several"] and place_now(match["several"], moves) == match["several"]:
            return match[0]
        if match["several"]:
            return import_now(match["several"], [it.strip() for it in match["items"].split(",") if it.strip()], home, here, moves)
        return match[0] if match["crate"] == "crate" and not home else rust_now(match[0], home, here, moves)

    return plain_now(RUST.sub(path, ANTT.sub(lambda it: antt_now(it[0], moves), text)), moves)
