"""The table of crates: what crates.txt, the heads of the crates and their public calls say."""

from __future__ import annotations

import os
import re
from dataclasses import dataclass, field
from typing import Iterator

HEAD = """\
# The crates

A row for each crate, by role and in the order of the passes. `tools/crates` writes this page, and `tools/test` compares it. It is made of
[crates.txt](../crates.txt), of the first lines of each crate's root file, and of the clauses of its public calls: a change belongs there.

- **Stands on** leaves out what those crates stand on by themselves; crates.txt has all.
- **Public calls with a promise** have the names of their clauses in brackets. A clause without a name isn't told, and neither is a call
  without clauses. [promises.md](promises.md) says what the clauses promise, in words.
- **Prefixes** tell the role. xw: base; xc: front and meaning; xl: lowering; xs: machine; xr: what joins them; xf: time; xt: tests. xcsim is
  the program, and xr_listed stands under tests: it reads listings for them.
"""

FUNCTION = re.compile(r"\s*(pub )?(?:const )?(?:unsafe )?fn (\w+)")
OWNER = re.compile(r"(?:pub )?(trait|impl)\b(?:<[^{]*?>)?\s+(.*)")
CLAUSE = re.compile(r"\s*ensures (\w+ )?\{")
REEXPORT = re.compile(r"^pub use (\w+)::(?:\{([^}]*)\}|(\w+));", re.MULTILINE)
PUBLIC_MODULE = re.compile(r"^pub mod (\w+);", re.MULTILINE)


@dataclass(frozen=True)
class Crate:
    """A line of crates.txt: the crate, the heading above it, and what it stands on."""

    name: str
    role: str
    below: tuple[str, ...]


@dataclass
class Call:
    """A function or method: the type or trait that has it, the trait that it is of, and the names of its clauses."""

    module: str
    owner: str
    trait: str
    name: str
    is_public: bool
    count: int = 0
    clauses: list[str] = field(default_factory=list)


def read_crates(text: str) -> list[Crate]:
    """The crates of crates.txt in its order."""
    role, crates = "", []
    for line in text.splitlines():
        if line.startswith("#"):
            role = line[1:].strip()
        name, colon, below = line.partition("#")[0].partition(":")
        if colon:
            crates.append(Crate(name.split()[0], role, tuple(below.split())))
    return crates


def direct(crate: Crate, crates: dict[str, Crate]) -> list[str]:
    """What a crate stands on, without what those crates stand on by themselves."""
    further = {it for name in crate.below if name in crates for it in crates[name].below}
    return [it for it in crate.below if it not in further]


def what_it_is(root: str) -> str:
    """The first paragraph of a root file's head."""
    lines = []
    for line in root.splitlines():
        if not line.startswith("//! "):
            break
        lines.append(line[4:].strip())
    return " ".join(lines)


def calls_of(module: str, text: str) -> Iterator[Call]:
    """The functions and methods of a file, each with its clauses."""
    owner, trait, call = "", "", None
    for line in text.splitlines():
        if line.startswith("}"):
            owner, trait = "", ""
        elif match := OWNER.match(line):
            what = re.sub(r"<[^<>]*(<[^<>]*>)?[^<>]*>", "", match[2]).split("{")[0].split(" where ")[0].strip()
            first, _, last = what.partition(" for ")
            owner = (last or first).split(":")[0].split("::")[-1].strip()
            trait = first.split("::")[-1].strip() if last or match[1] == "trait" else ""
            trait = trait.split(":")[0]
        elif match := FUNCTION.match(line):
            if call:
                yield call
            call = Call(module, owner, trait, match[2], bool(match[1] or trait))
        elif call and (match := CLAUSE.match(line)):
            call.count += 1
            call.clauses += [match[1].strip()] if match[1] else []
    if call:
        yield call


def sources(folder: str) -> Iterator[tuple[str, str]]:
    """The files of a crate's src/ but its root, each with the module at its top."""
    for at, _, names in sorted(os.walk(folder)):
        for name in sorted(names):
            path = os.path.join(at, name)
            module = os.path.relpath(path, folder).split(os.sep)[0]
            if name.endswith(".rt") and module not in ("lib.rt", "main.rt"):
                with open(path, encoding="utf-8") as file:
                    yield module.removesuffix(".rt"), file.read()


def public_calls(root: str, calls: list[Call]) -> list[Call]:
    """The calls that others can make and that promise something."""
    modules = set(PUBLIC_MODULE.findall(root))
    names = {it.split(" as ")[0].strip() for _, many, one in REEXPORT.findall(root) for it in (many or one).split(",")}
    told = {(it.trait, it.name) for it in calls if it.trait == it.owner and it.count}

    def is_told(call: Call) -> bool:
        if not call.is_public or not call.count:
            return False
        if call.trait and call.trait != call.owner:
            return call.trait in names and (call.trait, call.name) not in told
        return call.module in modules or (call.owner or call.name) in names

    return [it for it in calls if is_told(it)]


def cell_of_calls(calls: list[Call]) -> str:
    """The calls with their clauses; those of one type behind one another, and what is the same but for the name once."""
    groups: dict[tuple[str, tuple[str, ...]], list[str]] = {}
    for call in sorted(calls, key=lambda it: (it.owner != "", it.owner)):
        names = groups.setdefault((call.owner, tuple(dict.fromkeys(call.clauses))), [])
        name = call.name if names or not call.owner else f"{call.owner}::{call.name}"
        names += [name] if name not in names else []
    cells = []
    for (_, clauses), names in groups.items():
        told = f" ({', '.join(clauses)})" if clauses else ""
        cells.append(", ".join(f"`{it}`" for it in names) + told)
    return "; ".join(cells)


def page(top: str) -> str:
    """The page of crates of the repository at a folder."""
    with open(os.path.join(top, "crates.txt"), encoding="utf-8") as file:
        crates = read_crates(file.read())
    by_name, role, lines = {it.name: it for it in crates}, None, [HEAD]
    for crate in crates:
        if crate.role != role:
            role = crate.role
            lines.append(f"\n## {role}\n\n| crate | what it is | stands on | public calls with a promise |\n|---|---|---|---|\n")
        src = os.path.join(top, "crates", crate.name, "src")
        root = next(it for it in (os.path.join(src, "lib.rt"), os.path.join(src, "main.rt")) if os.path.exists(it))
        with open(root, encoding="utf-8") as file:
            text = file.read()
        calls = public_calls(text, [call for module, it in sources(src) for call in calls_of(module, it)])
        cells = [crate.name, what_it_is(text), ", ".join(direct(crate, by_name)), cell_of_calls(calls)]
        lines.append("| " + " | ".join(it.replace("|", "\\|") for it in cells) + " |\n")
    return "".join(lines)
