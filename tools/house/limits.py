"""The house's limits on what is written by hand, and what is beyond them."""

from __future__ import annotations

import re
from collections import Counter, defaultdict
from collections.abc import Iterable, Iterator
from dataclasses import dataclass

from .rust import functions
from .sources import Source

CLAUSE_LENGTH = 200
SPEC_COLUMNS = 140
BODY_LINES = 60
CRATES_OF_A_NAME = 2

# A definition that other modules see: `abbrev pub NAME :`, `pub record NAME`, `pub data NAME`, `pub NAME :`.
DEFINED = re.compile(r"^(?:abbrev |opaque )?pub (?:record |data )?([A-Za-z_◌][^\s:({]*)")


@dataclass(frozen=True, order=True)
class Excess:
    """Something beyond a limit: which one, where, and how much."""

    limit: str
    where: str
    amount: int


def long_clauses(files: Iterable[Source]) -> Iterator[Excess]:
    """Clauses of more than 200 characters."""
    for source in files:
        if source.is_rust and source.folder == "src":
            for function in functions(source):
                for clause in function.clauses:
                    if len(clause.text) > CLAUSE_LENGTH:
                        name = clause.name or clause.kind
                        yield Excess("clause", f"{source.path} {function.name} {name}", len(clause.text))


def wide_specs(files: Iterable[Source]) -> Iterator[Excess]:
    """Files of definitions with lines of more than 140 columns, imports left out, and how many lines."""
    for source in files:
        if source.folder == "specs":
            wide = [line for line in source.lines if len(line) > SPEC_COLUMNS and not line.startswith("use ")]
            if wide:
                yield Excess("columns", source.path, len(wide))


def long_bodies(files: Iterable[Source]) -> Iterator[Excess]:
    """Functions whose bodies take more than 60 lines."""
    for source in files:
        if source.is_rust and source.folder == "src":
            for function in functions(source):
                if function.length > BODY_LINES:
                    yield Excess("body", f"{source.path} {function.name}", function.length)


def missing_heads(files: Iterable[Source]) -> Iterator[Excess]:
    """Files of definitions and lemmas that don't begin with a comment that says what they are about."""
    for source in files:
        stem = source.path.rsplit("/", 1)[1]
        written = not source.is_rust and stem not in ("Lib.antt", "Answers.antt", "Invariants.antt", "Proof.antt")
        if written and not (source.lines and source.lines[0].startswith("--")):
            yield Excess("head", source.path, 1)


def names_in_many_crates(files: Iterable[Source]) -> Iterator[Excess]:
    """Public names of definitions that stand in three crates or more."""
    crates = defaultdict(set)
    for source in files:
        if source.folder == "specs":
            for line in source.lines:
                match = DEFINED.match(line)
                if match is not None and match[1] not in ("mod", "use"):
                    crates[match[1]].add(source.crate)
    for name, of in sorted(crates.items()):
        if len(of) > CRATES_OF_A_NAME:
            yield Excess("name", name, len(of))


def all_excess(files: list[Source]) -> Counter:
    """All that is beyond a limit, with its amount."""
    found: Counter = Counter()
    for rule in (long_clauses, wide_specs, long_bodies, missing_heads, names_in_many_crates):
        for it in rule(files):
            found[(it.limit, it.where)] = max(found[(it.limit, it.where)], it.amount)
    return found
