"""The functions of a file of Rust with contracts, with their clauses, read off the layout that `rt fmt` gives."""

from __future__ import annotations

import re
from collections.abc import Iterator
from dataclasses import dataclass

from .sources import Source

HEAD = re.compile(r"^ *(?:#\[[^\]]*\] *)?(?:pub(?:\([a-z]+\))? )?(?:const )?(?:unsafe )?fn ([a-z_0-9A-Z]+)")
CLAUSE = re.compile(r"^ *(requires|ensures) (?:([a-z_0-9]+) )?\{(.*)$")


@dataclass(frozen=True)
class Clause:
    """A `requires` or an `ensures`, with its text on one line and single blanks between its words."""

    kind: str
    name: str
    text: str


@dataclass(frozen=True)
class Function:
    """A function with its clauses; `length` is how many lines its body takes, its braces left out."""

    name: str
    clauses: tuple[Clause, ...]
    length: int


def functions(source: Source) -> Iterator[Function]:
    """The functions of a file that have a body, in their order."""
    lines, at = source.lines, 0
    while at < len(lines):
        match = HEAD.match(lines[at])
        if match is None:
            at += 1
            continue
        indent = len(lines[at]) - len(lines[at].lstrip())
        begin, clauses, body = at, [], None
        while at < len(lines):
            clause = CLAUSE.match(lines[at])
            if clause is not None:
                at, text = whole_clause(lines, at)
                clauses.append(Clause(clause[1], clause[2] or "", text))
            elif lines[at] == " " * indent + "{" or (lines[at].endswith("{") and at >= begin and not clauses):
                body = at
                break
            elif lines[at].endswith(("{}", ";")):
                break
            else:
                at += 1
        if body is None:
            if clauses:
                yield Function(match[1], tuple(clauses), 0)
            at += 1
            continue
        end = body + 1
        while end < len(lines) and lines[end] != " " * indent + "}":
            end += 1
        yield Function(match[1], tuple(clauses), end - body - 1)
        at = body + 1


def whole_clause(lines: tuple[str, ...], at: int) -> tuple[int, str]:
    """The text of the clause that begins in a line, up to the brace that closes it, and the line behind it."""
    text, depth = [], 0
    while at < len(lines):
        text.append(lines[at].strip())
        depth += lines[at].count("{") - lines[at].count("}")
        at += 1
        if depth <= 0:
            break
    return at, " ".join(text)
