"""A listing with the lines of its text between, and what the records of a run tell of both."""

from __future__ import annotations

from collections import Counter
from dataclasses import dataclass, field
from typing import Iterable, Iterator, Optional

from diagnostics.source import Source

from .listing import Core, Instruction, Listing
from .output import Record
from .resources import name_of, only_makers, resources_of
from .taken import JUMP

NUMBER, CODE = 5, 32  # the columns of a line's number, and of an instruction with its index


@dataclass
class Told:
    """What records tell: how many transfers each port of a core made, how many words a core took, and which errors stand at a
    place of the text."""

    transfers: Counter[tuple[int, str, str]] = field(default_factory=Counter)
    words: Counter[int] = field(default_factory=Counter)
    errors: dict[tuple[int, int], list[str]] = field(default_factory=dict)

    def add(self, record: Record) -> None:
        if record.kind == "com":
            self.words[record.core] += 1
        elif record.kind == "err":
            place, _, kind = record.text.partition(" ")
            line, _, column = place.partition(":")
            self.errors.setdefault((int(line), int(column)), []).append(f"err {record.core} {kind}")
        elif record.kind in ("out", "in"):
            self.transfers[record.core, record.port, record.kind] += 1


def told_by(records: Iterable[Record]) -> Told:
    told = Told()
    for record in records:
        told.add(record)
    return told


def jumps_to(core: Core) -> dict[int, list[int]]:
    """For each index that a jump, a vector or a new thread leads to, the indices of these instructions."""
    found: dict[int, list[int]] = {}
    for index, instruction in enumerate(core.code):
        if match := JUMP.fullmatch(instruction.text):
            found.setdefault(int(match[1]), []).append(index)
    return found


def in_order_of_code(listing: Listing, source: Source, told: Optional[Told]) -> Iterator[str]:
    """The listing core by core, with the line of the text in front of what comes from it, wherever that is another line than
    before, and a caret wherever it is another place."""
    for core in listing.cores.values():
        yield from head_of(core, told)
        beside, last = notes_of(core, listing, told), Instruction("", -1, -1)
        for index, instruction in enumerate(core.code):
            if instruction[1:] != last[1:]:
                yield from place_of(instruction, last, source, told)
            yield f"{index:{NUMBER + 6}}  {instruction.text:{CODE}}{', '.join(beside.get(index, []))}".rstrip()
            last = instruction
        yield ""


def notes_of(core: Core, listing: Listing, told: Optional[Told]) -> dict[int, list[str]]:
    """What stands behind instructions, by their indices: from where else than the one in front they are reached, which resource they
    use, and how often they ran where records tell it."""
    notes: dict[int, list[str]] = {}
    for index in core.roots:
        notes.setdefault(index, []).append("root")
    for index, sources in jumps_to(core).items():
        notes.setdefault(index, []).append(f"from {', '.join(map(str, sources))}")
    used = resources_of(core)
    for index, number in used.items():
        notes.setdefault(index, []).extend(filter(None, [name_of(listing, core, number)]))
    if told:
        for (kind, port), index in only_makers(core, used).items():
            count = told.words[core.number] if kind == "com" else told.transfers[core.number, port, kind]
            notes.setdefault(index, []).append(f"ran {counted(count, 'time')}")
    return notes


def head_of(core: Core, told: Optional[Told]) -> Iterator[str]:
    """What a core has, and how much went through it where a run tells that."""
    words = counted(told.words[core.number], "word taken", "words taken") if told and core.ends else ""
    has = [counted(core.words, "word"), counted(core.timers, "timer"), counted(core.ends, "channel end"), words]
    yield f"core {core.number}: {', '.join(it for it in has if it)}"
    for port in core.ports.values():
        kinds = [("out", "output"), ("in", "input")] if told else []
        counts = [counted(told.transfers[core.number, port.name, kind], name) for kind, name in kinds if port.does(kind)] if told else []
        yield f"  port {port.name} {port.direction}{''.join(f', {it}' for it in counts)}"
    yield ""


def counted(number: int, one: str, many: str = "") -> str:
    return f"{number} {one if number == 1 else many or one + 's'}"


def place_of(instruction: Instruction, last: Instruction, source: Source, told: Optional[Told]) -> Iterator[str]:
    """The line of an instruction, where the last one came from another, and a caret at its place."""
    line, column = instruction.line, instruction.column
    shown = source.excerpt(line, column)
    if shown is None:
        yield f"{line:{NUMBER}} | there is no such line in the text"
        return
    if line != last.line:
        yield f"{line:{NUMBER}} | {shown[0]}"
    errors = [f"  <- {it}" for it in told.errors.get((line, column), [])] if told else []
    yield f"{'':{NUMBER}} | {shown[1]}{''.join(errors)}"


def in_order_of_text(listing: Listing, source: Source, told: Optional[Told]) -> Iterator[str]:
    """The text, with how many instructions come of each line in front of it, and the errors behind."""
    counts = Counter(it.line for core in listing.cores.values() for it in core.code)
    errors: dict[int, list[str]] = {}
    for (line, _), kinds in (told.errors if told else {}).items():
        errors.setdefault(line, []).extend(kinds)
    for line in range(1, len(source.lines) + 1):
        text = source.shown(line)
        if text or line < len(source.lines):
            behind = "".join(f"  <- {it}" for it in errors.get(line, []))
            yield f"{counts[line] or '':>6} |{line:{NUMBER}} | {text}{behind}".rstrip()
    yield f"{sum(counts.values()):6} | instructions in all"
