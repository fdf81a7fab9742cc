"""The table of a command line: which bits of a source drive which bits of a port."""

from __future__ import annotations

import re
from typing import Iterable, NamedTuple, Optional

from traces.lines import Refused
from traces.listing import CORES, WIDTHS

BITS = r"(?:\[(-?[0-9]{1,9})(?::(-?[0-9]{1,9}))?\])?"
ENTRY = re.compile(rf"(.+?){BITS}=([0-9]{{1,9}}):([0-9]+[A-Z]){BITS}")
FORM = "SOURCE=CORE:PORT, both with [BIT] or [HIGH:LOW] behind it where not all bits are meant"


class Span(NamedTuple):
    """Some bits of a name: from one index to another, as they are written; None means all."""

    name: str
    bits: Optional[tuple[int, int]]

    def __str__(self) -> str:
        if self.bits is None:
            return self.name
        first, last = self.bits
        return f"{self.name}[{first}]" if first == last else f"{self.name}[{first}:{last}]"


class Entry(NamedTuple):
    """An entry of the table: the bits of a source, the core and the port, and the lowest of its bits, with their number."""

    source: Span
    core: int
    port: str
    low: int
    width: int

    @property
    def target(self) -> str:
        whole = f"{self.core}:{self.port}"
        return whole if self.width == WIDTHS[self.port] else str(Span(whole, (self.low + self.width - 1, self.low)))


class Wire(NamedTuple):
    """So many bits of a source, from `low` on, that drive those of a port from `to` on."""

    low: int
    width: int
    core: int
    port: str
    to: int


def read_entry(word: str) -> Entry:
    """An entry as it stands on a command line."""
    match = ENTRY.fullmatch(word)
    if match is None:
        raise Refused(f"{word}: expected {FORM}")
    name, first, last, core, port, high, low = match.groups()
    if int(core) >= CORES or port not in WIDTHS:
        raise Refused(f"{word}: there is no core {core} or no port {port}")
    upper, lower = bits_of_port(word, port, bits_of(high, low))
    return Entry(Span(name, bits_of(first, last)), int(core), port, lower, upper - lower + 1)


def bits_of(first: Optional[str], last: Optional[str]) -> Optional[tuple[int, int]]:
    """The indices that stand in brackets, where there are some."""
    return None if first is None else (int(first), int(first if last is None else last))


def bits_of_port(word: str, port: str, given: Optional[tuple[int, int]]) -> tuple[int, int]:
    """The highest and the lowest of the bits of a port that are given, or of all."""
    high, low = given or (WIDTHS[port] - 1, 0)
    if not 0 <= low <= high < WIDTHS[port]:
        raise Refused(f"{word}: the port {port} has the bits {WIDTHS[port] - 1} to 0, from the highest to the lowest")
    return high, low


def read_entries(word: str) -> list[Entry]:
    """The entries that a word stands for: several sources with commas between, the highest first, are a bit each."""
    sources, _, target = word.rpartition("=")
    names = sources.split(",")
    if len(names) == 1:
        return [read_entry(word)]
    whole = read_entry(f"{names[0]}={target}")
    if len(names) != whole.width:
        raise Refused(f"{word}: {len(names)} sources for {counted(whole.width)}")
    bits = range(whole.low + whole.width - 1, whole.low - 1, -1)
    return [read_entry(f"{name}={whole.core}:{whole.port}[{bit}]") for name, bit in zip(names, bits)]


def read_table(words: Iterable[str]) -> list[Entry]:
    """The entries of a command line. Each bit of a port is driven once."""
    found = [entry for word in words for entry in read_entries(word)]
    driven: dict[tuple[int, str], int] = {}
    for entry in found:
        mask = (1 << entry.width) - 1 << entry.low
        if driven.get((entry.core, entry.port), 0) & mask:
            raise Refused(f"{entry.target} is driven twice")
        driven[entry.core, entry.port] = driven.get((entry.core, entry.port), 0) | mask
    return found


def wire(entry: Entry, low: int, width: int) -> Wire:
    """The wire of an entry, from bits of its source. Both have as many."""
    if width != entry.width:
        advice = f": choose {entry.width} of them by [HIGH:LOW] or [BIT]" if width > entry.width else ""
        raise Refused(f"{entry.source} has {counted(width)} and {entry.target} has {entry.width}{advice}")
    return Wire(low, width, entry.core, entry.port, entry.low)


def counted(width: int) -> str:
    return "1 bit" if width == 1 else f"{width} bits"
