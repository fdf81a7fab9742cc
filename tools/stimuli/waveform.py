"""A waveform as changes of pins: its signals by their names, and its times as ticks."""

from __future__ import annotations

import re
from dataclasses import dataclass, field
from decimal import Decimal
from functools import reduce
from operator import or_
from typing import Iterable, Iterator, Optional

from traces.lines import Refused

from .pins import Change
from .vcd import UNITS, WITHOUT_BITS, Dump, Header, Signal, Value
from .wires import Entry, Span, Wire, wire

DURATION = re.compile(r"([0-9]{1,20}(?:\.[0-9]{1,15})?) ?(s|ms|us|ns|ps|fs)")
MOST_NAMED = 8


def duration(word: str) -> int:
    """A time of the command line, as "10ns" or "1.5 us", in femtoseconds."""
    match = DURATION.fullmatch(word)
    if match is None:
        raise ValueError
    return int(Decimal(match[1]).scaleb(UNITS[match[2]]))


def named(names: Iterable[str]) -> str:
    """Names in a line, of many the first ones."""
    found = [*names]
    more = f" and {len(found) - MOST_NAMED} more" if len(found) > MOST_NAMED else ""
    return ", ".join(found[:MOST_NAMED]) + more


def is_meant(signal: Signal, given: Span) -> bool:
    """Whether a name of the command line, with as many scopes in front as it has, is that of a signal which has the bits."""
    bits = given.bits or ()
    return f".{signal}".endswith(f".{given.name}") and all(signal.has(index) for index in bits)


def meant(header: Header, given: Span) -> tuple[Signal, Span]:
    """The one signal that a name means, and which of its bits. What stands in brackets may belong to the name."""
    for source in (given, Span(str(given), None)):
        found = {signal.code: signal for signal in header.signals if is_meant(signal, source)}
        if len(found) > 1:
            raise Refused(f"{given} may be {' or '.join(map(str, found.values()))}: write more of its scopes")
        for signal in found.values():
            if signal.kind in WITHOUT_BITS:
                raise Refused(f"{given} is of the kind {signal.kind}, which has no bits")
            return signal, source
    raise Refused(f"there is no signal {given}; there are {named(map(shown, header.signals)) or 'none at all'}")


def shown(signal: Signal) -> str:
    """A signal with its bits."""
    return str(Span(str(signal), None if signal.width == 1 and signal.first == 0 else (signal.first, signal.last)))


def wires_of(header: Header, table: Iterable[Entry]) -> dict[str, list[Wire]]:
    """The wires of a table, by the codes of their signals."""
    found: dict[str, list[Wire]] = {}
    for entry in table:
        signal, source = meant(header, entry.source)
        high, low = map(signal.position, source.bits or (signal.first, signal.last))
        if high < low:
            raise Refused(f"{entry.source}: the bits of {shown(signal)} are written the other way round")
        found.setdefault(signal.code, []).append(wire(entry, low, high - low + 1))
    return found


@dataclass
class Times:
    """How times become ticks: the dump's unit and a tick in femtoseconds; the time that stands at the tick `at`, and the last one.
    What was before that time is as it was then. A change between two ticks is seen at the later one."""

    unit: int
    tick: int
    first: int
    last: Optional[int]
    at: int

    def tick_of(self, time: int) -> int:
        return self.at - (self.first - max(time * self.unit, self.first)) // self.tick

    def is_behind(self, time: int) -> bool:
        """Whether a time is behind the last one."""
        return self.last is not None and time * self.unit > self.last


@dataclass
class Waveform:
    """A dump's changes as those of pins. `rule` says what an unknown bit is: `keep`, `0` or `1`; `unknown` counts for each code the
    changes that had such bits."""

    dump: Dump
    times: Times
    rule: str
    unknown: dict[str, int] = field(default_factory=dict)

    def changes(self, wires: dict[str, list[Wire]]) -> Iterator[Change]:
        """The changes of signals that have wires."""
        whole = {signal.code: (1 << signal.width) - 1 for signal in self.dump.header.signals}
        used = {code: reduce(or_, ((1 << it.width) - 1 << it.low for it in found)) for code, found in wires.items()}
        for value in self.dump.changes(wires):
            if self.times.is_behind(value.time):
                return
            if used[value.code] & ~value.known:
                self.unknown[value.code] = self.unknown.get(value.code, 0) + 1
            instant = max(value.time * self.times.unit, self.times.first)
            yield Change(self.times.tick_of(value.time), instant, value.code, *self._settled(value, whole[value.code]))

    def _settled(self, value: Value, whole: int) -> tuple[int, int]:
        """The bits and which of them are known, with the rule on unknown ones."""
        if self.rule == "keep":
            return value.bits, value.known
        return value.bits | (whole & ~value.known if self.rule == "1" else 0), whole
