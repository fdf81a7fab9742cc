"""Writes changes of sources as the lines of a stimulus: at each tick a line for each port whose pins aren't what they were."""

from __future__ import annotations

from dataclasses import dataclass, field
from typing import Iterable, Iterator, NamedTuple

from traces.lines import WORD, Refused
from traces.listing import WIDTHS
from traces.stimulus import MOST_LINES

from .wires import Wire

PORTS = [*WIDTHS]


class Change(NamedTuple):
    """A source has a value from a tick on. `instant` parts changes that come one after the other within the tick; the bits of
    `known` have a value, and the others keep theirs."""

    tick: int
    instant: int
    source: str
    value: int
    known: int


@dataclass
class Pins:
    """The pins of the ports, and those that were written last. `lost` counts for each port the values that lasted for less than a
    tick, which aren't written."""

    wires: dict[str, list[Wire]]
    lost: dict[tuple[int, str], int] = field(default_factory=dict)
    _now: dict[tuple[int, str], int] = field(default_factory=dict)
    _written: dict[tuple[int, str], int] = field(default_factory=dict)
    _changed: dict[tuple[int, str], tuple[int, int]] = field(default_factory=dict)

    def lines(self, changes: Iterable[Change]) -> Iterator[str]:
        """The lines of a stimulus. The changes are in the order of their ticks; pins are 0 at first."""
        tick = 0
        for change in changes:
            if change.tick != tick:
                yield from self._told(tick)
                tick = change.tick
            for wire in self.wires.get(change.source, []):
                self._drive(change, wire)
        yield from self._told(tick)

    def _drive(self, change: Change, wire: Wire) -> None:
        port = wire.core, wire.port
        known = (change.known >> wire.low & (1 << wire.width) - 1) << wire.to
        before = self._now.get(port, 0)
        after = before & ~known | (change.value >> wire.low << wire.to) & known
        if after == before:
            return
        tick, instant = self._changed.get(port, (-1, 0))
        if tick == change.tick and instant != change.instant and before != self._written.get(port, 0):
            self.lost[port] = self.lost.get(port, 0) + 1
        self._now[port] = after
        self._changed[port] = change.tick, change.instant

    def _told(self, tick: int) -> Iterator[str]:
        """The lines of a tick."""
        for core, name in sorted(self._now, key=lambda it: (it[0], PORTS.index(it[1]))):
            value = self._now[core, name]
            if value != self._written.get((core, name), 0):
                if tick >= WORD:
                    raise Refused(f"the tick {tick} is above {WORD - 1}, the last of a stimulus: choose a part with --from and --to")
                self._written[core, name] = value
                yield f"{tick} {core} {name} {value}"


def checked(lines: Iterable[str]) -> list[str]:
    """The lines, where they aren't more than a stimulus may have."""
    found: list[str] = []
    for line in lines:
        if len(found) == MOST_LINES:
            raise Refused(f"more than {MOST_LINES} lines, the most that a stimulus can have: choose a part with --from and --to")
        found.append(line)
    return found
