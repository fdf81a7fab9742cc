"""The outputs of a run as changes of pins."""

from __future__ import annotations

from typing import Iterable, Iterator

from traces.lines import Refused
from traces.listing import CORES, WIDTHS, Listing
from traces.output import Record

from .pins import Change
from .wires import Entry, Wire, bits_of_port, wire


def wires_of(listing: Listing, table: Iterable[Entry]) -> dict[str, list[Wire]]:
    """The wires of a table, by their sources, which are ports that the run outputs to."""
    found: dict[str, list[Wire]] = {}
    for entry in table:
        core, _, port = entry.source.name.partition(":")
        listed = listing.cores.get(int(core)) if core in map(str, range(CORES)) else None
        if listed is None or port not in listed.ports or not listed.ports[port].does("out"):
            raise Refused(f"{entry.source}: {outputs_of(listing)}")
        high, low = bits_of_port(str(entry.source), port, entry.source.bits)
        found.setdefault(entry.source.name, []).append(wire(entry, low, high - low + 1))
    return found


def outputs_of(listing: Listing) -> str:
    """Which ports there are to choose from."""
    ports = [f"{number}:{it.name}" for number, core in listing.cores.items() for it in core.ports.values() if it.does("out")]
    return f"the run outputs to {', '.join(ports) or 'no port'}, written as CORE:PORT"


def changes(events: Iterable[tuple[int, Record]], first: int, last: int, at: int) -> Iterator[Change]:
    """The outputs from one tick to another, both included, of which the first stands at the tick `at`. What was output before is
    there from the beginning on, and isn't lost where it ends there."""
    for number, (tick, record) in enumerate(events):
        if tick > last:
            return
        if record.kind == "out":
            whole = (1 << WIDTHS[record.port]) - 1
            yield Change(max(tick, first) - first + at, number if tick > first else -1, f"{record.core}:{record.port}", record.value, whole)
