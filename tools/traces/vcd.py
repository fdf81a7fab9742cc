"""Writes the records of an output as a Value Change Dump (IEEE 1364)."""

from __future__ import annotations

from itertools import chain
from typing import Iterable, Iterator, NamedTuple, TextIO

from .listing import WIDTHS, Listing
from .output import Record

FIRST_SIGN, SIGNS = ord("!"), 94  # the signs that identifier codes are made of
NOTES = """\
One tick of the reference clock is 10 ns, of its nominal 100 MHz.
{clocks}
A stamp has 16 bits: its tick is the first one with these bits that doesn't lie before the record before it.
A gap of a whole turn of 65536 ticks or more can't be seen, and all that follows it then stands too early.
Words of channels (com) and errors (err) have no stamp: they stand a tick behind the record before them, or at
the next stamp where that comes first. Of several words at one tick the last is seen.
A port is x before its first transfer; port_ID is what was output, port_ID_in what was read, port_ID_pins the stimulus."""
OWN_CLOCKS = "Each core is unwrapped by itself, so two cores may stand whole turns apart."
ONE_CLOCK = "All cores go by one clock (--lockstep), in the order of the records."


class Signal(NamedTuple):
    """A variable of the dump: its identifier code, type, width, name, and the value that it has at first."""

    code: str
    kind: str
    width: int
    name: str
    first: str


class Dump:
    """The signals of an output, by the kind of record that changes them, the core and the port."""

    def __init__(self, listing: Listing, pins: set[tuple[int, str]]):
        self._signals: dict[tuple[str, int, str], Signal] = {}
        self._cores = sorted({*listing.cores, *(core for core, _ in pins)})
        for core in self._cores:
            if core in listing.cores:
                self._declare_core(listing, core)
            for number, port in sorted(pins, key=lambda it: (it[0], [*WIDTHS].index(it[1]))):
                if number == core:
                    self._declare("pins", core, port, f"port_{port}_pins", "0")

    def _declare_core(self, listing: Listing, core: int) -> None:
        for port in listing.cores[core].ports.values():
            if port.does("out"):
                self._declare("out", core, port.name, f"port_{port.name}", "x")
            if port.does("in"):
                self._declare("in", core, port.name, f"port_{port.name}_in", "x")
        if listing.cores[core].ends:
            self._declare("com", core, "", "com", "")
            self._declare("value", core, "", "com_value", "x")

    def _declare(self, kind: str, core: int, port: str, name: str, first: str) -> None:
        type_name = "event" if kind == "com" else "wire"
        width = 32 if kind == "value" else WIDTHS.get(port, 1)
        code = identifier_code(len(self._signals))
        self._signals[kind, core, port] = Signal(code, type_name, width, name, first)

    def hold(self, record: Record) -> None:
        """Takes a record of before the first tick: what it changes is so at that tick."""
        kind = "value" if record.kind == "com" else record.kind
        signal = self._signals.get((kind, record.core, record.port))
        if signal is not None:
            self._signals[kind, record.core, record.port] = signal._replace(first=f"{record.value:b}")

    def header(self, is_lockstep: bool, first: int) -> Iterator[str]:
        """The lines from the first to the values at the first tick."""
        yield "$version tools/trace-vcd of xcsim $end"
        yield f"$comment\n{NOTES.format(clocks=ONE_CLOCK if is_lockstep else OWN_CLOCKS)}\n$end"
        yield "$timescale 10 ns $end"
        for core in self._cores:
            yield f"$scope module core{core} $end"
            for (_, number, _), signal in self._signals.items():
                if number == core:
                    span = f" [{signal.width - 1}:0]" if signal.width > 1 else ""
                    yield f"$var {signal.kind} {signal.width} {signal.code} {signal.name}{span} $end"
            yield "$upscope $end"
        yield "$enddefinitions $end"
        yield f"#{first}\n$dumpvars"
        for signal in self._signals.values():
            if signal.first:
                yield change(signal, signal.first)
        yield "$end"

    def lines(self, record: Record) -> str:
        """What a record changes, or a comment."""
        if record.kind == "com":
            event = self._signals["com", record.core, ""]
            return f"1{event.code}\n{change(self._signals['value', record.core, ''], f'{record.value:b}')}"
        if record.text:
            return f"$comment {record.kind} {record.core} {record.text} $end"
        return change(self._signals[record.kind, record.core, record.port], f"{record.value:b}")


def change(signal: Signal, value: str) -> str:
    """The line that gives a signal a value."""
    return f"{value}{signal.code}" if signal.width == 1 else f"b{value} {signal.code}"


def identifier_code(number: int) -> str:
    """The identifier code of the signal with a number, from 0."""
    code = ""
    while True:
        number, sign = divmod(number, SIGNS)
        code += chr(FIRST_SIGN + sign)
        if number == 0:
            return code


def from_tick(dump: Dump, events: Iterable[tuple[int, Record]], first: int) -> Iterator[tuple[int, Record]]:
    """The events from a tick on, behind those before, which the dump holds."""
    left = iter(events)
    for tick, record in left:
        if tick >= first:
            return chain([(tick, record)], left)
        dump.hold(record)
    return left


def write_changes(dump: Dump, events: Iterable[tuple[int, Record]], first: int, out: TextIO) -> int:
    """Writes the changes of events, which are in the order of their ticks, and returns the last tick."""
    now = first
    for tick, record in events:
        if tick != now:
            out.write(f"#{tick}\n")
            now = tick
        out.write(dump.lines(record) + "\n")
    return now
