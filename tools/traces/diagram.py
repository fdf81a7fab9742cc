"""A timing diagram, whatever it is drawn with: its rows, and where the instants stand that the rows speak of."""

from __future__ import annotations

from bisect import bisect_left
from dataclasses import dataclass, field
from typing import Iterable, Iterator, NamedTuple, Optional

from .lines import Refused
from .listing import WIDTHS, Listing
from .output import TURN, Record

MOST_RECORDS = 5_000


class Mark(NamedTuple):
    """Something on a row at a tick: the value from then on, and the words beside it. A word has the core that sent it, where
    the listing tells it."""

    tick: int
    value: int
    label: str
    sender: Optional[int] = None

    @property
    def stamp(self) -> str:
        return f"@{self.tick % TURN}"


@dataclass
class Row:
    """A row of the diagram. `kind` is `out`, `in`, `pins`, `com`, `err` or `show`; `before` is the value at its left end, where there is one.
    The marks stand by their ticks, and these in their order."""

    core: int
    kind: str
    port: str
    before: Optional[int] = None
    marks: dict[int, list[Mark]] = field(default_factory=dict)

    @property
    def name(self) -> str:
        return {"com": "words", "err": "errors", "show": "threads"}.get(self.kind, f"{self.port} {self.kind}")

    @property
    def has_levels(self) -> bool:
        """Whether it is drawn as low and high."""
        return self.kind in ("out", "pins") and WIDTHS[self.port] == 1

    @property
    def is_level(self) -> bool:
        """Whether a value holds until the next mark."""
        return self.kind in ("out", "pins")

    def longest(self, marks: list[Mark]) -> int:
        """How many signs the marks of one instant need beside it."""
        stamp = len(marks[-1].stamp) if self.kind in ("out", "in") else 0
        return max(stamp, 0 if self.has_levels and len(marks) == 1 else len(joined(marks)))


@dataclass
class Diagram:
    """The rows, core by core, and the end word."""

    rows: list[Row]
    end: str = ""

    def ticks(self) -> list[int]:
        """The instants of which some row speaks, in their order."""
        return sorted({tick for row in self.rows for tick in row.marks})


def joined(marks: list[Mark]) -> str:
    """The labels of marks at one instant; of many the first two and the last."""
    labels = [it.label for it in marks]
    return ", ".join(labels if len(labels) <= 4 else [*labels[:2], "..", labels[-1]])


def empty_rows(listing: Listing, pins: set[tuple[int, str]]) -> list[Row]:
    """The rows of a listing's ports and words, and of pins."""
    rows = []
    for core in sorted({*listing.cores, *(core for core, _ in pins)}):
        listed = listing.cores.get(core)
        ports = listed.ports if listed else {}
        for port in [*ports, *(name for name in WIDTHS if (core, name) in pins and name not in ports)]:
            rows += [Row(core, kind, port) for kind in ("out", "in") if port in ports and ports[port].does(kind)]
            if (core, port) in pins:
                rows.append(Row(core, "pins", port, before=0))
        if listed and listed.ends:
            rows.append(Row(core, "com", ""))
        rows += [Row(core, "err", ""), Row(core, "show", "")]
    return rows


def draw_up(listing: Listing, pins: set[tuple[int, str]], events: Iterable[tuple[int, Record]], first: int, last: int) -> Diagram:
    """The diagram of the events from one tick to another, both included. Rows of errors and of threads stand only where there are
    some."""
    rows = {(row.kind, row.core, row.port): row for row in empty_rows(listing, pins)}
    senders = {core: listing.senders(core) for core in listing.cores}
    count = 0
    for tick, record in events:
        row = rows.get((record.kind, record.core, record.port))
        if tick > last:
            break
        if row is None:
            continue
        if tick < first:
            row.before = record.value if row.is_level else None
            continue
        count += 1
        if count > MOST_RECORDS:
            raise Refused(f"more than {MOST_RECORDS} records: choose some with --from TICK and --to TICK")
        row.marks.setdefault(tick, []).append(mark_of(tick, record, senders.get(record.core, set())))
    return Diagram([row for row in rows.values() if row.kind not in ("err", "show") or row.marks])


def mark_of(tick: int, record: Record, senders: set[int]) -> Mark:
    """What a record marks on its row."""
    if record.kind == "com":
        return Mark(tick, record.value, str(record.value), next(iter(senders)) if len(senders) == 1 else None)
    if record.kind == "show":
        return Mark(tick, 0, record.text.partition(" r0 ")[0])
    return Mark(tick, record.value, record.text or str(record.value))


class Place(NamedTuple):
    """Where an instant stands in a band, and whether the time before it is drawn shorter than it is beside the others."""

    tick: int
    at: int
    is_cut: bool


@dataclass
class Band:
    """A part of the diagram that fits into the width: its instants, and where it ends. Bands stand below each other."""

    places: list[Place]
    end: int


@dataclass
class Measure:
    """The sizes of what draws: where the first instant stands, how wide a band is, a sign, the space behind a label, a usual gap
    between two instants, and the greatest."""

    lead: int
    room: int
    sign: int
    space: int
    usual: int
    most: int

    def width(self, signs: int) -> int:
        return signs * self.sign + self.space


def bands(diagram: Diagram, measure: Measure) -> list[Band]:
    """Gives each instant its place: as far behind the one before as its time is, but so that labels fit and long gaps are cut."""
    ticks = diagram.ticks()
    gaps = sorted(after - before for before, after in zip(ticks, ticks[1:]))
    usual = gaps[(len(gaps) - 1) // 2] if gaps else 1  # the median
    needs = label_needs(diagram, measure)
    found: list[Band] = []
    before: Optional[int] = None
    for tick in ticks:
        own = max(measure.width(len(str(tick))), *(need for need, _ in needs[tick]))
        gap = round(measure.usual * (tick - before) / usual) if before is not None else 0
        at = next_place(found, needs, tick, min(gap, measure.most), measure)
        if at is None or at + own > measure.room:
            found.append(Band([], 0))
            at = measure.lead
        band = found[-1]
        band.places.append(Place(tick, at, gap > measure.most and bool(band.places)))
        band.end = max(band.end, at + own)
        before = tick
    return found


def label_needs(diagram: Diagram, measure: Measure) -> dict[int, list[tuple[int, int]]]:
    """For each instant how much place each row needs behind it, with the row's number."""
    needs: dict[int, list[tuple[int, int]]] = {}
    for number, row in enumerate(diagram.rows):
        for tick, marks in row.marks.items():
            needs.setdefault(tick, []).append((measure.width(row.longest(marks)), number))
    return needs


def next_place(found: list[Band], needs: dict[int, list[tuple[int, int]]], tick: int, gap: int, measure: Measure) -> Optional[int]:
    """Where an instant stands in the last band, behind the labels of its rows; None where there is no band yet."""
    if not found:
        return None
    rows = {number for _, number in needs[tick]}
    last = found[-1].places[-1]
    at = last.at + max(gap, measure.width(len(str(last.tick))))
    for place in found[-1].places:
        at = max([at, *(place.at + need for need, number in needs[place.tick] if number in rows)])
    return at


class Piece(NamedTuple):
    """A piece of a row in a band, from one mark to the next: its value, if it has one, the marks at its left end, and whether a
    mark is at its right end too."""

    start: int
    end: int
    value: Optional[int]
    marks: list[Mark]
    has_end: bool = True


def pieces(row: Row, band: Band) -> Iterator[Piece]:
    """The pieces of a row in a band, of which the first has no marks."""
    ticks = [*row.marks]
    earlier = bisect_left(ticks, band.places[0].tick)
    value = row.marks[ticks[earlier - 1]][-1].value if earlier else row.before
    start = 0
    here: list[Mark] = []
    for place in band.places:
        if place.tick in row.marks:
            yield Piece(start, place.at, value, here)
            here = row.marks[place.tick]
            start, value = place.at, here[-1].value
    yield Piece(start, band.end, value, here, False)
