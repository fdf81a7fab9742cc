"""Draws a timing diagram in the columns of a terminal."""

from __future__ import annotations

from typing import Iterator

from .diagram import Band, Diagram, Measure, Piece, Row, bands, joined, pieces
from .output import TURN

LEFT = 12  # columns of the rows' names
LOW, HIGH, NONE, HELD = "_", "‾", ".", "-"
UNSTAMPED = ("com", "err", "show")
LEGEND = {
    "level": "__/‾‾ \\__  a port of one bit: low, high; | an output without an edge",
    "bus": "|85---     a wider port: the value from there on",
    "read": "v9         an input that read this value",
    "com": "0>7        the word 7, taken from core 0; ?>7: the listing doesn't tell",
    "err": "!3:9 index an error: line, column and kind",
    "show": "=0 ready.. a thread that a script shows: its number, its state, its program counter",
    "unstamped": "           words, errors and threads have no stamp: their ticks are only near",
    "none": "....       nothing was transferred yet",
    "cut": "~          before this instant time is drawn shorter",
}


def draw(diagram: Diagram, width: int) -> Iterator[str]:
    """The lines of the diagram in so many columns."""
    room = max(width - LEFT, 24)
    found = bands(diagram, Measure(lead=3, room=room, sign=1, space=3, usual=8, most=16))
    for band in found:
        yield from heading(band)
        core = None
        for row in diagram.rows:
            if row.core != core:
                core = row.core
                yield f"core {core}"
            yield (f"  {row.name}".ljust(LEFT) + line(row, band)).rstrip()
        yield ""
    if not found:
        yield "no records"
    yield from legend(diagram, found)
    yield f"end {diagram.end}"


def heading(band: Band) -> Iterator[str]:
    """The ticks of a band, and where these are more than a turn the stamps."""
    ticks, stamps = [" "] * band.end, [" "] * band.end
    for place in band.places:
        put(ticks, place.at, str(place.tick))
        put(stamps, place.at, f"@{place.tick % TURN}")
        if place.is_cut:
            put(ticks, place.at - 1, "~")
    yield "tick".ljust(LEFT) + "".join(ticks).rstrip()
    if band.places[-1].tick >= TURN:
        yield "stamp".ljust(LEFT) + "".join(stamps).rstrip()


def put(signs: list[str], at: int, text: str) -> None:
    """Puts a text over the signs of a line."""
    signs[at : at + len(text)] = text


def line(row: Row, band: Band) -> str:
    """A row in a band."""
    signs = [" "] * band.end
    before = None
    for piece in pieces(row, band):
        fill(signs, row, piece)
        if piece.marks or carries_value(row, piece):
            put(signs, piece.start, front(row, piece, before))
        before = piece.value
    return "".join(signs[: band.end])


def fill(signs: list[str], row: Row, piece: Piece) -> None:
    """Draws what holds between two marks."""
    if row.kind in UNSTAMPED:
        return
    sign = NONE
    if row.has_levels and piece.value is not None:
        sign = HIGH if piece.value else LOW
    elif row.is_level and piece.value is not None:
        sign = HELD
    put(signs, piece.start, sign * (piece.end - piece.start))


def carries_value(row: Row, piece: Piece) -> bool:
    """Whether a piece that begins a band has a value from the band before, and place for it."""
    is_value = row.is_level and not row.has_levels and piece.value is not None
    return is_value and len(str(piece.value)) < piece.end - piece.start


def front(row: Row, piece: Piece, before: int | None) -> str:
    """What stands at the left end of a piece."""
    if not piece.marks:
        return str(piece.value)
    label = joined(piece.marks)
    if row.kind == "com":
        sender = piece.marks[0].sender
        return f"{'?' if sender is None else sender}>{label}"
    if row.kind in ("err", "show"):
        return f"{'!' if row.kind == 'err' else '='}{label}"
    if row.kind == "in":
        return f"v{label}"
    if not row.has_levels:
        return f"|{label}"
    return edge(before, piece.value) + (label if len(piece.marks) > 1 else "")


def edge(before: int | None, value: int | None) -> str:
    """How a row of levels goes from one value to the next."""
    if before is None or before == value:
        return "|"
    return "/" if value else "\\"


def legend(diagram: Diagram, found: list[Band]) -> Iterator[str]:
    """A line for each kind of sign that the diagram has."""
    for name, text in LEGEND.items():
        if name in signs_of(diagram, found):
            yield f"  {text}"


def signs_of(diagram: Diagram, found: list[Band]) -> set[str]:
    """The names of the kinds of signs that a diagram has."""
    names = set()
    for row in diagram.rows:
        if row.kind in UNSTAMPED:
            names |= {row.kind, "unstamped"} if row.marks else set()
        elif row.marks:
            names.add("read" if row.kind == "in" else "level" if row.has_levels else "bus")
            names |= {"none"} if row.before is None and row.is_level else set()
    return names | ({"cut"} if any(place.is_cut for band in found for place in band.places) else set())
