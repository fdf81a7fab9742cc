"""Draws a timing diagram as an SVG file, without scripts and without fonts of its own."""

from __future__ import annotations

from html import escape
from typing import Iterator

from .columns import signs_of
from .diagram import Band, Diagram, Mark, Measure, Piece, Row, bands, joined, pieces

LEFT, EDGE = 96, 14  # the column of the rows' names, and the border
SIZES = Measure(lead=30, room=1060, sign=7, space=18, usual=70, most=150)
AXIS, CORE, ROW, GAP, LINE = 26, 20, 40, 26, 28  # the heights of a band's head, a core's head, a row, what parts bands, a legend's line
TOP, WAVE = 15, 18  # in a row: where the wave begins, and its height
SLANT = 4
LEAST, WIDEST = 300, 8  # the width of a picture at least, and of a sign at most

STYLE = """
text { font: 12px ui-monospace, monospace; fill: #1f2328; }
.ground { fill: #ffffff; }
.small { font-size: 10px; fill: #59636e; }
.core { font-weight: bold; }
.grid { stroke: #d1d9e0; }
.level { stroke: #0550ae; stroke-width: 1.6; fill: none; }
.bus { stroke: #0550ae; stroke-width: 1.4; fill: none; }
.busground { stroke: none; fill: #ddf4ff; }
.none { stroke: #818b98; stroke-dasharray: 2 3; }
.cut { stroke: #59636e; }
.read { stroke: none; fill: #1a7f37; }
.word { stroke: #8250df; stroke-width: 1.4; fill: none; }
.head { stroke: none; fill: #8250df; }
.wordtext { fill: #8250df; }
.fault { stroke: #cf222e; stroke-width: 2; }
.faulttext { fill: #cf222e; }
.state { stroke: none; fill: #9a6700; }
.statetext { fill: #9a6700; }
"""
DARK_STYLE = """
text { fill: #e6edf3; }
.ground { fill: #0d1117; }
.small { fill: #9198a1; }
.grid { stroke: #343b44; }
.level { stroke: #79c0ff; }
.bus { stroke: #79c0ff; }
.busground { fill: #10294a; }
.none { stroke: #7d8590; }
.cut { stroke: #9198a1; }
.read { fill: #56d364; }
.word { stroke: #d2a8ff; }
.head { fill: #d2a8ff; }
.wordtext { fill: #d2a8ff; }
.fault { stroke: #ff7b72; }
.faulttext { fill: #ff7b72; }
.state { fill: #d29922; }
.statetext { fill: #d29922; }
"""
LEGEND = {
    "level": "a port of one bit: low and high; a dot is an output without an edge",
    "bus": "a wider port: the value from there on",
    "stamp": "the port's counter at a transfer",
    "read": "an input: the value that was read",
    "com": "a word that is taken; short: from the core itself; broken: the listing doesn't tell",
    "err": "an error: line, column and kind",
    "show": "a thread that a script shows: its number, its state and its program counter",
    "unstamped": "words, errors and threads have no stamp: their ticks are only near",
    "none": "nothing was transferred yet, or not known in between",
    "cut": "before this instant time is drawn shorter",
}
SAMPLE = Mark(100, 85, "85")  # of the legend


def tag(name: str, kind: str, text: str = "", **attributes: object) -> str:
    """An element, with its class."""
    given: dict[str, object] = {"class": kind, **attributes} if kind else attributes
    front = name + "".join(f' {key.replace("_", "-")}="{value}"' for key, value in given.items())
    return f"<{front}>{escape(text)}</{name}>" if text else f"<{front}/>"


def label(x: float, y: float, text: str, kind: str = "") -> str:
    return tag("text", kind, text, x=x, y=y)


def stroke(kind: str, *points: tuple[float, float]) -> str:
    """A line through points."""
    return tag("polyline", kind, points=joined_points(*points))


def joined_points(*points: tuple[float, float]) -> str:
    return " ".join(f"{x:g},{y:g}" for x, y in points)


def draw(diagram: Diagram) -> Iterator[str]:
    """The lines of the SVG file."""
    found = bands(diagram, SIZES)
    names = legend_names(diagram, found)
    height = band_height(diagram)
    right = max([LEAST, *(band.end for band in found), *(len(LEGEND[name]) * WIDEST for name in names)])
    size = 2 * EDGE + LEFT + right, 2 * EDGE + len(found) * (height + GAP) + (len(names) + 1) * LINE
    yield from front_of_page(size, f"Timing diagram, end {diagram.end}")
    for number, band in enumerate(found):
        yield f'<g transform="translate({EDGE + LEFT} {EDGE + number * (height + GAP)})">'
        yield from draw_band(diagram, band)
        yield "</g>"
    yield f'<g transform="translate({EDGE} {EDGE + len(found) * (height + GAP)})">'
    yield from draw_legend(names, diagram)
    yield "</g>\n</svg>"


def front_of_page(size: tuple[int, int], title: str) -> Iterator[str]:
    """The lines of a picture up to what it draws."""
    yield f'<svg xmlns="http://www.w3.org/2000/svg" width="{size[0]}" height="{size[1]}" viewBox="0 0 {size[0]} {size[1]}">'
    yield f"<title>{escape(title)}</title>"
    yield f"<style>{STYLE}@media (prefers-color-scheme: dark) {{{DARK_STYLE}}}\n</style>"
    yield tag("rect", "ground", width="100%", height="100%")


def band_height(diagram: Diagram) -> int:
    return AXIS + len({row.core for row in diagram.rows}) * CORE + len(diagram.rows) * ROW


def draw_band(diagram: Diagram, band: Band) -> Iterator[str]:
    """The axis, then row by row, and over all the words."""
    yield from draw_axis(band, band_height(diagram))
    lanes: dict[int, float] = {}
    y, core = AXIS, -1
    for row in diagram.rows:
        if row.core != core:
            core = row.core
            yield label(-LEFT, y + 14, f"core {core}", "core")
            yield stroke("grid", (-LEFT + 50, y + 10), (band.end, y + 10))
            y += CORE
        yield label(-LEFT + 8, y + TOP + 13, row.name)
        if row.kind == "com":
            lanes[core] = y
        else:
            yield from draw_row(row, band, y)
        y += ROW
    for row in diagram.rows:
        if row.kind == "com":
            yield from draw_words(row, band, lanes)


def draw_axis(band: Band, height: int) -> Iterator[str]:
    """The ticks of a band, and a thin line down from each."""
    yield label(-LEFT, 12, "tick", "small")
    for place in band.places:
        yield label(place.at, 12, str(place.tick))
        yield stroke("grid", (place.at, 17), (place.at, height))
        if place.is_cut:
            yield from cut(place.at - 8, 9)


def cut(x: float, y: float) -> Iterator[str]:
    """The sign for time that is drawn shorter."""
    yield stroke("cut", (x - 4, y + 4), (x, y - 4))
    yield stroke("cut", (x, y + 4), (x + 4, y - 4))


def draw_row(row: Row, band: Band, y: float) -> Iterator[str]:
    """A row of a port, of errors or of threads."""
    before = None
    for piece in pieces(row, band):
        if row.kind == "err":
            yield from draw_fault(piece, y)
        elif row.kind == "show":
            yield from draw_state(piece, y)
        elif row.kind == "in":
            yield from draw_read(piece, y)
        elif row.has_levels:
            yield from draw_level(piece, before, y)
        else:
            yield from draw_bus(piece, y)
        if piece.marks and row.kind in ("out", "in"):
            yield label(piece.start + 2, y + TOP - 4, piece.marks[-1].stamp, "small")
        before = piece.value


def level(value: int | None, y: float) -> float:
    """How high a value of one bit is drawn; what isn't known is in the middle."""
    return y + TOP + (WAVE / 2 if value is None else 0 if value else WAVE)


def draw_level(piece: Piece, before: int | None, y: float) -> Iterator[str]:
    at = level(piece.value, y)
    if piece.value is None:
        yield stroke("none", (piece.start, at), (piece.end, at))
        return
    corner = [(piece.start, level(before, y))] if piece.marks else []
    yield stroke("level", *corner, (piece.start, at), (piece.end, at))
    if piece.marks and before == piece.value:
        yield tag("circle", "level", cx=piece.start, cy=at, r=2.5)
    if len(piece.marks) > 1:
        yield label(piece.start + 6, y + TOP + 13, joined(piece.marks))


def draw_bus(piece: Piece, y: float) -> Iterator[str]:
    top, middle, low = y + TOP, y + TOP + WAVE / 2, y + TOP + WAVE
    start, end = piece.start, piece.end
    if piece.value is None:
        yield stroke("none", (start, middle), (end, middle))
        return
    left = [(start, middle), (start + SLANT, 0)] if piece.marks else [(start, 0)]
    right = [(end - SLANT, 0), (end, middle)] if piece.has_end else [(end, 0)]
    upper, lower = ([(x, at or side) for x, at in left + right] for side in (top, low))
    yield tag("polygon", "busground", points=joined_points(*upper, *reversed(lower)))
    yield stroke("bus", *upper)
    yield stroke("bus", *lower)
    if piece.marks:
        yield label(start + 7, middle + 4, joined(piece.marks))
    elif SIZES.width(len(str(piece.value))) <= end - start:
        yield label(start + 7, middle + 4, str(piece.value))


def draw_read(piece: Piece, y: float) -> Iterator[str]:
    middle = y + TOP + WAVE / 2
    if not piece.marks:
        yield stroke("none", (piece.start, middle), (piece.end, middle))
        return
    value = joined(piece.marks)
    yield tag("path", "read", d=f"M{piece.start - 4} {middle - 5}h8l-4 9z")
    yield label(piece.start + 7, middle + 4, value)
    from_here = piece.start + 12 + len(value) * SIZES.sign
    if from_here < piece.end:
        yield stroke("none", (from_here, middle), (piece.end, middle))


def draw_fault(piece: Piece, y: float) -> Iterator[str]:
    if not piece.marks:
        return
    x, middle = piece.start, y + TOP + WAVE / 2
    yield stroke("fault", (x - 4, middle - 4), (x + 4, middle + 4))
    yield stroke("fault", (x - 4, middle + 4), (x + 4, middle - 4))
    yield label(x + 8, middle + 4, joined(piece.marks), "faulttext")


def draw_state(piece: Piece, y: float) -> Iterator[str]:
    if piece.marks:
        middle = y + TOP + WAVE / 2
        yield tag("path", "state", d=f"M{piece.start - 4} {middle}l4 -5l4 5l-4 5z")
        yield label(piece.start + 8, middle + 4, joined(piece.marks), "statetext")


def draw_words(row: Row, band: Band, lanes: dict[int, float]) -> Iterator[str]:
    """The words that a core takes: an arrow each, from the row of the core that sent it."""
    middle = lanes[row.core] + TOP + WAVE / 2
    yield stroke("grid", (0, middle), (band.end, middle))
    for piece in pieces(row, band):
        if piece.marks:
            yield from draw_arrow(piece.start, lanes, row.core, piece.marks[0].sender)
            yield label(piece.start + 7, middle - 4, joined(piece.marks), "wordtext")


def draw_arrow(x: float, lanes: dict[int, float], core: int, sender: int | None) -> Iterator[str]:
    """An arrow to a core; where the sender is the core itself or isn't known, it begins in the core's own row."""
    to = lanes[core] + TOP + WAVE / 2
    is_long = sender not in (None, core)
    start = lanes[core if sender is None else sender] + TOP + WAVE / 2 if is_long else to - WAVE
    down = 1 if to > start else -1
    attributes = {} if sender is not None else {"stroke_dasharray": "3 2"}
    yield tag("path", "word", d=f"M{x} {start}V{to - 6 * down}", **attributes)
    yield tag("path", "head", d=f"M{x - 4} {to - 7 * down}h8l-4 {7 * down}z")
    if is_long:
        yield tag("circle", "head", cx=x, cy=start, r=2.5)


def legend_names(diagram: Diagram, found: list[Band]) -> list[str]:
    """The kinds of signs that the diagram has, in the order of the legend."""
    names = signs_of(diagram, found)
    if any(row.marks for row in diagram.rows if row.kind in ("out", "in")):
        names.add("stamp")
    return [name for name in LEGEND if name in names]


def draw_legend(names: list[str], diagram: Diagram) -> Iterator[str]:
    """A line for each kind of sign, and the end word."""
    for number, name in enumerate(names):
        y = number * LINE
        yield from draw_sign(name, y - TOP)
        yield label(LEFT, y + 13, LEGEND[name])
    yield label(0, len(names) * LINE + 13, f"end {diagram.end}" if names else f"no records, end {diagram.end}", "core")


def draw_sign(name: str, y: float) -> Iterator[str]:
    """A sign of the legend."""
    piece = Piece(8, 60, 85, [SAMPLE])
    if name == "level":
        yield from draw_level(Piece(8, 34, 0, []), None, y)
        yield from draw_level(Piece(34, 60, 1, [SAMPLE]), 0, y)
    elif name == "bus":
        yield from draw_bus(piece, y)
    elif name == "stamp":
        yield label(14, y + TOP + 13, "@100", "small")
    elif name == "read":
        yield tag("path", "read", d=f"M18 {y + TOP + 4}h8l-4 9z")
        yield label(30, y + TOP + 13, "9")
    elif name == "com":
        yield from draw_arrow(22, {0: y + 8}, 0, 0)
        yield label(30, y + TOP + 13, "7", "wordtext")
    elif name == "err":
        yield stroke("fault", (18, y + TOP + 5), (26, y + TOP + 13))
        yield stroke("fault", (18, y + TOP + 13), (26, y + TOP + 5))
    elif name == "show":
        yield tag("path", "state", d=f"M18 {y + TOP + 9}l4 -5l4 5l-4 5z")
    elif name == "unstamped":
        yield label(14, y + TOP + 13, "no @", "small")
    elif name == "none":
        yield from draw_bus(piece._replace(value=None), y)
    elif name == "cut":
        yield from cut(22, y + TOP + 9)
