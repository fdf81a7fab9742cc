"""Draws a sequence of messages as an SVG file, without scripts and without fonts of its own."""

from __future__ import annotations

from typing import Iterator

from .sequence import PINS, Message, Sequence, name_of, tick_of
from .sequence_text import signs_of
from .svg import EDGE, LEAST, LINE, SIZES, WIDEST, front_of_page, label, stroke, tag

LEFT, HEAD, ROW, BOX = 90, 32, 26, 72  # the columns of ticks, the heights of names and of a message, the width of a name's box
STEP, SIDE = 130, 24  # from one to the next at least, and how far a word goes that comes from the core itself
COLOURS = {"com": ("word", "head", "wordtext"), "out": ("level", "pin", "pintext"), "in": ("read_line", "read", "readtext")}
STYLE = """
.box { stroke: #818b98; fill: none; }
.life { stroke: #818b98; stroke-dasharray: 4 3; }
.read_line { stroke: #1a7f37; stroke-width: 1.4; fill: none; }
.readtext { fill: #1a7f37; }
.pin { stroke: none; fill: #0550ae; }
.pintext { fill: #0550ae; }
@media (prefers-color-scheme: dark) {
.read_line { stroke: #56d364; }
.readtext { fill: #56d364; }
.pin { fill: #79c0ff; }
.pintext { fill: #79c0ff; }
}
"""
LEGEND = {
    "arrow": "a word of a channel (violet), an output (blue) or an input (green): port, value and the port's counter",
    "com": "a word from the core itself",
    "unknown": "a word, of which the listing doesn't tell from where",
    "err": "an error: line, column and kind",
    "show": "a thread that a script shows: its number, its state and its program counter",
    "pins": "pins of a core's port, from the stimulus",
    "near": "words, errors and threads have no stamp: their ticks are only near",
}
NEAR = Message(501, "com", 0, 0, "7")  # of the legend


def draw(sequence: Sequence) -> Iterator[str]:
    """The lines of the SVG file."""
    step, messages = step_of(sequence), sequence.messages
    places = {life: LEFT + BOX / 2 + index * step for index, life in enumerate(sequence.lives)}
    names = [it for it in LEGEND if it in signs_of(messages)]
    low = HEAD + ROW * max(len(messages), 1) + ROW / 2
    size = 2 * EDGE + width_of(sequence, places, names), 2 * EDGE + round(low) + (len(names) + 1) * LINE
    yield from front_of_page(size, f"Sequence of messages, end {sequence.end}")
    yield f"<style>{STYLE}</style>"
    yield f'<g transform="translate({EDGE} {EDGE})">'
    for life, x in places.items():
        yield tag("rect", "box", x=x - BOX / 2, y=0, width=BOX, height=24, rx=3)
        yield tag("text", "core", name_of(life), x=x, y=16, text_anchor="middle")
        yield stroke("life", (x, 24), (x, low))
    yield label(0, 16, "tick", "small")
    for number, message in enumerate(messages):
        y = HEAD + (number + 1) * ROW
        yield label(0, y + 4, tick_of(message))
        yield from draw_message(message, places, y, step)
    yield "</g>"
    yield f'<g transform="translate({EDGE} {EDGE + low + LINE / 2})">'
    yield from draw_legend(names, sequence)
    yield "</g>\n</svg>"


def step_of(sequence: Sequence) -> int:
    """How far one stands from the next, so that the labels between fit."""
    return max([STEP, *(SIZES.width(len(it.label)) + 30 for it in sequence.messages if it.source != it.target)])


def width_of(sequence: Sequence, places: dict[int, float], names: list[str]) -> int:
    """How wide the picture is: all who are there, what is told beside them, and the legend."""
    boxes = [x + BOX / 2 for x in places.values()]
    sides = [places[it.target] + SIDE + 10 + len(it.label) * WIDEST for it in sequence.messages if it.source in (None, it.target)]
    legend = [LEFT + len(LEGEND[name]) * WIDEST for name in names]
    return round(max([LEAST, *boxes, *sides, *legend]))


def draw_message(message: Message, places: dict[int, float], y: float, step: float) -> Iterator[str]:
    """An arrow from one to another, or what is told of one alone."""
    to = places[message.target]
    if message.kind not in COLOURS:
        yield from draw_note(message, to, y)
        return
    line, head, text = COLOURS[message.kind]
    if message.source is None:
        yield tag("path", line, d=f"M{to + SIDE} {y}H{to + 6}", stroke_dasharray="3 2")
        yield from draw_head(to, y, -1, head)
        yield label(to + SIDE + 5, y + 4, message.label, text)
    elif message.source == message.target:
        yield tag("path", line, d=f"M{to} {y - 8}h{SIDE - 4}q4 0 4 4t-4 4H{to + 6}")
        yield from draw_head(to, y, -1, head)
        yield label(to + SIDE + 5, y, message.label, text)
    else:
        start = places[message.source]
        way = 1 if to > start else -1
        yield tag("path", line, d=f"M{start} {y}H{to - 6 * way}")
        yield from draw_head(to, y, way, head)
        middle = start + way * min(step / 2, abs(to - start) / 2)  # beside the one whose message it is, and over nobody's line
        yield tag("text", text, message.label, x=middle, y=y - 4, text_anchor="middle")


def draw_head(x: float, y: float, way: int, kind: str) -> Iterator[str]:
    """The head of an arrow that points to the right (1) or to the left (-1)."""
    yield tag("path", kind, d=f"M{x} {y}l{-7 * way} -4v8z")


def draw_note(message: Message, x: float, y: float) -> Iterator[str]:
    """What is told of one alone."""
    if message.kind == "err":
        yield stroke("fault", (x - 4, y - 4), (x + 4, y + 4))
        yield stroke("fault", (x - 4, y + 4), (x + 4, y - 4))
    else:
        kind = "read" if message.target == PINS else "state"
        yield tag("path", kind, d=f"M{x - 4} {y}l4 -5l4 5l-4 5z")
    if message.label:
        yield label(x + 10, y + 4, message.label, {"err": "faulttext", "pins": "readtext"}.get(message.kind, "statetext"))


def draw_legend(names: list[str], sequence: Sequence) -> Iterator[str]:
    """A line for each kind of sign, and the end word."""
    for number, name in enumerate(names):
        y = number * LINE
        yield from draw_sign(name, y + 9)
        yield label(LEFT, y + 13, LEGEND[name])
    end = f"end {sequence.end}"
    yield label(0, len(names) * LINE + 13, end if sequence.messages else f"no records, {end}", "core")


def draw_sign(name: str, y: float) -> Iterator[str]:
    """A sign of the legend."""
    ends = {0: 10.0, 1: 60.0, PINS: 10.0}
    if name == "arrow":
        yield from draw_message(Message(0, "com", 0, 1, "7"), ends, y, STEP)
    elif name in ("com", "unknown"):
        yield from draw_message(Message(0, "com", 0 if name == "com" else None, 0, "7"), ends, y, STEP)
    elif name == "near":
        yield label(10, y + 4, tick_of(NEAR))
    else:
        yield from draw_note(Message(0, name, 0, PINS if name == "pins" else 0, ""), 14, y)
