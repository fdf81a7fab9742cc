"""Draws a sequence of messages in the columns of a terminal."""

from __future__ import annotations

from typing import Iterator

from .sequence import Message, Sequence, name_of, tick_of

LEAST = 10  # columns from one to the next
SIDE = {"com": "<- ", "err": "!", "show": "=", "pins": "="}  # in front of what is told of one alone
LEGEND = {
    "arrow": "a word of a channel, or what goes over the pins: port, value and stamp",
    "com": "<- 7   a word from the core itself",
    "unknown": "?- 7   a word, of which the listing doesn't tell from where",
    "err": "!3:9 index   an error: line, column and kind",
    "show": "=0 ready pc 3   a thread that a script shows",
    "pins": "=0:1B 1   pins of a core's port, from the stimulus",
    "near": "~   words, errors and threads have no stamp: their ticks are only near",
}


def draw(sequence: Sequence) -> Iterator[str]:
    """The lines of the sequence."""
    messages = sequence.messages
    left = max([len("tick"), *(len(tick_of(it)) for it in messages)]) + 2
    step = max([LEAST, *(len(it.label) + 6 for it in messages if it.source != it.target)])
    columns = {life: left + 5 + index * step for index, life in enumerate(sequence.lives)}
    yield heading(columns)
    for message in messages:
        yield line(message, columns)
    if not messages:
        yield "no records"
    yield ""
    for name in (it for it in LEGEND if it in signs_of(messages)):
        yield f"  {LEGEND[name]}"
    yield f"end {sequence.end}"


def heading(columns: dict[int, int]) -> str:
    signs = list("tick".ljust(max(columns.values(), default=0) + len("core 0")))
    for life, at in columns.items():
        name = name_of(life)
        signs[at - len(name) // 2 : at - len(name) // 2 + len(name)] = name
    return "".join(signs).rstrip()


def line(message: Message, columns: dict[int, int]) -> str:
    """A message's line: its tick, all who are there, and an arrow or what is told of one alone."""
    signs = list(tick_of(message).ljust(max(columns.values()) + 1))
    for at in columns.values():
        signs[at] = "|"
    source, target, label = message.source, message.target, message.label
    if source is None or source == target:
        text = f"{'?- ' if source is None else SIDE[message.kind]}{label}"
        signs[columns[target] + 1 : columns[target] + 1 + len(text)] = text
        return "".join(signs).rstrip()
    low, high = sorted((columns[source], columns[target]))
    way = label.center(high - low - 3, "-")
    signs[low + 1 : high] = f"<{way}-" if columns[target] == low else f"-{way}>"
    return "".join(signs).rstrip()


def signs_of(messages: list[Message]) -> set[str]:
    """The names of the kinds of signs that messages have."""
    names = {"near"} if any(it.is_near for it in messages) else set()
    for message in messages:
        names.add("unknown" if message.source is None else message.kind if message.source == message.target else "arrow")
    return names
