"""Reads a Value Change Dump (IEEE 1364), as logic analysers and simulators write it: its signals at once, then its changes one by one."""

from __future__ import annotations

import re
from dataclasses import dataclass
from typing import BinaryIO, Container, Iterator, NamedTuple, Optional

from traces.lines import Lines, Refused

UNITS = {"s": 15, "ms": 12, "us": 9, "ns": 6, "ps": 3, "fs": 0}  # the powers of ten of a femtosecond
SCALE = re.compile(r"(1|10|100) ?(s|ms|us|ns|ps|fs)")
REFERENCE = re.compile(r"(.+?) ?(?:\[ ?(-?[0-9]+) ?(?:: ?(-?[0-9]+) ?)?\])?")
WITHOUT_BITS = {"real", "realtime", "shortreal", "string", "event"}
SKIPPED = {"$dumpvars", "$dumpall", "$dumpon", "$dumpoff", "$end"}  # what stands behind these is read as any changes are
META = "META"  # the front of lines that sigrok-cli writes before the dump
LOW, HIGH, UNKNOWN = "0lL", "1hH", "xXzZuUwW-"
SCALARS = LOW + HIGH + UNKNOWN
ZEROS, ONES = str.maketrans(SCALARS, "000111000000000"), str.maketrans(SCALARS, "111111000000000")


class Signal(NamedTuple):
    """A variable: its scopes and its name, its kind, the indices of its first and last bit, how many bits it has, and its code."""

    path: tuple[str, ...]
    kind: str
    first: int
    last: int
    width: int
    code: str

    def __str__(self) -> str:
        return ".".join(self.path)

    def has(self, index: int) -> bool:
        """Whether there is a bit with this index."""
        return min(self.first, self.last) <= index <= max(self.first, self.last)

    def position(self, index: int) -> int:
        """How many bits are behind the one with this index."""
        return abs(index - self.last)


class Value(NamedTuple):
    """A change: the time, in the dump's own unit, the code, the bits, and which of these are 0 or 1."""

    time: int
    code: str
    bits: int
    known: int


@dataclass
class Header:
    """What stands in front of the changes: the time's unit in femtoseconds, and the signals in the order of the file."""

    unit: int
    signals: list[Signal]


class Words:
    """The words of a dump, with the number of the line at hand."""

    def __init__(self, file: BinaryIO, name: str):
        self._lines = Lines(file, name)
        self._left: list[str] = []

    def __iter__(self) -> Iterator[str]:
        return self

    def __next__(self) -> str:
        while not self._left:
            if self._lines.text is None:
                raise StopIteration
            self._left = self._lines.text.split()[::-1]
            self.line = self._lines.number
            self._lines.advance()
        return self._left.pop()

    def drop_line(self) -> None:
        """Leaves out the rest of the line at hand."""
        self._left = []

    def refusal(self, expected: str) -> Refused:
        return Refused(f"{self._lines.name}:{getattr(self, 'line', 1)}: expected {expected}")

    def up_to_end(self, keyword: str) -> list[str]:
        """The words from here to the next `$end`."""
        found: list[str] = []
        for word in self:
            if word == "$end":
                return found
            found.append(word)
        raise self.refusal(f"the $end of {keyword}")


class Dump:
    """A dump: `header`, then what `changes` gives."""

    def __init__(self, file: BinaryIO, name: str):
        self._words = Words(file, name)
        self.header = self._read_header()
        self._widths = {signal.code: signal.width for signal in self.header.signals}

    def _read_header(self) -> Header:
        unit: Optional[int] = None
        scopes: list[str] = []
        signals: list[Signal] = []
        for word in self._words:
            if word == META:
                self._words.drop_line()
                continue
            if not word.startswith("$"):
                raise self._words.refusal('a keyword, as "$var" or "$enddefinitions": it isn\'t a Value Change Dump')
            given = self._words.up_to_end(word)
            if word == "$timescale":
                unit = self._unit(" ".join(given))
            elif word == "$scope":
                scopes.append(" ".join(given[1:]))
            elif word == "$upscope":
                del scopes[-1:]
            elif word == "$var":
                signals.append(self._signal(given, scopes))
            elif word == "$enddefinitions":
                break
        else:
            raise self._words.refusal('"$enddefinitions $end"')
        if unit is None:
            raise self._words.refusal('"$timescale" in front of "$enddefinitions"')
        return Header(unit, signals)

    def _unit(self, text: str) -> int:
        match = SCALE.fullmatch(text)
        if match is None:
            raise self._words.refusal('a time as in "1 ns"')
        return int(match[1]) * 10 ** UNITS[match[2]]

    def _signal(self, given: list[str], scopes: list[str]) -> Signal:
        match = REFERENCE.fullmatch(" ".join(given[3:])) if len(given) > 3 else None
        if match is None or not given[1].isdigit() or len(given[1]) > 9:
            raise self._words.refusal('"$var KIND WIDTH CODE NAME $end"')
        kind, width, code = given[0], int(given[1]), given[2]
        first = int(match[2]) if match[2] is not None else width - 1
        last = int(match[3]) if match[3] is not None else first if match[2] is not None else 0
        if kind not in WITHOUT_BITS and abs(first - last) + 1 != width:
            first, last = width - 1, 0  # an index that belongs to the name
        return Signal((*scopes, match[1]), kind, first, last, width, code)

    def changes(self, wanted: Container[str]) -> Iterator[Value]:
        """The changes of the signals with these codes, in the order of the file."""
        words, time = self._words, 0
        for word in words:
            sign = word[0]
            if sign == "#":
                time = self._time(word[1:], time)
            elif sign in "bB":
                code = next(words, "")
                if code in wanted:
                    yield self._value(time, code, word[1:])
            elif sign in SCALARS:
                if word[1:] in wanted:
                    yield self._value(time, word[1:], sign)
            elif sign in "rRsS":
                next(words, "")
            elif word == "$comment":
                words.up_to_end(word)
            elif word not in SKIPPED:
                raise words.refusal('a change, as "1!" or "b101 !", or a time, as "#100"')

    def _time(self, text: str, before: int) -> int:
        time = int(text) if text.isdigit() and text.isascii() and len(text) < 30 else -1
        if time < before:
            raise self._words.refusal(f"a time that isn't below {before}")
        return time

    def _value(self, time: int, code: str, text: str) -> Value:
        width = self._widths[code]
        if text.strip(SCALARS) or not 0 < len(text) <= max(width, 1):
            raise self._words.refusal(f"a value of {width} bits at most, made of 0, 1, x and z")
        front = text[0] if text[0] in UNKNOWN else "0"  # what is left out in front
        text = text.rjust(width, front)
        return Value(time, code, int(text.translate(ZEROS), 2), int(text.translate(ONES), 2))
