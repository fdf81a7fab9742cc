"""A file's lines, counted, and the refusal of one that isn't as it should be."""

from __future__ import annotations

import re
from typing import BinaryIO

WORD = 1 << 32
NUMBER = "(0|[1-9][0-9]{0,9})"


class Refused(Exception):
    """What is given can't be shown; the text says why, in one line."""


class Lines:
    """The lines of a file, from the first to the last: the one at hand is `text`, without its line feed, or None behind the last.
    `has_feed` tells whether it had one."""

    def __init__(self, file: BinaryIO, name: str):
        self.name = name
        self.number = 0
        self._read_line = file.readline
        self.advance()

    def advance(self) -> None:
        """Goes to the next line."""
        line = self._read_line()
        self.number += 1
        self.has_feed = line.endswith(b"\n")
        self.text = line.decode("latin-1").removesuffix("\n") if line else None

    def refusal(self, expected: str) -> Refused:
        """The refusal of the line at hand."""
        return Refused(f"{self.name}:{self.number}: expected {expected}")

    def begins(self, word: str) -> bool:
        """Whether the line at hand has this first word."""
        return self.text is not None and self.text.partition(" ")[0] == word

    def take(self, pattern: re.Pattern, expected: str) -> re.Match:
        """The match of the whole line at hand, and goes to the next line."""
        match = pattern.fullmatch(self.text) if self.text is not None else None
        if match is None:
            raise self.refusal(expected)
        self.advance()
        return match

    def take_exactly(self, text: str) -> None:
        """Takes a line that has only one form."""
        self.take(re.compile(re.escape(text)), f'"{text}"')

    def take_number(self, word: str, below: int = WORD) -> int:
        """The number of a line that is a word and a number."""
        expected = f'"{word} N", N below {below}'
        if self.text is None:
            raise self.refusal(expected)
        match = re.fullmatch(f"{re.escape(word)} {NUMBER}", self.text)
        if match is None or int(match[1]) >= below:
            raise self.refusal(expected)
        self.advance()
        return int(match[1])
