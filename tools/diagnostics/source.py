"""A text, and what stands at its places. Lines and columns are counted in bytes from 1, as xcsim counts them."""

from __future__ import annotations

import re
import unicodedata
from typing import NamedTuple, Optional

from .words import read_words

SYMBOLS = sorted(read_words()["symbols"], key=len, reverse=True)
TOKEN = re.compile("|".join([r"[A-Za-z_]\w*", r"[0-9]\w*", *(re.escape(it) for it in SYMBOLS)]), re.ASCII)
SKIPPED = re.compile(r"(?:(?<=\n)|\A)[ \t\r]*#[^\n]*|[ \t\r]+|\n|//[^\n]*|/\*.*?\*/", re.DOTALL)
MOST_SHOWN, IN_FRONT = 120, 60  # letters of a line that are shown, and of these in front of the place


class Token(NamedTuple):
    """A token and its place."""

    text: str
    line: int
    column: int


class Source:
    """The lines of a text. A byte is a sign here, whatever letters the bytes are of."""

    def __init__(self, data: bytes):
        self._text = data.decode("latin-1")
        self.lines = self._text.split("\n")

    def at(self, line: int, column: int) -> str:
        """What stands at a place: a token, the beginning of a comment, a sign that begins no token, or nothing at the end."""
        rest = self._rest(line, column)
        if rest.startswith(("//", "/*")):
            return rest[:2]
        match = TOKEN.match(rest)
        return match[0] if match else letters(rest)[:1].strip()

    def excerpt(self, line: int, column: int) -> Optional[tuple[str, str]]:
        """A line as it is shown, and the line below it: a caret at the column, and a wave below the rest of what stands there."""
        if line > len(self.lines):
            return None
        whole, front = self.shown(line), letters(self.lines[line - 1][: column - 1])
        start = len(front) - IN_FRONT if len(whole) > MOST_SHOWN and len(front) > IN_FRONT else 0
        shown, left = whole[start : start + MOST_SHOWN], ".." if start else ""
        blanks = "".join("\t" if it == "\t" else " " * width(it) for it in left + front[start:])
        right = ".." if start + MOST_SHOWN < len(whole) else ""
        wave = min(len(self.at(line, column)), len(shown) - len(front[start:]))
        return left + shown + right, blanks + "^" + "~" * (wave - 1)

    def shown(self, line: int) -> str:
        """A line that the text has, as it is shown."""
        return letters(self.lines[line - 1].rstrip("\r"))

    def _rest(self, line: int, column: int) -> str:
        return self.lines[line - 1][column - 1 :] if 1 <= line <= len(self.lines) else ""

    def is_end(self, line: int, column: int) -> bool:
        """Whether nothing but blanks is at a place and behind it."""
        return not "".join([self._rest(line, column), *self.lines[line:]]).strip()

    def tokens_before(self, line: int, column: int) -> list[Token]:
        """The tokens in front of a place, as far as they are tokens. Comments and `#` lines are left out."""
        end = min(sum(len(it) + 1 for it in self.lines[: line - 1]) + column - 1, len(self._text))
        found, at, begin, row = [], 0, 0, 1
        while at < end:
            skipped = SKIPPED.match(self._text, at)
            match = skipped or TOKEN.match(self._text, at)
            text = match[0] if match else self._text[at]
            if match and not skipped:
                found.append(Token(text, row, at - begin + 1))
            row += text.count("\n")
            begin = at + text.rindex("\n") + 1 if "\n" in text else begin
            at += len(text)
        return found


def letters(text: str) -> str:
    """The letters that bytes are of."""
    return text.encode("latin-1").decode("utf-8", "replace")


def width(letter: str) -> int:
    """How many columns of a terminal a letter takes."""
    if unicodedata.combining(letter):
        return 0
    return 2 if unicodedata.east_asian_width(letter) in ("W", "F") else 1
