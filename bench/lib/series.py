"""A program that is measured while what it reads doubles in size."""

from __future__ import annotations

import os
from dataclasses import dataclass
from typing import Any, Callable, Iterator, Optional, Sequence

from .results import parser, sitting
from .scratch import scratch, write
from .timing import figures, instructions, last_line, run, run_with_memory

Words = Callable[[str, int], Sequence[str]]  # how the program is called for a shape and a size
CALLS = 10  # how many of the calls that count a run makes


@dataclass(frozen=True)
class Series:
    """How a program is called, the line that it writes, and whether its memory and its instructions are told."""

    template: str
    words: Words
    bare: Optional[Words] = None  # a run that makes none of the calls
    tells_memory: bool = False
    counts: bool = True

    def count(self, shape: str, size: int) -> Optional[int]:
        """The instructions of all calls; with no bare run, of the start and the reading too."""
        count = instructions(self.words(shape, size)) if self.counts else None
        if count is None or self.bare is None:
            return count
        return count - (instructions(self.bare(shape, size)) or 0)

    def rows(self, shape: str, sizes: Sequence[int]) -> Iterator[dict]:
        """A row for each size. The growth is that of the instructions: 2.00 is in step with a size that doubles."""
        before: Optional[int] = None
        for size in sizes:
            ran = (run_with_memory if self.tells_memory else run)(self.words(shape, size))
            row = {"shape": shape, "size": size, **figures(self.template, last_line(ran.output))}
            if self.tells_memory:
                row["kilobytes"] = ran.kilobytes
            if self.counts:
                count = self.count(shape, size)
                row["instructions"] = None if count is None else count // CALLS
                row["growth"] = round(count / before, 2) if count and before else None
                before = count
            yield row


def time_texts(name: str, about: str | None, texts: Callable[[int], dict[str, str]], sizes: Sequence[int], template: str, **how: Any) -> None:
    """The bench of a program that reads texts: all of them of each size."""
    words = parser(name, about).parse_args()
    with scratch(f"time_{name}") as made:
        made.prove()
        for size in sizes:
            for shape, text in texts(size).items():
                write(text, made.room, str(size), shape)
        series = Series(template, lambda shape, size: [made.program, os.path.join(made.room, str(size), shape)], **how)
        with sitting(name, not words.unstored) as found:
            for shape in sorted(texts(sizes[0])):
                found.add("texts", series.rows(shape, sizes))
