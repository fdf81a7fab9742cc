"""Tells from a core's code on which of its channel ends it takes words, as far as the code says so by itself."""

from __future__ import annotations

import re
from bisect import bisect_right
from typing import Optional

END_KIND = 2  # the low byte of a channel end's number; the end stands in the two above
LOAD = re.compile(r"LDC (\w+), ([0-9]+)")
TAKE = re.compile(r"IN \w+, (\w+)")
JUMP = re.compile(r"(?:BR[FB][TFU]|BLR[FB]|SETV|TINITPC) (?:\w+, )?([0-9]+)")
CALLS = {"BLRF", "BLRB"}
SETS_NO_REGISTER = set(
    "ECALLF ECALLT STWDP STWSP STW BRFT BRFF BRFU BRBT BRBF BRBU FREER TINITPC TINITDP TINITSP MSYNC SSYNC MJOIN FREET "
    "OUT OUTT OUTCT CHKCT SETC SETD SETPT SETV EEU EDU CLRE WAITEU SETSR CLRSR".split()
)


class Taken:
    """The ends on which a core takes words: those whose numbers are loaded, and then used by an `IN` without a way in between
    on which another number could come."""

    def __init__(self) -> None:
        self._loaded: dict[str, tuple[int, int]] = {}  # of a register: the index at which a number was loaded, and the number
        self._uses: list[tuple[int, int, int]] = []  # the indices of a load and its IN, and the number
        self._targets: set[int] = set()
        self._is_known = True

    def add_root(self, index: int) -> None:
        """A thread starts at an index."""
        self._targets.add(index)

    def add(self, index: int, text: str) -> None:
        """Takes the next instruction, with its operands."""
        name, _, operands = text.partition(" ")
        if match := JUMP.fullmatch(text):
            self._targets.add(int(match[1]))
        if match := TAKE.fullmatch(text):
            self._take(index, match[1])
        if match := LOAD.fullmatch(text):
            self._loaded[match[1]] = index, int(match[2])
        elif name in CALLS:
            self._loaded.clear()
        elif name not in SETS_NO_REGISTER:
            self._loaded.pop(operands.partition(",")[0], None)

    def _take(self, index: int, register: str) -> None:
        if register in self._loaded:
            loaded, number = self._loaded[register]
            self._uses.append((loaded, index, number))
        else:
            self._is_known = False

    def ends(self) -> Optional[set[int]]:
        """The ends, or None where the code doesn't tell."""
        targets = sorted(self._targets)
        for loaded, used, _ in self._uses:
            at = bisect_right(targets, loaded)
            if at < len(targets) and targets[at] <= used:
                return None
        return {number >> 8 & 0xFFFF for *_, number in self._uses if number & 0xFF == END_KIND} if self._is_known else None
