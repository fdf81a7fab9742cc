"""Reads what `xcsim run`, `debug` or `runasm` wrote: its listing at once, then its records one by one, and its end word."""

from __future__ import annotations

import re
from typing import BinaryIO, Callable, Iterator, NamedTuple, Optional

from .lines import NUMBER, WORD, Lines, Refused
from .listing import WIDTHS, Core, read_listing

TURN = 1 << 16  # a port's counter, and so a stamp, begins anew after so many ticks

STATES = "unused|waiting|trapped|ready|paused"
REGISTERS = "".join(f" r{number} {NUMBER}" for number in range(12))
TRANSFER = re.compile(rf"((?:out|in) {NUMBER} \S+) @{NUMBER} {NUMBER}")
WORD_TAKEN = re.compile(rf"com {NUMBER} {NUMBER}")
FAULT = re.compile(rf"err {NUMBER} ({NUMBER}:{NUMBER} (arithmetic|index|mismatch|address|resource|code))")
SHOWN = re.compile(rf"show {NUMBER} ([0-7] ({STATES}) pc {NUMBER}{REGISTERS})")
END = re.compile(r"end (finished|trapped|stuck|stopped)")

TRANSFER_FORM = '"{} CORE PORT @STAMP VALUE"'
WORD_FORM = '"com CORE VALUE"'
FAULT_FORM = '"err CORE LINE:COL KIND", KIND arithmetic, index, mismatch, address, resource or code'
SHOWN_FORM = '"show CORE THREAD STATE pc K", and then r0 to r11 with their values'
END_FORM = '"end WORD", WORD finished, trapped, stuck or stopped'
ANY_FORM = f'a record (out, in, com, err or show) or {END_FORM}'


class Record(NamedTuple):
    """A record of the trace. `kind` is its first word; `stamp` is None where it has none.

    A transfer (`out`, `in`) has a port and a value, a word (`com`) has a value; `err` and `show` have the rest of their line as text."""

    kind: str
    core: int
    stamp: Optional[int] = None
    port: str = ""
    value: int = 0
    text: str = ""


class Output:
    """An output: `listing`, then what `records` gives, and behind the last record `end`, the end word. A listing alone, as `asm`
    writes it, has no records and no end word."""

    def __init__(self, file: BinaryIO, name: str, has_trace: bool = True):
        self._lines = Lines(file, name)
        self._readers: dict[str, Callable[[str], Record]] = {
            "out": self._transfer,
            "in": self._transfer,
            "com": self._word,
            "err": self._fault,
            "show": self._shown,
        }
        self._fronts: dict[str, tuple[str, int, str]] = {}  # of the transfers so far
        self.listing = read_listing(self._lines, has_trace)
        self.end = ""

    def records(self) -> Iterator[Record]:
        """The records in the order of the file, each checked as it is read."""
        lines, readers = self._lines, self._readers
        while (text := lines.text) is not None:
            reader = readers.get(text.partition(" ")[0])
            if reader is None:
                break
            yield reader(text)
            lines.advance()
        if self.listing.has_trace:
            self._read_end()

    def _read_end(self) -> None:
        lines = self._lines
        self.end = lines.take(END, END_FORM if lines.begins("end") else ANY_FORM)[1]
        if lines.text is not None:
            raise lines.refusal("nothing behind the end word")

    def _refusal(self, expected: str) -> Refused:
        return self._lines.refusal(expected)

    def _core(self, number: str) -> Core:
        core = self.listing.cores.get(int(number))
        if core is None:
            raise self._refusal(f"a core of the listing, not {number}")
        return core

    def _value(self, number: str, width: int) -> int:
        value = int(number)
        if value >> width:
            raise self._refusal(f"a value below {1 << width}, not {number}")
        return value

    def _transfer(self, text: str) -> Record:
        match = TRANSFER.fullmatch(text)
        if match is None:
            raise self._refusal(TRANSFER_FORM.format(text.partition(" ")[0]))
        front, _, stamp, value = match.groups()
        if front not in self._fronts:
            self._fronts[front] = self._front(*front.split(" "))
        kind, core, name = self._fronts[front]
        if int(stamp) >= TURN:
            raise self._refusal(f"a stamp below {TURN}, not {stamp}")
        return Record(kind, core, int(stamp), name, self._value(value, WIDTHS[name]))

    def _front(self, kind: str, number: str, name: str) -> tuple[str, int, str]:
        """What stands in front of a transfer's stamp, where the listing has such a port."""
        core = self._core(number)
        if name not in core.ports or not core.ports[name].does(kind):
            raise self._refusal(f"an {kind} port of core {number}, not {name}")
        return kind, core.number, name

    def _word(self, text: str) -> Record:
        match = WORD_TAKEN.fullmatch(text)
        if match is None:
            raise self._refusal(WORD_FORM)
        core = self._core(match[1])
        if core.ends == 0:
            raise self._refusal(f"a core with channel ends, not {core.number}")
        return Record("com", core.number, value=self._value(match[2], WORD.bit_length() - 1))

    def _fault(self, text: str) -> Record:
        match = FAULT.fullmatch(text)
        if match is None:
            raise self._refusal(FAULT_FORM)
        return Record("err", self._core(match[1]).number, text=match[2])

    def _shown(self, text: str) -> Record:
        match = SHOWN.fullmatch(text)
        if match is None or int(match[1]) > 3:
            raise self._refusal(SHOWN_FORM)
        return Record("show", int(match[1]), text=match[2])
