"""Reads a stimulus: which values the pins of the ports have, and from which tick on."""

from __future__ import annotations

import re
from typing import BinaryIO

from .lines import WORD, Lines
from .listing import CORES, WIDTHS, Listing
from .output import Record

MOST_LINES = 100_000
LINE = re.compile("0*([0-9]{1,10}) 0*([0-9]{1,10}) ([^ ]+) 0*([0-9]{1,10})")
FORM = '"TICK CORE PORT VALUE", a blank line or a line that begins with #'


def read_stimulus(file: BinaryIO, name: str) -> list[tuple[int, Record]]:
    """The lines of a stimulus, in their order: each with its tick, and as a record of the kind `pins`."""
    lines, found, latest = Lines(file, name), [], 0
    while lines.text is not None:
        if lines.number > MOST_LINES:
            raise lines.refusal(f"at most {MOST_LINES} lines")
        text = lines.text.removesuffix("\r") if lines.has_feed else lines.text
        words = [it for it in text.split(" ") if it]
        if words and not words[0].startswith("#"):
            latest, pins = read_line(lines, words, latest)
            found.append((latest, pins))
        lines.advance()
    return found


def read_pins(file_name: str | None, listing: Listing) -> tuple[list[tuple[int, Record]], set[tuple[int, str]]]:
    """The lines of a stimulus, and the ports whose pins are shown: those that it names and those that the program reads.

    Without a stimulus no pins are shown."""
    if file_name is None:
        return [], set()
    with open(file_name, "rb") as file:
        lines = read_stimulus(file, file_name)
    read = {(core.number, port.name) for core in listing.cores.values() for port in core.ports.values() if port.does("in")}
    return lines, read | {(record.core, record.port) for _, record in lines}


def read_line(lines: Lines, words: list[str], latest: int) -> tuple[int, Record]:
    """The tick and the pins of a line that isn't blank, behind one that has the tick `latest`."""
    match = LINE.fullmatch(" ".join(words))
    if match is None:
        raise lines.refusal(FORM)
    tick, core, port, value = int(match[1]), int(match[2]), match[3], int(match[4])
    if max(tick, core, value) >= WORD:
        raise lines.refusal("numbers below 2^32")
    if tick < latest:
        raise lines.refusal(f"a tick that isn't below {latest}, that of the line before, not {tick}")
    if core >= CORES or port not in WIDTHS:
        raise lines.refusal(f"a core below {CORES} and a port, not {core} {port}")
    if value >> WIDTHS[port]:
        raise lines.refusal(f"a value below {1 << WIDTHS[port]}, not {value}")
    return tick, Record("pins", core, port=port, value=value)
