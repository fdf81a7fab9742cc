"""The listing at the front of an output: cores with their ports, and channels."""

from __future__ import annotations

import re
from dataclasses import dataclass, field
from typing import NamedTuple

from .lines import NUMBER, Lines
from .taken import Taken

CORES = 4
LETTERS = {1: "ABCDEFGHIJKLMNOP", 4: "ABCDEF", 8: "ABCD", 16: "AB", 32: "A"}
WIDTHS = {f"{width}{letter}": width for width, letters in LETTERS.items() for letter in letters}

PORT = re.compile(r"\.port (\S+) (in|out|both)")
INSTRUCTION = re.compile(rf"{NUMBER}: ([A-Z]+( \w+(, \w+)*)?) @{NUMBER}:{NUMBER}")
CHANNEL = re.compile(rf"\.chan {NUMBER} {NUMBER} {NUMBER} {NUMBER}")


class Port(NamedTuple):
    """A port that a core declares: its identifier, and its direction `in`, `out` or `both`."""

    name: str
    direction: str

    def does(self, direction: str) -> bool:
        """Whether it goes in this direction, `in` or `out`."""
        return self.direction in (direction, "both")


class Instruction(NamedTuple):
    """An instruction: its name with its operands, and the place of the text that it comes from."""

    text: str
    line: int
    column: int


@dataclass
class Core:
    """A core of the listing: how much it has of words, timers and channel ends, its ports by their identifiers, the indices at which
    its first threads start, its code, and what that says of its ends."""

    number: int
    words: int = 0
    timers: int = 0
    ends: int = 0
    ports: dict[str, Port] = field(default_factory=dict)
    roots: list[int] = field(default_factory=list)
    code: list[Instruction] = field(default_factory=list)
    taken: Taken = field(default_factory=Taken)


@dataclass
class Listing:
    """The cores by their numbers, for each channel end of a core the core of the other end, and whether a trace follows."""

    cores: dict[int, Core] = field(default_factory=dict)
    peers: dict[tuple[int, int], int] = field(default_factory=dict)
    has_trace: bool = True

    def senders(self, core: int) -> set[int]:
        """The cores from which a word that is taken on a core may come: where its code doesn't tell, by each of its ends."""
        taken = self.cores[core].taken.ends()
        return {peer for (number, end), peer in self.peers.items() if number == core and (not taken or end in taken)}


def read_listing(lines: Lines, has_trace: bool = True) -> Listing:
    """Reads the lines from `code` up to `trace`, or up to the end, where there needn't be a trace. In its place bounds may stand then."""
    lines.take_exactly("code")
    listing = Listing()
    while lines.begins(".core"):
        core = read_core(lines, listing)
        listing.cores[core.number] = core
    while lines.begins(".chan"):
        read_channel(lines, listing)
    while not has_trace and lines.begins("ticks"):
        lines.take_number("ticks", below=2**64)
    listing.has_trace = has_trace or lines.text is not None
    if not listing.cores or listing.has_trace and lines.text != "trace":
        raise lines.refusal(what_follows(listing))
    lines.advance()
    return listing


def what_follows(listing: Listing) -> str:
    """What may stand behind the cores and channels that were read."""
    if not listing.cores:
        return '".core N"'
    if listing.peers:
        return '".chan CORE END CORE END" or "trace"'
    return 'an instruction, as in "0: LDC r1, 0 @2:18", ".core N", ".chan CORE END CORE END" or "trace"'


def read_core(lines: Lines, listing: Listing) -> Core:
    """Reads a core's lines, from `.core` to its last instruction."""
    if lines.text in {f".core {number}" for number in range(max(listing.cores, default=-1) + 1)}:
        raise lines.refusal("a core above the one before")
    core = Core(lines.take_number(".core", CORES))
    core.words = lines.take_number(".words")
    core.timers = lines.take_number(".timers")
    core.ends = lines.take_number(".ends")
    while lines.begins(".port"):
        port = read_port(lines, core)
        core.ports[port.name] = port
    while lines.begins(".root"):
        core.roots.append(lines.take_number(".root"))
        core.taken.add_root(core.roots[-1])
    while lines.text and lines.text[0].isdigit():
        index = len(core.code)
        core.code.append(read_instruction(lines, index))
        core.taken.add(index, core.code[-1].text)
    return core


def read_port(lines: Lines, core: Core) -> Port:
    """Reads a `.port` line."""
    match = PORT.fullmatch(lines.text or "")
    if match is None or match[1] not in WIDTHS:
        raise lines.refusal('".port ID DIR", ID as in 1A and DIR in, out or both')
    if match[1] in core.ports:
        raise lines.refusal(f"a port that core {core.number} doesn't have yet")
    lines.advance()
    return Port(match[1], match[2])


def read_instruction(lines: Lines, index: int) -> Instruction:
    """Reads the line of the instruction with an index."""
    expected = f'the instruction {index}, as in "{index}: LDC r1, 0 @2:18"'
    if not (lines.text or "").startswith(f"{index}: "):
        raise lines.refusal(expected)
    match = lines.take(INSTRUCTION, expected)
    return Instruction(match[2], int(match[5]), int(match[6]))


def read_channel(lines: Lines, listing: Listing) -> None:
    """Reads a `.chan` line."""
    match = CHANNEL.fullmatch(lines.text or "")
    if match is None:
        raise lines.refusal('".chan CORE END CORE END"')
    first, second = (int(match[1]), int(match[2])), (int(match[3]), int(match[4]))
    for core, end in first, second:
        if core not in listing.cores or end >= listing.cores[core].ends or (core, end) in listing.peers or first == second:
            raise lines.refusal(f"a channel end that the listing has and that isn't joined yet, not {end} of core {core}")
    listing.peers |= {first: second[0], second: first[0]}
    lines.advance()
