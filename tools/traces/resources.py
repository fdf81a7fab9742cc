"""Tells from a core's code which resource an instruction uses, as far as the code says so by itself."""

from __future__ import annotations

from typing import Optional

from .listing import Core, Listing
from .taken import CALLS, JUMP, LOAD, SETS_NO_REGISTER

FIRST, SECOND = "OUT OUTT OUTCT CHKCT SETC SETD SETPT SETV EEU EDU".split(), "IN INT GETTS".split()
USES = {**dict.fromkeys(FIRST, 0), **dict.fromkeys(SECOND, 1)}  # which of the operands is the resource
PORT, TIMER, END = 0, 1, 2  # the low byte of a resource's number


def targets_of(core: Core) -> set[int]:
    """The indices at which code goes on from elsewhere than from the one in front."""
    return {*core.roots, *(int(match[1]) for it in core.code if (match := JUMP.fullmatch(it.text)))}


def resources_of(core: Core) -> dict[int, int]:
    """For each instruction that uses a resource, by its index, the number of that: where it was loaded in front, and nothing leads in
    between."""
    targets = targets_of(core)
    loaded: dict[str, int] = {}
    found: dict[int, int] = {}
    for index, instruction in enumerate(core.code):
        name, _, operands = instruction.text.partition(" ")
        if index in targets:
            loaded.clear()
        if name in USES and (number := loaded.get(operands.split(", ")[USES[name]])) is not None:
            found[index] = number
        if match := LOAD.fullmatch(instruction.text):
            loaded[match[1]] = int(match[2])
        elif name in CALLS:
            loaded.clear()
        elif name not in SETS_NO_REGISTER:
            loaded.pop(operands.partition(",")[0], None)
    return found


def port_of(core: Core, number: int) -> Optional[str]:
    """The port that a resource's number names, if it does. A port's number is its place in the listing."""
    names = [*core.ports]
    place = number >> 8 & 0xFFFF
    return names[place] if number & 0xFF == PORT and place < len(names) else None


def name_of(listing: Listing, core: Core, number: int) -> str:
    """What a resource's number names, in words."""
    kind, place = number & 0xFF, number >> 8 & 0xFFFF
    if port := port_of(core, number):
        return f"port {port}"
    if kind == END and (core.number, place) in listing.peers:
        return f"end {place} to core {listing.peers[core.number, place]}"
    return f"timer {place}" if kind == TIMER else ""


def only_makers(core: Core, used: dict[int, int]) -> dict[tuple[str, str], int]:
    """For a kind of records and a port (words have none) the index of the one instruction of the code that makes them: where there is
    but one, and it is known what all others of its name use."""
    makers: dict[tuple[str, str], list[int]] = {}
    unknown: set[str] = set()
    for index, instruction in enumerate(core.code):
        name = instruction.text.partition(" ")[0]
        if name not in ("OUT", "IN"):
            continue
        number, kind = used.get(index), name.lower()
        if number is None:
            unknown |= {kind, "com"} if kind == "in" else {kind}
        elif port := port_of(core, number):
            makers.setdefault((kind, port), []).append(index)
        elif kind == "in" and number & 0xFF == END:
            makers.setdefault(("com", ""), []).append(index)
    return {key: found[0] for key, found in makers.items() if len(found) == 1 and key[0] not in unknown}
