"""How long a thread takes at most on routes through a listing, told from the listing and the definition of ways alone."""

from __future__ import annotations

import re
from dataclasses import dataclass
from math import inf

HOLDS = {"IN", "INT", "OUT", "OUTT", "OUTCT", "CHKCT", "MSYNC", "SSYNC", "MJOIN", "WAITEU", "SETSR", "BLRF", "BLRB", "RETSP"}
UNSAID = {"BLRF", "BLRB", "RETSP", "SSYNC", "WAITEU", "SETSR"}  # what may not stand where a route begins
BACK, ALONE = ("BRBT", "BRBF", "BRBU"), ("BRFU", "BRBU")
MOST_ROUTES, MOST_BACK = 16, 1000

CORE = re.compile(r"\.core ([0-3])")
INSTRUCTION = re.compile(r"[0-9]+: ([A-Z]+)(?: (.*))? @([0-9]+):([0-9]+)")
ROUTE = re.compile(rb"route ([0-9]+) ([0-9]+):([0-9]+) ([0-9]+):([0-9]+) ([0-9]+)")

Place = tuple  # a line and a column


@dataclass(frozen=True)
class Instruction:
    name: str
    target: int | None
    place: Place


@dataclass(frozen=True)
class Route:
    line: int
    core: int
    first: Place
    last: Place
    back: int


def code_of_cores(listing: str) -> dict[int, list[Instruction]]:
    """The code of each core of a listing."""
    found: dict[int, list[Instruction]] = {}
    core = 0
    for line in listing.splitlines():
        if match := CORE.fullmatch(line):
            core = int(match[1])
            found[core] = []
        elif match := INSTRUCTION.fullmatch(line):
            name, operands = match[1], match[2]
            target = int(operands.split(", ")[-1]) if name in ("BRFT", "BRFF", "BRFU", *BACK) else None
            found[core].append(Instruction(name, target, (int(match[3]), int(match[4]))))
    return found


def successors(code: list[Instruction], at: int) -> list[tuple[int, int]]:
    """What may come behind an instruction, and how many backward branches that takes."""
    it = code[at]
    found = [] if it.name in ("FREET", *ALONE) else [(at + 1, 0)]
    found += [] if it.target is None else [(it.target, int(it.name in BACK))]
    return [(to, taken) for to, taken in found if to < len(code)]


def longest(code: list[Instruction], last: Place, back: int) -> list[float]:
    """The length of the longest way from each instruction with so many backward branches at most, without end where a way meets what holds up."""
    rows: list[list[float]] = []
    for left in range(back + 1):
        row = [0.0] * len(code)
        rows = [*rows[-1:], row]  # the row of one branch less, and this one
        for at in reversed(range(len(code))):
            it = code[at]
            if it.place == last or (it.name == "BRBU" and left == 0):
                continue  # no index of a way
            if it.name in HOLDS:
                row[at] = inf
                continue
            row[at] = 1 + max([rows[-1 - taken][to] for to, taken in successors(code, at) if taken <= left], default=0)
    return rows[-1]


def number_of(code: list[Instruction], route: Route) -> float:
    """The number of a route, without end where a thread may be held up."""
    begins = [at for at, it in enumerate(code) if it.place == route.first]
    if any(code[at].name in UNSAID for at in begins):
        return inf
    exits = {to for at in begins for to, _ in successors(code, at)} - set(begins)
    row = longest(code, route.last, route.back)
    return max((row[at] for at in exits), default=0)


def route_of(line: bytes, number: int) -> Route | None:
    """The route that a line is, if it has the form of one."""
    match = ROUTE.fullmatch(b" ".join(it for it in line.split(b" ") if it))
    if not match or any(len(it.lstrip(b"0")) > 10 or int(it) >= 2**32 for it in match.groups()):
        return None
    core, *places, back = map(int, match.groups())
    return Route(number, core, tuple(places[:2]), tuple(places[2:]), back)


def broken_route(lines: list[bytes]) -> tuple[list[Route], tuple[int, int] | None]:
    """The routes of these lines, or those in front of the first line that breaks 1001, 1002 or 1005, with its number and the least of them."""
    routes: list[Route] = []
    for number, line in enumerate(lines, 1):
        if not line.strip(b" ") or line.lstrip(b" ").startswith(b"#"):
            continue
        route = route_of(line, number)
        if not route:
            return routes, (number, 1001)
        if route.core > 3 or route.back > MOST_BACK:
            return routes, (number, 1002)
        if len(routes) == MOST_ROUTES:
            return routes, (number, 1005)
        routes.append(route)
    return routes, None


def bounds(listing: str, lines: list[bytes]) -> tuple[list[int], tuple[int, int] | None]:
    """The numbers of the routes that these lines ask for, or the line that is named and its rule."""
    routes, broken = broken_route(lines)
    if broken:
        return [], broken
    cores = code_of_cores(listing)
    for route in routes:
        places = {it.place for it in cores.get(route.core, [])}
        if not {route.first, route.last} <= places:
            return [], (route.line, 1003)
    numbers: list[int] = []
    for route in routes:
        number = number_of(cores[route.core], route)
        if number == inf:
            return [], (route.line, 1004)
        numbers.append(int(number))
    return numbers, None
