"""What an answer of xcsim may be, told from the words and the files alone, or from another answer."""

from __future__ import annotations

import os
import re
from dataclasses import dataclass
from typing import Iterator

from .bounds import bounds
from .cases import LONG, Case
from .generate import PORTS
from .mutate import LONGEST
from .scratch import TOP, read


def words_of_rule_299(page: str) -> list[str]:
    """The words of which rule 299 says that what they tell isn't built yet, as docs/language.md lists them; none where all is built."""
    found = re.search(r"isn't built yet is what a text\s+tells by one of the words `([a-z ]+)`", page)
    return found[1].split() if found else []


UNBUILT = words_of_rule_299(read(TOP, "docs", "language.md"))
RULES = {*range(101, 107), 201, 202, 299, *range(301, 306), *range(401, 417), *range(501, 510), *range(601, 607), *range(701, 707)}
STATUSES = (*range(14), 15)
RUN = {b"finished": 0, b"stopped": 4, b"stuck": 5}  # the statuses of a run in which no thread trapped
USAGE = b"usage: xcsim check FILE | asm FILE | run FILE [STIM] [--ticks N] [--workers W] | debug FILE STIM SCRIPT | make N | bench N | time FILE SPEC\n"

OPERANDS = {b"check": (1,), b"asm": (1,), b"run": (1, 2), b"time": (2,)}  # how many a command has

NUMBER = rb"(0|[1-9][0-9]*)"
REFUSED = re.compile(rb":([1-9][0-9]*):([1-9][0-9]*): rule ([0-9]{3})\n")
HEADS = tuple(re.compile(it + rb"\n") for it in (rb"\.core ([0-3])", rb"\.words " + NUMBER, rb"\.timers " + NUMBER, rb"\.ends " + NUMBER))
PORT = re.compile(rb"\.port ([0-9]+[A-P]) (in|out|both)\n")
ROOT = re.compile(rb"\.root " + NUMBER + rb"\n")
INSTRUCTION = re.compile(NUMBER + rb": [A-Z]+( [a-zA-Z0-9]+(, [a-zA-Z0-9]+)*)? @[1-9][0-9]*:[1-9][0-9]*\n")
BEHIND_CODE = re.compile(rb"^(trace\n|ticks )", re.MULTILINE)
CHANNEL = re.compile(rb"\.chan [0-3] " + NUMBER + rb" [0-3] " + NUMBER + rb"\n")
TAKEN = re.compile(rb"com ([0-3]) " + NUMBER + rb"\n")
MOVED = re.compile(rb"(out|in) ([0-3]) ([0-9]+[A-P]) @" + NUMBER + rb" " + NUMBER + rb"\n")
ERRED = re.compile(rb"err ([0-3]) ([1-9][0-9]*):([1-9][0-9]*) (arithmetic|index|mismatch)\n")


@dataclass(frozen=True)
class Answer:
    """What a call gave: no status where it didn't end in time, one below 0 where a signal ended it."""

    status: int | None
    out: bytes = b""
    err: bytes = b""

    @property
    def ended(self) -> bool:
        return self.status is not None and self.status >= 0

    def shown(self) -> str:
        way = "no end in time" if self.status is None else f"signal {-self.status}" if self.status < 0 else f"status {self.status}"
        return f"{way}, {len(self.out)} bytes on out, err {self.err[:200]!r}"


class Wrong(Exception):
    """What is wrong with an answer: its kind, by which two failures are told apart, and what is to be seen."""

    def __init__(self, kind: str, seen: object = ""):
        super().__init__(f"{kind}: {seen}")
        self.kind = kind


@dataclass(frozen=True)
class Command:
    """What words mean."""

    name: bytes
    file: bytes
    stimulus: bytes | None = None
    ticks: int = 100_000
    routes: bytes | None = None


def meant(words: tuple[bytes, ...]) -> Command | None:
    """What the words mean of that which the program does today, if anything."""
    if not words or words[0] not in OPERANDS:
        return None
    operands: list[bytes] = []
    ticks, rest = None, iter(words[1:])
    for word in rest:
        if word == b"--ticks" and words[0] == b"run":
            number = next(rest, b"")
            if ticks is not None or not re.fullmatch(rb"[0-9]{1,6}", number) or not 1 <= int(number) <= 200_000:
                return None
            ticks = int(number)
        elif not word or word.startswith(b"--"):
            return None
        else:
            operands.append(word)
    if len(operands) not in OPERANDS[words[0]]:
        return None
    if words[0] == b"time":
        return Command(words[0], operands[0], routes=operands[1])
    return Command(words[0], *operands, **({} if ticks is None else {"ticks": ticks}))


def is_unbuilt(text: bytes) -> bool:
    """Whether a text has a word whose form isn't built yet, perhaps in a comment."""
    return any(re.search(rb"\b%s\b" % it.encode(), text) for it in UNBUILT)


def is_readable(words: tuple[bytes, ...]) -> bool:
    """Whether the system can give these words to the program, as text."""
    try:
        return all(it.decode() is not None for it in words)
    except UnicodeDecodeError:
        return False


def load(room: str, name: bytes) -> tuple[bytes, Answer | None]:
    """The bytes of a file, or the answer that is due where it can't be had."""
    try:
        with open(os.path.join(os.fsencode(room), name), "rb") as file:
            text = file.read(LONG)
    except FileNotFoundError:
        return b"", Answer(6, b"", b"no file " + name + b"\n")
    except OSError:
        return b"", Answer(8, b"", b"read fault " + name + b"\n")
    return (b"", Answer(7, b"", b"too long " + name + b"\n")) if len(text) == LONG else (text, None)


def rule_of_line(line: bytes, before: int) -> tuple[int | None, int]:
    """The least rule that a line of a stimulus breaks, if any, and its tick, or that of the line before where it has none."""
    words = [it for it in line.split(b" ") if it]
    if not words or words[0].startswith(b"#"):
        return None, before
    numbers = [words[at] for at in (0, 1, 3)] if len(words) == 4 else [b""]
    if any(not re.fullmatch(rb"[0-9]+", it) or len(it.lstrip(b"0")) > 10 or int(it) >= 2**32 for it in numbers):
        return 801, before
    tick, core, value = map(int, numbers)
    if tick < before:
        return 802, tick
    if core > 3 or words[2].decode("latin-1") not in PORTS:
        return 803, tick
    return (804 if value >= 2 ** PORTS[words[2].decode()] else None), tick


def lines_of(text: bytes) -> list[bytes]:
    """The lines of a text, without what ends them. A carriage return ends one before a line feed alone."""
    *whole, last = text.split(b"\n")
    return [it[:-1] if it.endswith(b"\r") else it for it in whole] + ([last] if last else [])


def broken_line(stimulus: bytes) -> tuple[int, int] | None:
    """The first line of a stimulus that breaks a rule, and the least rule that it breaks."""
    tick = 0
    for number, line in enumerate(lines_of(stimulus), 1):
        rule, tick = rule_of_line(line, tick)
        if rule or number > 100_000:
            return number, rule or 805
    return None


def wants(kind: str, holds: object, seen: object = "") -> None:
    if not holds:
        raise Wrong(kind, seen)


def ports_of_listing(lines: Iterator[bytes], end: bytes) -> dict[tuple[bytes, bytes], bytes]:
    """Reads a listing behind its line `code`, up to the line that ends it, and gives the directions of its cores' ports."""
    found, line = {}, next(lines, b"")
    cores: list[bytes] = []
    while line.startswith(b".core"):
        for form in HEADS:
            wants("listing", match := form.fullmatch(line), line)
            cores += [match[1]] if form is HEADS[0] else []
            line = next(lines, b"")
        while match := PORT.fullmatch(line):
            found[cores[-1], match[1]] = match[2]
            line = next(lines, b"")
        wants("listing", ROOT.fullmatch(line), line)
        while ROOT.fullmatch(line):
            line = next(lines, b"")
        index = 0
        while match := INSTRUCTION.fullmatch(line):
            wants("listing", int(match[1]) == index, line)
            index, line = index + 1, next(lines, b"")
        wants("listing", index, line)
    wants("listing", cores and cores == sorted(set(cores)), cores)
    while CHANNEL.fullmatch(line):
        line = next(lines, b"")
    wants("listing", line == end, line)
    return found


def judge_trace(lines: Iterator[bytes], ports: dict[tuple[bytes, bytes], bytes]) -> int:
    """Reads a trace behind its line `trace`, and gives the status that fits it."""
    has_erred = False
    for line in lines:
        if line.startswith(b"end "):
            word = line[4:-1]
            wants("trace", next(lines, None) is None and line.endswith(b"\n"), line)
            wants("trace", word in RUN or (word == b"trapped" and has_erred), line)
            return 3 if has_erred else RUN[word]
        if match := MOVED.fullmatch(line):
            way, core, port, stamp, value = match.groups()
            wants("trace", ports.get((core, port)) in (way, b"both"), line)
            wants("trace", int(stamp) < 65_536 and int(value) < 2 ** PORTS[port.decode()], line)
        elif ERRED.fullmatch(line):
            has_erred = True
        else:
            match = TAKEN.fullmatch(line)
            wants("trace", match and int(match[2]) < 2**32, line)
    raise Wrong("trace", "no end")


def judge_output(command: Command, answer: Answer) -> None:
    """Looks whether what a call wrote has its form, and whether its status fits."""
    lines = iter(answer.out.splitlines(keepends=True))
    wants("errors", not answer.err, answer.shown())
    if command.name == b"check":
        wants("output", (answer.status, answer.out) == (0, b"accepted\n"), answer.shown())
        return
    wants("output", next(lines, b"") == b"code\n", answer.shown())
    if command.name == b"asm":
        ports_of_listing(lines, b"")
        wants("status", answer.status == 0, answer.shown())
    else:
        status = judge_trace(lines, ports_of_listing(lines, b"trace\n"))
        wants("status", answer.status == status, f"{answer.shown()}, where {status} fits the trace")


def judge_refusal(case: Case, command: Command, text: bytes, answer: Answer) -> None:
    """Looks at the line of a text that is refused."""
    match = REFUSED.fullmatch(answer.err[len(command.file) :]) if answer.err.startswith(command.file) else None
    wants("errors", match and not answer.out, answer.shown())
    line, column, rule = map(int, match.groups())
    wants("errors", rule in RULES, answer.shown())
    lines = text.split(b"\n")
    wants("place", line <= len(lines) and column <= len(lines[line - 1]) + 1, answer.shown())
    wants("rule", (rule == 105) == (len(text) > LONGEST) and (rule not in (105, 299, 305) or (line, column) == (1, 1)), answer.shown())
    wants("rule", rule != 299 or is_unbuilt(text), answer.shown())
    wants("refused", not case.forms or (case.forms == "all" and rule == 299), answer.shown())


def judge_bounds(command: Command, routes: bytes, answer: Answer) -> None:
    """Looks whether the bounds that a call wrote, or the line that it names, are those of its listing."""
    code = code_of(answer.out)
    lines = iter(code.splitlines(keepends=True))
    wants("output", next(lines, b"") == b"code\n", answer.shown())
    ports_of_listing(lines, b"")
    numbers, broken = bounds(code.decode(), lines_of(routes))
    due = Answer(0, code + b"".join(b"ticks %d\n" % it for it in numbers))
    if broken:
        due = Answer(13, code, command.routes + b":%d: rule %d\n" % broken)
    wants("bounds", answer == due, f"{answer.shown()}, where {due.shown()} is due")


def judge(case: Case, room: str, answer: Answer) -> None:
    """Looks whether an answer may be one to these words over these files; raises what is wrong."""
    wants("hang", answer.status is not None, answer.shown())
    wants("signal", answer.ended, answer.shown())
    wants("status", answer.status in STATUSES, answer.shown())
    if not is_readable(case.words):
        wants("words", answer == Answer(15), answer.shown())
        return
    command = meant(case.words)
    if command is None:
        wants("words", answer == Answer(2, b"", USAGE), answer.shown())
        return
    text, due = load(room, command.file)
    if due:
        wants("file", answer == due, answer.shown())
        return
    if answer.status == 1:
        judge_refusal(case, command, text, answer)
        return
    wants("rule", len(text) <= LONGEST, answer.shown())
    if command.stimulus is not None:
        stimulus, due = load(room, command.stimulus)
        if not due and (broken := broken_line(stimulus)):
            due = Answer(10, b"", command.stimulus + b":%d: rule %d\n" % broken)
        if due:
            wants("stimulus", answer == due, f"{answer.shown()}, where {due.shown()} is due")
            return
    if command.routes is not None:
        routes, due = load(room, command.routes)
        if due:
            wants("routes", answer == due, f"{answer.shown()}, where {due.shown()} is due")
        else:
            judge_bounds(command, routes, answer)
        return
    judge_output(command, answer)


def code_of(out: bytes) -> bytes:
    """The code section of an output."""
    end = BEHIND_CODE.search(out)
    return out[: end.start()] if end else out


def trace_of(out: bytes) -> bytes:
    return out.partition(b"trace\n")[2]


def agree(command: Command, answer: Answer, other: bytes, its: Answer) -> None:
    """Looks whether the answer of `check` or `asm` to the same text fits."""
    if answer.status == 1 or its.status == 1:
        wants("disagree", answer == its, f"{answer.shown()}, but {other.decode()}: {its.shown()}")
    elif other == b"asm" and command.name in (b"run", b"time") and answer.out:
        wants("disagree", code_of(answer.out) == its.out, f"the code sections of {command.name.decode()} and asm differ: {answer.shown()}, {its.shown()}")


def is_front(shorter: bytes, longer: bytes) -> bool:
    """Whether the records of a shorter run are the first ones of a longer run."""
    return trace_of(longer).startswith(trace_of(shorter).rpartition(b"end ")[0])
