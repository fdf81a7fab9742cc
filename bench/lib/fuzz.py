"""Tries cases on a program, side by side: each in a folder of its own, with the calls that are held against one another."""

from __future__ import annotations

import os
import re
import shutil
import subprocess
import tempfile
import time
from collections import Counter
from concurrent.futures import ThreadPoolExecutor
from dataclasses import dataclass, field, replace
from typing import Callable, Iterator

from .cases import Case, case, smaller
from .verdicts import RUN, Answer, Command, Wrong, agree, code_of, is_front, is_readable, judge, meant, trace_of, wants

WAITS = 10.0  # the seconds that a call may take
BLOCK = 1000  # how many cases wait for a processor at most
SHRINKING = 60.0  # the seconds for which a case that fails is made smaller


@dataclass(frozen=True)
class Failure:
    """A case that failed: its number, what was wrong, and the smallest one that was found to fail in the same way."""

    number: int
    case: Case
    kind: str
    seen: str
    smaller: Case


@dataclass
class Came:
    """What came of some cases."""

    calls: int = 0
    kinds: Counter = field(default_factory=Counter)
    statuses: Counter = field(default_factory=Counter)
    rules: Counter = field(default_factory=Counter)
    traces: int = 0
    failures: list[Failure] = field(default_factory=list)

    def add(self, other: "Came") -> None:
        self.calls += other.calls
        self.kinds += other.kinds
        self.statuses += other.statuses
        self.rules += other.rules
        self.traces += other.traces
        self.failures += other.failures


@dataclass(frozen=True)
class Trial:
    """The program that is tried, the interpreter of listings that is its reference where there is one, the seconds that a call may take, and how
    often at most a case that fails is tried with less of it."""

    program: str
    interpreter: str | None = None
    waits: float = WAITS
    shrinks: int = 300

    def run(self, room: str, words: tuple[bytes, ...], program: str | None = None) -> Answer:
        """Calls the program. It is ended where it takes too long."""
        how = {"cwd": room, "stdin": subprocess.DEVNULL, "capture_output": True, "timeout": self.waits}
        try:
            done = subprocess.run([program or self.program, *words], check=False, **how)
        except subprocess.TimeoutExpired:
            return Answer(None)
        return Answer(done.returncode, done.stdout, done.stderr)

    def tries(self, tried: Case, came: Came) -> None:
        """Tries a case, and raises what is wrong."""
        with tempfile.TemporaryDirectory() as room:
            tried.put(room)

            def call(words: tuple[bytes, ...]) -> Answer:
                came.calls += 1
                return self.run(room, words)

            answer = call(tried.words)
            came.statuses[str(answer.status)] += 1
            if answer.status in (1, 10, 13) and (rule := re.search(rb"rule ([0-9]+)\n", answer.err)):
                came.rules[rule[1].decode()] += 1
            judge(tried, room, answer)
            wants("differs", call(tried.words) == answer, f"the same call for a second time: {answer.shown()}")
            command = meant(tried.words) if is_readable(tried.words) else None
            if command and answer.status not in (6, 7, 8):
                self.compare(tried, command, answer, call, room, came)

    def compare(self, tried: Case, command: Command, answer: Answer, call: Callable, room: str, came: Came) -> None:
        """Holds the answer against those of other calls over the same text, and against the interpreter's."""
        for other in (b"check", b"asm"):
            if command.name != other:
                words = (other, command.file)
                its = call(words)
                judge(replace(tried, words=words), room, its)
                agree(command, answer, other, its)
        if command.name != b"run" or answer.status not in (3, *RUN.values()):
            return
        pins = () if command.stimulus is None else (command.stimulus,)
        if command.ticks > 1:
            ticks = command.ticks // 2
            words = (b"run", command.file, *pins, b"--ticks", str(ticks).encode())
            front = call(words)
            judge(replace(tried, words=words), room, front)
            wants("front", is_front(front.out, answer.out), f"the run of {ticks} ticks is no front of this one: {front.shown()}")
        if self.interpreter:
            with open(os.path.join(room, "listing"), "wb") as file:
                file.write(code_of(answer.out))
            its = self.run(room, (b"listing", *pins, b"--ticks", str(command.ticks).encode()), self.interpreter)
            came.traces += 1
            is_same = (its.status, trace_of(its.out)) == (answer.status, trace_of(answer.out))
            wants("reference", is_same, f"the interpreter: {its.shown()}; {answer.shown()}")

    def wrong(self, tried: Case, came: Came | None = None) -> Wrong | None:
        """What is wrong with the answers to a case, if anything."""
        try:
            self.tries(tried, came or Came())
        except Wrong as found:
            return found
        return None

    def failure(self, number: int, tried: Case, found: Wrong) -> Failure:
        """A failure, with a smaller case. Where a text is refused that should break no rule nothing is smaller: what is left of it breaks one."""
        last = time.monotonic() + SHRINKING

        def fails(it: Case) -> bool:
            return time.monotonic() < last and (seen := self.wrong(it)) is not None and seen.kind == found.kind

        less = tried if found.kind == "refused" else smaller(replace(tried, forms=""), fails, self.shrinks)
        return Failure(number, tried, found.kind, str(found), less)

    def came(self, number: int, tried: Case) -> Came:
        made = Came(kinds=Counter([tried.kind]))
        if found := self.wrong(tried, made):
            made.failures.append(self.failure(number, tried, found))
        return made


def try_all(trial: Trial, seed: int, numbers: range, texts: list[bytes], jobs: int) -> Iterator[Came]:
    """What came of each of these cases, in their order."""
    with ThreadPoolExecutor(jobs) as pool:
        for at in range(0, len(numbers), BLOCK):
            yield from pool.map(lambda it: trial.came(it, case(seed, it, texts)), numbers[at : at + BLOCK])


def keep(folder: str, seed: int, failure: Failure) -> str:
    """Writes a failure into a folder of its own below this one, and gives the line by which its smaller case is tried again."""
    room = os.path.join(folder, f"{seed}-{failure.number}")
    for name, it in (("whole", failure.case), ("smaller", failure.smaller)):
        place = os.path.join(room, name)
        shutil.rmtree(place, ignore_errors=True)
        it.put(place)
        with open(os.path.join(place, "case.json"), "w", encoding="utf-8") as file:
            file.write(it.written() + "\n")
    with open(os.path.join(room, "what"), "w", encoding="utf-8") as file:
        file.write(f"seed {seed}, case {failure.number}, {failure.case.kind}: {failure.smaller.shown()}\n{failure.seen}\n")
    return f"bench/fuzz --again {os.path.join(room, 'smaller', 'case.json')}"
