"""What a run takes: time, memory and instructions, what several runs say together, and what was stolen meanwhile."""

from __future__ import annotations

import re
import shutil
import subprocess
import sys
import tempfile
import time
from dataclasses import dataclass
from statistics import median
from typing import Any, Callable, Optional, Sequence


@dataclass(frozen=True)
class Run:
    """What a program wrote and gave, its seconds, and its peak of memory where GNU time is there."""

    output: str
    errors: str
    status: int
    seconds: float
    kilobytes: Optional[int] = None


def run(words: Sequence[str], statuses: tuple[int, ...] = (0,), keeps: bool = True, **how: Any) -> Run:
    """Runs a program, which must end with one of these statuses, or with any where there are none. What it writes is kept, or goes nowhere."""
    output = subprocess.PIPE if keeps else subprocess.DEVNULL
    began = time.perf_counter()
    try:
        done = subprocess.run(words, stdin=subprocess.DEVNULL, stdout=output, stderr=output, check=False, **how)
    except FileNotFoundError as error:
        sys.exit(f"{error.filename} isn't there")
    seconds = time.perf_counter() - began
    written, errors = ((it or b"").decode(errors="replace") for it in (done.stdout, done.stderr))
    if statuses and done.returncode not in statuses:
        sys.exit(f"{' '.join(words)}: status {done.returncode}, {errors}")
    return Run(written, errors, done.returncode, seconds)


def run_with_memory(words: Sequence[str], statuses: tuple[int, ...] = (0,), keeps: bool = True, **how: Any) -> Run:
    """The same by GNU time, whose seconds have two places. Python's own count would have its own memory in it."""
    if not shutil.which("time"):
        return run(words, statuses, keeps, **how)
    with tempfile.NamedTemporaryFile("r") as told:
        done = run(["time", "-f", "%e %M", "-o", told.name, *words], statuses, keeps, **how)
        seconds, kilobytes = told.read().splitlines()[-1].split()
    return Run(done.output, done.errors, done.status, float(seconds), int(kilobytes))


def least(call: Callable[[], float], times: int) -> float:
    """The best of so many calls."""
    return min(call() for _ in range(times))


def middle_ratio(ours: Sequence[float], theirs: Sequence[float]) -> float:
    """The middle of the ratios within a round: each two that stand at one place ran right after one another."""
    return round(median(a / b for a, b in zip(ours, theirs)), 2)


def least_ratio(ours: Sequence[float], theirs: Sequence[float]) -> float:
    return round(min(ours) / min(theirs), 2)


@dataclass(frozen=True)
class Ticks:
    """The processors' time so far: what was stolen of it by other guests of the host, and all of it."""

    stolen: int
    all: int

    def stolen_since(self, before: Ticks) -> float:
        """The part of the time since then that was stolen."""
        return round((self.stolen - before.stolen) / max(1, self.all - before.all), 4)


def ticks_of(stat: str) -> Ticks:
    """The first line of /proc/stat: user, nice, system, idle, iowait, irq, softirq, steal. What stands behind is part of these."""
    times = [int(it) for it in stat.splitlines()[0].split()[1:9]]
    return Ticks(times[7], sum(times))


def collected(report: str) -> Optional[int]:
    """How many instructions callgrind counted."""
    found = re.search(r"Collected\s*:\s*([0-9]+)", report)
    return int(found[1]) if found else None


def instructions(words: Sequence[str]) -> Optional[int]:
    """How many instructions a program makes, where valgrind is there. No noise disturbs them."""
    if not shutil.which("valgrind"):
        return None
    return collected(run(["valgrind", "--tool=callgrind", "--callgrind-out-file=/dev/null", *words]).errors)


def figures(template: str, line: str) -> dict[str, int]:
    """The numbers of a line that a program wrote by a template, as `{tokens} tokens {microseconds} microseconds`."""
    pattern = re.sub(r"\\{(\w+)\\}", r"(?P<\1>[0-9]+)", re.escape(template))
    found = re.fullmatch(pattern, line.strip())
    if not found:
        sys.exit(f"not by `{template}`: {line}")
    return {name: int(value) for name, value in found.groupdict().items()}


def last_line(text: str) -> str:
    return text.rstrip("\n").rpartition("\n")[2]
