"""What a program answers where it is refused an allocation."""

from __future__ import annotations

import os
import sys
from typing import Callable, Sequence

from .timing import Run, run

WANTING = 12  # the status of want of memory
SOURCE = os.path.join(os.path.dirname(os.path.realpath(__file__)), "refuse.c")


def compile_refuser(room: str) -> None:
    """The library that refuses allocations, in a folder in which the programs are run."""
    run(["cc", "-shared", "-fPIC", "-O1", "-o", os.path.join(room, "refuse.so"), SOURCE])


def call(room: str, words: Sequence[str], **told: str) -> Run:
    return run(words, (), cwd=room, env={**os.environ, "LD_PRELOAD": os.path.join(room, "refuse.so"), **told})


def kind_of_call(got: Run, whole: Run, had_line: bool) -> str:
    """What came of a call of xcsim. Of the first allocations, which are of the words, want of memory has no line."""
    if (got.status, got.output, got.errors) == (whole.status, whole.output, whole.errors):
        return "without effect"
    if got.status == WANTING and not got.output:
        if got.errors == "out of memory\n":
            return "out of memory"
        if not got.errors and not had_line:
            return "of the words"
    return "wrong"


def kind_of_core(got: Run, whole: Run, _: bool) -> str:
    """What came of a core that asked for room: it tells of a case where something else came than should."""
    if got.output == whole.output:
        return "without effect"
    return "wrong" if "came" in got.output else "out of memory"


def room_case(cases: str) -> str:
    """The case of a core that asks for room, up to the empty line behind it."""
    behind = cases[("\n" + cases).index("\ncase room that is asked for") :]
    return behind.partition("\n\n")[0] + "\n\n"


def refused_row(name: str, words: Sequence[str], kind: Callable[[Run, Run, bool], str], room: str) -> dict:
    """What came of a program's refusals, each of which is of another one of its allocations."""
    made = os.path.join(room, "made")
    whole = call(room, words, MADE=made)
    with open(made, encoding="ascii") as file:
        count = int(file.read())
    counts = dict.fromkeys(("of the words", "out of memory", "without effect", "wrong"), 0)
    for number in range(1, count + 1):
        got = call(room, words, REFUSED=str(number))
        came = kind(got, whole, counts["out of memory"] > 0)
        counts[came] += 1
        if came == "wrong":
            print(f"{name}: refusal {number} gave status {got.status}", file=sys.stderr)
    return {"call": name, "status": whole.status, **counts}
