"""Instructions of functions: as clang makes them for an xCORE, and as they stand in a listing."""

from __future__ import annotations

import re
import shutil
import subprocess
from typing import Iterable, NamedTuple, Optional


class Size(NamedTuple):
    """How many instructions a function takes, and how many of them stand in its innermost loop; 0 where it has none."""

    all: int
    loop: int


def innermost(branches: Iterable[tuple[int, int]]) -> int:
    """The least number of instructions from the target of a branch backwards to the branch, both included."""
    return min((at - target + 1 for at, target in branches if target <= at), default=0)


def size_of_assembly(text: str) -> Size:
    """What clang wrote: all indented lines that are no directive are instructions."""
    labels: dict[str, int] = {}
    branches, size = [], 0
    for line in text.splitlines():
        if label := re.match(r"(\.LBB\w+):", line):
            labels[label[1]] = size
        elif re.match(r"\s+[a-z]", line):
            branches += [(size, name) for name in re.findall(r"\.LBB\w+", line)]
            size += 1
    return Size(size, innermost((at, labels[name]) for at, name in branches))


def size_by_clang(text: str, level: str) -> Optional[Size]:
    """What clang makes of a text in C, or nothing where it isn't there or doesn't know the target."""
    if not shutil.which("clang"):
        return None
    words = ["clang", "--target=xcore", level, "-w", "-S", "-x", "c", "-o", "-", "-"]
    done = subprocess.run(words, input=text, capture_output=True, encoding="utf-8", check=False)
    return None if done.returncode else size_of_assembly(done.stdout)


def size_of_listing(text: str) -> Size:
    """What stands in a listing of xcsim."""
    branches = re.findall(r"^([0-9]+): BRB[UTF] (?:r[0-9]+, )?([0-9]+) ", text, re.MULTILINE)
    count = len(re.findall(r"^[0-9]+: ", text, re.MULTILINE))
    return Size(count, innermost((int(at), int(target)) for at, target in branches))
