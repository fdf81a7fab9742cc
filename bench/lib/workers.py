"""Runs of four busy cores by rounds, window by window, and by workers."""

from __future__ import annotations

import os
import shutil
import subprocess
import sys
from statistics import median
from typing import Sequence

from .codes import busy_listing
from .scratch import TOP, Scratch, make, write
from .timing import figures, least_ratio, middle_ratio

WAYS = ("rounds", "alone", "1", "2", "4")
RATIOS = (("1", "rounds"), ("1", "alone"), ("2", "1"), ("4", "1"), ("side", "1"))


def build(room: str) -> Scratch:
    """The program in a folder, by tools/build, with the libraries that a first build of xcsim has left."""
    made = make(room, "time_windows", ("must-fail", "out"))
    os.makedirs(os.path.join(room, "tools"), exist_ok=True)
    for file in ("HANDLES", os.path.join("tools", "build")):
        shutil.copy(os.path.join(TOP, file), os.path.join(room, file))
    kept = os.path.join(made.folder, "out", "rlib")
    os.makedirs(kept, exist_ok=True)
    for crate in os.listdir(os.path.join(room, "crates")):
        library, own = os.path.join(TOP, "crates", "xcsim", "out", "rlib", crate), os.path.join(kept, crate)
        if os.path.exists(f"{library}.sum") and not os.path.exists(f"{own}.sum"):
            shutil.copytree(f"{library}.rlib", f"{own}.rlib", dirs_exist_ok=True)
            shutil.copy(f"{library}.sum", f"{own}.sum")
    made.call(os.path.join("tools", "build"), made.name, cwd=room)
    return made


def measure(made: Scratch, ticks: int, times: int) -> tuple[dict[str, list[int]], int]:
    """The microseconds of each way, round by round, and the number of records, which is the same in all."""
    listing = os.path.join(made.room, "busy.lst")
    write(busy_listing(), listing)
    runs: dict[str, list[int]] = {way: [] for way in (*WAYS, "side")}
    records: set[int] = set()

    def micros(*ways: str) -> int:
        """The longest of runs side by side."""
        began = [subprocess.Popen([made.program, listing, way, str(ticks)], stdout=subprocess.PIPE, text=True) for way in ways]
        told = [figures("{microseconds} {records}", it.communicate()[0]) for it in began]
        records.update(it["records"] for it in told)
        return max(it["microseconds"] for it in told)

    for _ in range(times):
        for way in WAYS:
            runs[way].append(micros(way))
        runs["side"].append(micros("1", "1", "1", "1"))
    if len(records) != 1:
        sys.exit(f"the runs have different numbers of records: {records}")
    return runs, records.pop()


def milliseconds(way: str, took: Sequence[int]) -> dict:
    return {"way": way, "middle": round(median(took) / 1000, 1), "least": round(min(took) / 1000, 1)}


def ratios(way: str, other: str, runs: dict[str, list[int]]) -> dict:
    ours, theirs = runs[way], runs[other]
    return {"way": way, "of": other, "middle": middle_ratio(ours, theirs), "of the least": least_ratio(ours, theirs)}
