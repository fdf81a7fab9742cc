"""What a bench measured: shown row by row, and at the end appended to bench/results/NAME.jsonl, with date, commit, kit and machine."""

from __future__ import annotations

import argparse
import contextlib
import json
import os
import subprocess
import sys
from dataclasses import asdict, dataclass, field
from datetime import datetime, timezone
from typing import Iterator, Sequence, TextIO

from .scratch import TOP, read
from .timing import ticks_of


def model_of(cpuinfo: str) -> str:
    """The processor's name in /proc/cpuinfo."""
    names = (line.partition(":")[2].strip() for line in cpuinfo.splitlines() if line.startswith("model name"))
    return next(names, "unknown")


@dataclass(frozen=True)
class Machine:
    """Where it was measured: how many processors, how busy they were at the start, and what was stolen of them meanwhile."""

    model: str
    processors: int
    load: float
    stolen: float


def said(*words: str) -> str:
    """What a command prints; nothing where it isn't there or fails."""
    try:
        return subprocess.run(words, stdin=subprocess.DEVNULL, capture_output=True, text=True, check=True).stdout.strip()
    except (OSError, subprocess.CalledProcessError):
        return ""


def commit_of(top: str) -> str:
    """The commit that is measured, with a sign where the files aren't quite its own."""
    changed = said("git", "-C", top, "status", "--porcelain", "--untracked-files=no", "--", ".", ":!bench/results")
    return said("git", "-C", top, "rev-parse", "--short=8", "HEAD") + ("+" if changed else "")


def cells(row: dict, is_head: bool = False) -> str:
    """A row of a table in Markdown, or its head: text to the left, numbers to the right, nothing as a stroke."""
    made = []
    for at, (name, value) in enumerate(row.items()):
        shown = (name if is_head else "-" if value is None else str(value)).replace("|", "\\|")
        width = max(len(name), 24 if at == 0 else 7)
        made.append(shown.ljust(width) if isinstance(value, str) else shown.rjust(width))
    return f"| {' | '.join(made)} |"


@dataclass
class Sitting:
    """What a bench has measured so far, table by table."""

    name: str
    out: TextIO = sys.stdout
    tables: dict[str, list[dict]] = field(default_factory=dict)

    def add(self, table: str, rows: Iterator[dict] | Sequence[dict]) -> list[dict]:
        """Shows the rows of a table, each as soon as it is there, and keeps them."""
        kept = self.tables.setdefault(table, [])
        for row in rows:
            if not kept:
                print(f"\n{table}\n\n{cells(row, True)}\n{'|---' * len(row)}|", file=self.out)
            print(cells(row, False), file=self.out, flush=True)
            kept.append(row)
        return kept

    def line(self, machine: Machine, date: datetime, commit: str, kit: str) -> str:
        """The line that is stored."""
        tables = {name: [{key: it for key, it in row.items() if it is not None} for row in rows] for name, rows in self.tables.items()}
        found = {"date": date.strftime("%Y-%m-%dT%H:%MZ"), "commit": commit, "kit": kit, "machine": asdict(machine), "figures": tables}
        return json.dumps(found, ensure_ascii=False)


@contextlib.contextmanager
def sitting(name: str, is_stored: bool = True, top: str = TOP) -> Iterator[Sitting]:
    """A sitting of a bench. What is measured is stored where it comes to its end."""
    started, load = ticks_of(read("/proc/stat")), round(os.getloadavg()[0], 2)
    made, date, commit = Sitting(name), datetime.now(timezone.utc), commit_of(top)
    yield made
    stolen = ticks_of(read("/proc/stat")).stolen_since(started)
    machine = Machine(model_of(read("/proc/cpuinfo")), len(os.sched_getaffinity(0)), load, stolen)
    print(f"\n{machine.processors} processors ({machine.model}), load {load} at the start, {100 * stolen:.1f} percent stolen")
    if is_stored:
        with open(os.path.join(top, "bench", "results", f"{name}.jsonl"), "a", encoding="utf-8") as file:
            file.write(made.line(machine, date, commit, said("rt", "version")) + "\n")


def parser(name: str, about: str | None) -> argparse.ArgumentParser:
    """The reader of a bench's words, with the one that all have."""
    made = argparse.ArgumentParser(prog=f"bench/{name}", description=about, formatter_class=argparse.RawDescriptionHelpFormatter, allow_abbrev=False)
    made.add_argument("--unstored", action="store_true", help="show what was measured, and store nothing")
    return made
