"""The runs of the prover that the gate makes, seen from outside.

A check is known by its words (`--test`: the tests) and by its folder (edits are tried in copies of the crate); its time is read once a
second from /proc, with that of the copies that it makes of itself, so each may be up to a second short."""

from __future__ import annotations

import os
import time
from dataclasses import dataclass, field
from typing import NamedTuple, Optional

SECOND = os.sysconf("SC_CLK_TCK")


class Process(NamedTuple):
    """A process: its parent, its own processor time with that of the children it has waited for, and its words."""

    parent: int
    seconds: float
    words: list[str]


@dataclass
class Check:
    """A run of the prover: the crate, what for, when it began, and the seconds of processor time it has taken so far."""

    crate: str
    kind: str
    began: float
    ended: float
    seconds: float = 0.0


def content(path: str) -> str:
    """What a file has; nothing where it is gone."""
    try:
        with open(path, "rb") as file:
            return file.read().decode(errors="replace")
    except OSError:
        return ""


def kind_of(folder: str, words: list[str]) -> str:
    if "rt-edit-" in folder:
        return "edits"
    if "--crate-checked" in words:
        return "building"
    return "tests" if "--test" in words else "proof"


def is_prover(words: list[str]) -> bool:
    return len(words) > 2 and os.path.basename(words[0]) == "rattle" and words[1] in ("check", "build") and "--crate-name" in words


def process_of(stat: str, words: str) -> Process:
    """A process by its files in /proc."""
    fields = stat.rpartition(")")[2].split()
    return Process(int(fields[1]), sum(map(int, fields[11:15])) / SECOND, words.split("\0"))


def processes() -> dict[int, Process]:
    stats = {int(pid): content(f"/proc/{pid}/stat") for pid in os.listdir("/proc") if pid.isdigit()}
    return {pid: process_of(stat, content(f"/proc/{pid}/cmdline")) for pid, stat in stats.items() if stat}


def folder_of(pid: int) -> Optional[str]:
    try:
        return os.readlink(f"/proc/{pid}/cwd")
    except OSError:
        return None


@dataclass
class Watch:
    """The checks that were seen so far."""

    start: float = field(default_factory=time.monotonic)
    checks: dict[tuple[int, tuple[str, ...]], Check] = field(default_factory=dict)

    def minutes(self) -> float:
        return round((time.monotonic() - self.start) / 60, 1)

    def sample(self) -> None:
        """Brings the checks up to date with the processes that run now."""
        now, at = processes(), time.monotonic() - self.start
        for pid, process in now.items():
            above = now.get(process.parent)
            folder = folder_of(pid) if is_prover(process.words) and not (above and is_prover(above.words)) else None
            if folder is None:
                continue
            crate = process.words[process.words.index("--crate-name") + 1]
            check = self.checks.setdefault((pid, tuple(process.words)), Check(crate, kind_of(folder, process.words), at, at))
            copies = sum(it.seconds for it in now.values() if it.parent == pid)
            check.seconds, check.ended = max(check.seconds, process.seconds + copies), at


def minutes(checks: list[Check]) -> Optional[float]:
    return round(sum(it.seconds for it in checks) / 60, 1) if checks else None


def rows(checks: list[Check]) -> list[dict]:
    """A row for each crate, the dearest first, in processor minutes. The first edit that is tried proves the whole crate again."""
    found = []
    for crate in {it.crate for it in checks}:
        own = sorted((it for it in checks if it.crate == crate), key=lambda it: it.began)
        proof, tests, edits, building = ([it for it in own if it.kind == kind] for kind in ("proof", "tests", "edits", "building"))
        row = {"crate": crate, "proof": minutes(proof), "tests": minutes(tests), "first edit": minutes(edits[:1]), "other edits": minutes(edits[1:])}
        row |= {"edits": len(edits), "building": minutes(building), "sum": minutes(own)}
        row |= {"proof began": round(proof[0].began / 60) if proof else None, "proof ended": round(proof[-1].ended / 60) if proof else None}
        found.append(row)
    return sorted(found, key=lambda row: (-row["sum"], row["crate"]))
