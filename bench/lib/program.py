"""The built xcsim: loops, programs of eight threads and long texts, beside clang and an interpreter of listings."""

from __future__ import annotations

import argparse
import os
import re
import subprocess
import sys
from typing import Optional

from .clang import size_by_clang, size_of_listing
from .scratch import TOP, write
from .timing import Run, least, run
from .xc import EIGHT, LINKS, LOOPS, PACES, SELECT_PACES, edges, endless, long_program, selects, turning, waits

TICKS = 200_000


def xcsim(top: str = TOP) -> str:
    return os.path.join(top, "crates", "xcsim", "out", "xcsim")


def build(top: str = TOP) -> None:
    """Proves and builds xcsim where it isn't built, by a first call."""
    words = [os.path.join(top, "xcsim"), "check", os.path.join(top, "examples", "pulse.xc")]
    if subprocess.run(words, stdout=subprocess.DEVNULL, check=False).returncode:
        sys.exit("xcsim isn't built")


def call(*words: str) -> Run:
    """What xcsim writes; it ends with 0, or with 4 where a run was stopped."""
    return run([xcsim(), *words], (0, 4))


def best(*words: str) -> float:
    """The seconds of the fastest of five calls."""
    return least(lambda: call(*words).seconds, 5)


def takes_interpreter(reader: argparse.ArgumentParser) -> None:
    about = "the source of a plain interpreter of listings, which gcc compiles, to compare with: it takes a listing, `--ticks N` and `--stats`"
    reader.add_argument("interpreter", nargs="?", metavar="INTERPRETER.c", help=about)


def compiled(source: Optional[str], room: str) -> Optional[str]:
    """The interpreter, if one is named."""
    if not source:
        return None
    made = os.path.join(room, "interpreter")
    run(["gcc", "-O2", "-std=c11", "-o", made, source])
    return made


def stats_of(text: str) -> Optional[tuple[int, float]]:
    """The steps and the seconds that an interpreter tells."""
    found = re.search(r"steps ([0-9]+) seconds ([0-9.]+)", text)
    return (int(found[1]), float(found[2])) if found else None


def interpreted(interpreter: str, listing: str, ticks: int) -> Optional[tuple[int, float]]:
    """The steps and the seconds of a listing by the interpreter, whose status tells how the run ended."""
    ran = run([interpreter, listing, "--ticks", str(ticks), "--stats"], ())
    return stats_of(ran.output + ran.errors)


def loop_row(name: str, room: str, interpreter: Optional[str]) -> dict:
    """A loop's instructions, here and by clang, and its speed."""
    head, body, arguments = LOOPS[name]
    path, bare, listing = (os.path.join(room, file) for file in ("loop.xc", "bare.xc", "loop.lst"))
    write(endless(head, body, arguments), path)
    write(endless(head, "return 0;", arguments), bare)
    write(call("asm", path).output, listing)
    here, without = (size_of_listing(call("asm", it).output) for it in (path, bare))
    row: dict = {"loop": name, "here": here.all - without.all, "its loop": here.loop}
    for level in ("-O0", "-O2"):
        size = size_by_clang(f"{head} {{ {body} }}\n", level)
        row |= {f"clang {level}": size and size.all, f"loop {level}": size and size.loop}
    seconds = best("run", path, "--ticks", str(TICKS)) - best("run", path, "--ticks", "1")
    row |= {"seconds": round(seconds, 3), "million a second": round(TICKS / seconds / 1e6, 1) if seconds > 0 else None}
    told = interpreted(interpreter, listing, TICKS * 1000) if interpreter else None
    return row | {"interpreter's": round(told[0] / told[1] / 1e6, 1) if told and told[1] else None}


def eight_row(name: str, room: str, interpreter: Optional[str]) -> dict:
    """How long a program of eight threads takes."""
    return {"eight threads": name, **raced(calls_of(EIGHT[name], "", room, interpreter))}


def waiting_row(pace: str, room: str, interpreter: Optional[str]) -> dict:
    """How long the program of threads that wait takes at a pace, under its stimulus, and whether the interpreter writes the same trace."""
    return {"waits": pace, **compared(calls_of(waits(pace), edges(PACES[pace], TICKS), room, interpreter))}


def select_row(pace: str, room: str, interpreter: Optional[str]) -> dict:
    """The same of the program of threads in selects."""
    return {"waits": pace, **compared(calls_of(selects(pace), edges(SELECT_PACES[pace], TICKS), room, interpreter))}


def link_row(name: str, room: str, interpreter: Optional[str]) -> dict:
    """How long a program of four cores takes, and whether the interpreter writes the same trace."""
    return {"four cores": name, **compared(calls_of(LINKS[name], "", room, interpreter))}


def refusal(text: str, room: str) -> str:
    """What xcsim says where it refuses a text; nothing where it accepts it."""
    path = os.path.join(room, "refused.xc")
    write(text, path)
    return run([xcsim(), "check", path], (0, 1)).errors.strip()


def compared(calls: dict[str, list[str]]) -> dict:
    """How long these calls take, and where the interpreter's is among them whether its trace is the same."""
    traces = {run([*words, "--ticks", str(TICKS)], ()).output.partition("trace\n")[2] for words in calls.values()}
    same = {"same trace": "yes" if len(traces) == 1 else "no"} if len(calls) > 1 else {}
    return {**raced(calls), **same}


def calls_of(text: str, stimulus: str, room: str, interpreter: Optional[str]) -> dict[str, list[str]]:
    """The calls that run a program under a stimulus, or without one where it is empty."""
    path, pins, listing = (os.path.join(room, it) for it in ("eight.xc", "eight.stim", "eight.lst"))
    write(text, path)
    write(stimulus, pins)
    write(call("asm", path).output, listing)
    more = [pins] if stimulus else []
    return {"here": [xcsim(), "run", path, *more], **({"interpreter": [interpreter, listing, *more]} if interpreter else {})}


def raced(calls: dict[str, list[str]]) -> dict:
    """The least time of each of those calls, made in turns, and what part of the interpreter's the first one's is."""
    took: dict[tuple[str, int], list[float]] = {}
    for _ in range(25):
        for who, words in calls.items():
            for ticks in (1, TICKS):
                took.setdefault((who, ticks), []).append(run([*words, "--ticks", str(ticks)], (), keeps=False).seconds)
    least = {who: min(took[who, TICKS]) - min(took[who, 1]) for who in calls}
    ratio = round(least["here"] / least["interpreter"], 2) if least.get("interpreter", 0) > 0 else None
    return {**{f"{who}, ms": round(1000 * it, 1) for who, it in least.items()}, "ratio": ratio}


def long_row(size: int, room: str) -> dict:
    """How long a text of so many bytes takes."""
    path = os.path.join(room, "long.xc")
    write(long_program(size), path)
    count = size_of_listing(call("asm", path).output).all
    return {"bytes": size, "check, s": round(best("check", path), 3), "asm, s": round(best("asm", path), 3), "instructions": count}


def bounds_row(size: int, room: str) -> dict:
    """How long the bounds of one and of sixteen routes take, past a loop of so many instructions."""
    path, spec = (os.path.join(room, it) for it in ("loop.xc", "loop.routes"))
    text, places, longest = turning(size)
    write(text, path)
    count, listing = size_of_listing(call("asm", path).output).all, best("asm", path)
    row, is_right = {"instructions": count, "asm, s": round(listing, 3)}, True
    for routes in (1, 16):
        write(f"route 0 {places} 1000\n" * routes, spec)
        is_right = is_right and call("time", path, spec).output.endswith(f"ticks {longest}\n" * routes)
        row[f"{routes} routes, s" if routes > 1 else "1 route, s"] = round(best("time", path, spec) - listing, 3)
    return {**row, "is right": "yes" if is_right else "no"}
