"""Outputs that the tests read."""

import glob
import io
import os
import re
from typing import Iterator

from traces.output import Output

TOP = os.path.dirname(os.path.dirname(os.path.dirname(os.path.abspath(__file__))))
DATA = os.path.join(TOP, "tools", "tests", "data")
EXAMPLES = os.path.join(TOP, "examples")
PROGRAMS = sorted(name[:-3] for name in os.listdir(EXAMPLES) if name.endswith(".xc"))

# The examples whose forms aren't built yet: the program refuses them by rule 299, and the gate doesn't run them. Once a form is built
# its lines leave this list, and tools/runs writes the cases of the gate anew.
WAITING: list[str] = []

PULSE = """\
code
.core 0
.words 0
.timers 0
.ends 0
.port 1A out
.root 0
0: LDC r1, 0 @2:18
1: FREET @2:18
trace
out 0 1A @100 1
out 0 1A @350 0
end finished
"""


def data(name: str) -> str:
    """The path of a file of data/."""
    return os.path.join(DATA, name)


def example(name: str) -> str:
    """The path of a file of examples/."""
    return os.path.join(EXAMPLES, name)


def stimulus_words(name: str) -> list[str]:
    """The words of a call that name an example's stimulus, if it has one."""
    return [path] if os.path.exists(path := example(f"{name}.stim")) else []


def stimulus_lines(name: str) -> list[str]:
    """The lines of an example's stimulus, without blank ones and comments; none where it has no stimulus."""
    lines = [line for path in stimulus_words(name) for line in written(path).splitlines()]
    return [line for line in lines if line and not line.startswith("#")]


def written(path: str) -> str:
    """What a file has."""
    with open(path, encoding="utf-8") as file:
        return file.read()


def output_of(text: str, name: str = "a.out") -> Output:
    """The output that a text is."""
    return Output(io.BytesIO(text.encode()), name)


def listing_of(*cores: tuple[int, int, list[str]], channels: str = "") -> str:
    """The text of a listing up to `trace`, of cores with their numbers, their channel ends and their ports."""
    lines = ["code"]
    for number, ends, ports in cores:
        lines += [f".core {number}", ".words 512", ".timers 0", f".ends {ends}"]
        lines += [f".port {port}" for port in ports]
        lines += [".root 0", "0: FREET @1:1"]
    return "\n".join(lines) + f"\n{channels}trace\n"


PLACE = r"on (?:tile|stdcore)\[(\d)\] : "


def output_of_example(name: str) -> str:
    """An output of an example: a listing with its cores, ports and channels and without its code, and its trace."""
    text = written(example(f"{name}.xc"))
    placed = re.findall(rf"^ *{PLACE}(\w+\(.*\));", text, re.MULTILINE)
    ports: dict[int, list[str]] = {int(core): [] for core, _ in placed} or {0: []}
    for core, direction, port in re.findall(rf"^(?:{PLACE})?(in|out) port \w+ = XS1_PORT_(\w+);", text, re.MULTILINE):
        ports[int(core or 0)].append(f"{port} {direction}")
    ends, channels = dict.fromkeys(ports, 0), ""
    for channel in ", ".join(re.findall(r"^ *chan ([^;]+);", text, re.MULTILINE)).split(", "):
        users = [int(core) for core, call in placed if re.search(rf"\b{channel}\b", call)] if placed else [0, 0] if channel else []
        sides = []
        for core in users:
            sides.append(f" {core} {ends[core]}")
            ends[core] += 1
        channels += f".chan{''.join(sides)}\n" if sides else ""
    return listing_of(*((core, ends[core], ports[core]) for core in sorted(ports)), channels=channels) + written(example(f"{name}.trace"))


KEPT = [output_of_example(name) for name in PROGRAMS] + [written(data(name)) for name in ("two_cores.out", "script.out")]


ESCAPED = re.compile(r"\\(x[0-9a-f]{2}|.)")
SIGNS = {"n": "\n", "r": "\r", "t": "\t", "s": " ", "i": "0", "j": "1"}


def unescaped(text: str) -> str:
    """What a line of a case stands for; repetitions are all taken as the first."""
    return ESCAPED.sub(lambda it: chr(int(it[1][1:], 16)) if len(it[1]) == 3 else SIGNS.get(it[1], it[1]), text)


def refused_texts() -> Iterator[tuple[str, int, int, int]]:
    """The refused texts among the cases of crates/: each with the rule that it breaks first, and the line and column."""
    for path in glob.glob(os.path.join(TOP, "crates", "*", "data", "*.txt")):
        lines: list[str] = []
        with open(path, encoding="latin-1") as file:
            for mark, rest in ((it[:1], it[2:].rstrip("\n")) for it in file):
                if mark == "c":
                    lines = []
                elif mark == "|":
                    lines.append(unescaped(rest))
                elif mark == "+" and lines:
                    lines[-1] += unescaped(rest)
                elif mark == "*" and lines and rest[:1].isdigit():
                    count, _, text = rest.partition(" ")
                    lines[-1] += unescaped(text) * int(count)
                elif mark in "=~" and (match := re.fullmatch(r"(\d{3}) at (\d+):(\d+)", rest)):
                    yield "\n".join(lines), *map(int, match.groups())


def runs_of_examples() -> str:
    """The examples as cases of crates/xt_programs/data: behind `|` the lines of a program, behind `stim` those of its stimulus, behind `=`
    those of its trace. The head of a case that waits is a comment."""
    head = "# Runs of the examples. tools/runs writes this file, from examples/NAME.xc, NAME.stim and NAME.trace. README.md tells its form.\n"
    return "\n".join([head, *map(case_of_example, PROGRAMS)])


def case_of_example(name: str) -> str:
    text = "".join(f"| {line}".rstrip() + "\n" for line in written(example(f"{name}.xc")).splitlines())
    pins = "".join(f"stim {line}\n" for line in stimulus_lines(name))
    trace = "".join(f"= {line}\n" for line in written(example(f"{name}.trace")).splitlines())
    return f"{'# ' if name in WAITING else ''}case {name}\n{text}{pins}{trace}"
