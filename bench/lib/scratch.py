"""A scratch repository: a program of bench/rattle beside copies of the crates that it stands on.

The gate refuses text of Rattle outside crates/, so the files of these programs end in .txt. Nothing of this repository is changed."""

from __future__ import annotations

import contextlib
import os
import shutil
import subprocess
import sys
import tempfile
from dataclasses import dataclass
from typing import Iterator

from .timing import run

TOP = os.path.dirname(os.path.dirname(os.path.dirname(os.path.realpath(__file__))))
ENDING = ".txt"


def read_lines(text: str) -> dict[str, list[str]]:
    """The crates of crates.txt, or the programs of programs.txt, each with what it stands on."""
    found = {}
    for line in text.splitlines():
        name, colon, below = line.partition("#")[0].partition(":")
        if colon:
            found[name.split()[0]] = below.split()
    return found


def crates_below(name: str, lines: dict[str, list[str]]) -> list[str]:
    """The crates with a line that one stands on, each behind those that it stands on itself."""
    found: dict[str, None] = {}

    def visit(at: str) -> None:
        for it in lines[at]:
            if it in lines and it not in found:
                visit(it)
        found[at] = None

    visit(name)
    return [it for it in found if it != name]


def read(*path: str) -> str:
    with open(os.path.join(*path), encoding="utf-8") as file:
        return file.read()


def write(text: str, *path: str) -> None:
    os.makedirs(os.path.dirname(os.path.join(*path)), exist_ok=True)
    with open(os.path.join(*path), "w", encoding="utf-8", newline="") as file:
        file.write(text)


@dataclass(frozen=True)
class Scratch:
    """A scratch repository in a folder, and the name of its program."""

    room: str
    name: str

    @property
    def folder(self) -> str:
        return os.path.join(self.room, "crates", self.name)

    @property
    def program(self) -> str:
        return os.path.join(self.folder, "out", self.name)

    def replace(self, path: str, old: str, new: str) -> None:
        """Replaces what stands once in a file below crates/."""
        text = read(self.room, "crates", path)
        if text.count(old) != 1:
            sys.exit(f"{path} doesn't have once: {old}")
        write(text.replace(old, new), self.room, "crates", path)

    def call(self, *words: str, cwd: str | None = None) -> None:
        """A step of the build. What it says is told where it fails."""
        done = run(words, (), cwd=cwd or self.folder)
        if done.status:
            sys.exit(f"{done.output}{done.errors}{' '.join(words)}: status {done.status}")

    def prove(self, *words: str) -> None:
        """Proves, builds and runs the program, with words of its own where there are any."""
        self.call("rt", "run", *(("--", *words) if words else ()))


def make(room: str, name: str, leaves: tuple[str, ...] = ("must-fail",), top: str = TOP) -> Scratch:
    """The repository of a program in a folder, whose copies of crates leave out some of their folders."""
    lines, programs = read_lines(read(top, "crates.txt")), read_lines(read(top, "bench", "rattle", "programs.txt"))
    lines[name] = programs[name]
    made, below = Scratch(room, name), crates_below(name, lines)
    subprocess.run(["git", "init", "-q", room], check=True)
    for crate in below:
        shutil.rmtree(os.path.join(room, "crates", crate), ignore_errors=True)
        shutil.copytree(os.path.join(top, "crates", crate), os.path.join(room, "crates", crate), ignore=shutil.ignore_patterns(*leaves))
    write("".join(f"{it}: {' '.join(lines[it])}\n" for it in [*below, name]), room, "crates.txt")
    texts = os.path.join(top, "bench", "rattle", name)
    for at, _, files in os.walk(texts):
        for file in files:
            write(read(at, file), made.folder, os.path.relpath(os.path.join(at, file.removesuffix(ENDING)), texts))
    return made


@contextlib.contextmanager
def scratch(name: str, leaves: tuple[str, ...] = ("must-fail",)) -> Iterator[Scratch]:
    """The repository of a program in a folder that goes in the end."""
    with tempfile.TemporaryDirectory() as room:
        yield make(os.path.realpath(room), name, leaves)
