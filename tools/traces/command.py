"""What the commands have in common."""

from __future__ import annotations

import argparse
import contextlib
import heapq
import os
import sys
from operator import itemgetter
from typing import BinaryIO, Callable, Iterator, NamedTuple

from .lines import Refused
from .output import Output, Record
from .stimulus import read_pins
from .times import timed

REFUSED = 1
LAST = 1 << 64  # a tick behind all that a run has


def bare_parser(name: str, about: str, example: str) -> argparse.ArgumentParser:
    """The reader of a command's words, which has none yet."""
    return argparse.ArgumentParser(
        prog=name, description=about, epilog=example, formatter_class=argparse.RawDescriptionHelpFormatter, allow_abbrev=False
    )


def parser(name: str, about: str, example: str) -> argparse.ArgumentParser:
    """The reader of a command's words, with those that all programs have which show a run."""
    made = bare_parser(name, about, example)
    add_file(made)
    made.add_argument("--stimulus", metavar="FILE", help="the run's stimulus: the pins are shown too")
    made.add_argument(
        "--lockstep", action="store_true", help="all cores go by one clock, as in a run: a record isn't before the one above it"
    )
    return made


def tick(word: str) -> int:
    """A tick of the command line."""
    if not (word.isascii() and word.isdigit()):
        raise ValueError
    return int(word)


def add_file(words: argparse.ArgumentParser) -> None:
    """Adds the file that is read."""
    words.add_argument("file", nargs="?", metavar="FILE", help="what xcsim wrote; standard input where it isn't named")


def add_range(words: argparse.ArgumentParser, done: str) -> None:
    """Adds the words that choose a part of a run."""
    words.add_argument("--from", dest="first", type=tick, default=0, metavar="TICK", help=f"the first tick that is {done}")
    words.add_argument("--to", dest="last", type=tick, default=LAST, metavar="TICK", help=f"the last tick that is {done}")


@contextlib.contextmanager
def opened(name: str | None) -> Iterator[tuple[BinaryIO, str]]:
    """A file that is read and the name it is told by; standard input where there is no name."""
    if name is None:
        yield sys.stdin.buffer, "standard input"
    else:
        with open(name, "rb") as file:
            yield file, name


class Timeline(NamedTuple):
    """What is shown: the output, the ports whose pins are shown, and records and pins with their ticks, in the order of these."""

    output: Output
    pins: set[tuple[int, str]]
    events: Iterator[tuple[int, Record]]


def read(words: argparse.Namespace) -> Timeline:
    """Reads the whole output, and the stimulus where one is named."""
    with opened(words.file) as (file, name):
        output = Output(file, name)
        events = timed(output.records(), words.lockstep)
    stimulus, pins = read_pins(words.stimulus, output.listing)
    return Timeline(output, pins, iter(heapq.merge(stimulus, events, key=itemgetter(0))))


def run(name: str, action: Callable[[], None]) -> int:
    """Makes what a command does, and gives its status. What goes wrong is told on standard error."""
    try:
        action()
        sys.stdout.flush()
        return 0
    except BrokenPipeError:
        os.dup2(os.open(os.devnull, os.O_WRONLY), sys.stdout.fileno())  # so that the last flush has where to go
    except Refused as refused:
        print(refused, file=sys.stderr)
    except OSError as error:
        print(f"{name}: {error.filename or 'output'}: {error.strerror}", file=sys.stderr)
    return REFUSED
