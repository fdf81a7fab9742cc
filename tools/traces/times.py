"""Gives records their ticks: stamps are unwrapped, and records without a stamp are placed between those that have one.

Nothing is held in memory but some thousand records at a time; the others wait in files of their own."""

from __future__ import annotations

import heapq
import pickle
import tempfile
from operator import itemgetter
from typing import IO, Iterable, Iterator, Optional

from .output import TURN, Record

BATCH = 4096


class Store:
    """A list that is kept in a file: it is appended to, and then read from its front, as often as is needed."""

    def __init__(self) -> None:
        self._file: Optional[IO[bytes]] = None
        self._batch: list = []
        self._places: list[tuple[int, int]] = []

    def append(self, item: object) -> None:
        self._batch.append(item)
        if len(self._batch) == BATCH:
            self._put_away()

    def _put_away(self) -> None:
        file = self._file = self._file or tempfile.TemporaryFile()
        data = pickle.dumps(self._batch, pickle.HIGHEST_PROTOCOL)
        self._places.append((file.tell(), len(data)))
        file.write(data)
        self._batch = []

    def __iter__(self) -> Iterator:
        if self._file is not None:
            for start, length in self._places:
                self._file.seek(start)
                yield from pickle.loads(self._file.read(length))
        yield from self._batch

    def close(self) -> None:
        """Drops the file. The list is used no more."""
        if self._file is not None:
            self._file.close()


class Clock:
    """The clock that a list of records goes by, which are in the order of their ticks, and the records so far."""

    def __init__(self, start: int):
        self._start = self._latest = start
        self._kept = Store()
        self._limits = Store()  # the tick of each stamp that follows a record without one
        self._has_open = False  # whether the last record has none

    def add(self, record: Record) -> None:
        """Takes the next record. Where it has a stamp its tick is the first with that stamp that doesn't lie before the last one."""
        if record.stamp is None:
            self._has_open = True
            self._kept.append((None, tuple(record)))
            return
        self._latest += (record.stamp - self._latest) % TURN
        if self._has_open:
            self._limits.append(self._latest)
            self._has_open = False
        self._kept.append((self._latest, tuple(record)))

    def placed(self) -> Iterator[tuple[int, Record]]:
        """The records with their ticks. It is asked for once."""
        for tick, fields in place(self._kept, iter(self._limits), self._start):
            yield tick, Record._make(fields)
        self._kept.close()
        self._limits.close()


def place(entries: Iterable[tuple[Optional[int], tuple]], limits: Iterator[int], start: int) -> Iterator[tuple[int, tuple]]:
    """Gives a tick to those that have none: the one behind that of the entry before it, but never one behind the next tick that is
    known. `limits` are these next ticks, one for each row of entries without one; the last row may have none."""
    now, limit, is_open = start, None, False
    for tick, fields in entries:
        if tick is not None:
            now, is_open = tick, False
        else:
            if not is_open:
                limit, is_open = next(limits, None), True
            now = now + 1 if limit is None else min(now + 1, limit)
        yield now, fields


def timed(records: Iterable[Record], is_lockstep: bool) -> Iterator[tuple[int, Record]]:
    """The records with their ticks, in the order of these. All records are read before the first is given.

    Each core has its own clock; but in lockstep, as in a run, all go by one clock, whose first step is at tick 1."""
    clocks: dict[int, Clock] = {}
    for record in records:
        number = 0 if is_lockstep else record.core
        if number not in clocks:
            clocks[number] = Clock(1 if is_lockstep else 0)
        clocks[number].add(record)
    return iter(heapq.merge(*(clocks[number].placed() for number in sorted(clocks)), key=itemgetter(0)))
