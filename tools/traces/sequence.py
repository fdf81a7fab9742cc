"""A sequence of messages, whatever it is drawn with: who is there, and what each record says that one sends to another."""

from __future__ import annotations

from dataclasses import dataclass
from typing import Iterable, NamedTuple, Optional

from .lines import Refused
from .listing import Listing
from .output import TURN, Record

PINS = -1  # who stands for all that is outside of the cores


class Message(NamedTuple):
    """A message at a tick, from one to another: from whom, where the listing tells it, to whom, and what. What a record tells of one
    alone has the same on both sides. `kind` is that of the record."""

    tick: int
    kind: str
    source: Optional[int]
    target: int
    label: str

    @property
    def is_near(self) -> bool:
        """Whether the true tick isn't known, but only one near it."""
        return self.kind in ("com", "err", "show")


@dataclass
class Sequence:
    """Who is there, the pins first and then core by core; the messages in their order; and the end word."""

    lives: list[int]
    messages: list[Message]
    end: str = ""


def name_of(life: int) -> str:
    return "pins" if life == PINS else f"core {life}"


def tick_of(message: Message) -> str:
    """The tick as it stands beside a message."""
    return f"{'~' if message.is_near else ''}{message.tick}"


def message_of(tick: int, record: Record, senders: dict[int, set[int]]) -> Message:
    """What a record says."""
    core, kind = record.core, record.kind
    if kind == "com":
        known = senders[core]
        return Message(tick, kind, next(iter(known)) if len(known) == 1 else None, core, str(record.value))
    if kind in ("out", "in"):
        ways = (core, PINS) if kind == "out" else (PINS, core)
        return Message(tick, kind, *ways, f"{record.port} {record.value} @{tick % TURN}")
    if kind == "pins":
        return Message(tick, kind, PINS, PINS, f"{core}:{record.port} {record.value}")
    return Message(tick, kind, core, core, record.text.partition(" r0 ")[0])


def sequence_of(listing: Listing, events: Iterable[tuple[int, Record]], kinds: set[str], first: int, last: int, most: int) -> Sequence:
    """The messages of the records of some kinds, from one tick to another, both included."""
    senders = {core: listing.senders(core) for core in listing.cores}
    messages: list[Message] = []
    for tick, record in events:
        if tick > last:
            break
        if tick < first or record.kind not in kinds:
            continue
        if len(messages) == most:
            raise Refused(f"more than {most} records: choose some with --from TICK and --to TICK, or the words alone with --channels")
        messages.append(message_of(tick, record, senders))
    lives = {*listing.cores, *(life for it in messages for life in (it.source, it.target) if life is not None)}
    return Sequence(sorted(lives), messages)
