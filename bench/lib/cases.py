"""The cases that bench/fuzz tries: each is made from the seed and its own number alone."""

from __future__ import annotations

import base64
import glob
import json
import os
from dataclasses import dataclass, replace
from random import Random
from typing import Callable

from . import mutate
from .generate import program
from .scratch import TOP

TEXT, STIMULUS, ROUTES = "a.xc", "s.txt", "t.txt"
TICKS = (1, 2, 15, 16, 100, 1_000, 20_000, 100_000, 199_999, 200_000)
LONG = 4_194_305  # one byte more than a file may have


@dataclass(frozen=True)
class Case:
    """Words of a call and the files that it finds, and which forms a text has that should break no rule: `built`, `all`, or none where that isn't
    known."""

    kind: str
    words: tuple[bytes, ...]
    text: bytes
    stimulus: bytes | None = None
    forms: str = ""
    routes: bytes | None = None

    def written(self) -> str:
        """As a line of JSON, which `read_case` reads."""
        parts = {"kind": self.kind, "forms": self.forms, "words": [base64.b64encode(it).decode() for it in self.words]}
        files = {"text": self.text, "stimulus": self.stimulus, "routes": self.routes}
        return json.dumps({**parts, **{name: base64.b64encode(it).decode() for name, it in files.items() if it is not None}})

    def shown(self) -> str:
        """The words, as a reader sees them."""
        return " ".join(os.fsdecode(it).encode("ascii", "backslashreplace").decode() if it else "''" for it in self.words)

    def put(self, room: str) -> None:
        """Writes the files into a folder that is empty."""
        os.makedirs(os.path.join(room, "folder"))
        files = {TEXT: self.text, STIMULUS: self.stimulus, ROUTES: self.routes, "long.xc": b" " * LONG if b"long.xc" in self.words else None}
        for name, it in files.items():
            if it is not None:
                with open(os.path.join(room, name), "wb") as file:
                    file.write(it)


def read_case(line: str) -> Case:
    parts = json.loads(line)
    files = {name: base64.b64decode(parts[name]) for name in ("text", "stimulus", "routes") if name in parts}
    words = tuple(map(base64.b64decode, parts["words"]))
    return Case(parts["kind"], words, files["text"], files.get("stimulus"), parts["forms"], files.get("routes"))


def texts_of_cases(path: str) -> list[bytes]:
    """The texts of a file of cases, as they stand there: what is written with a `\\` stays as it is."""
    found: list[list[bytes]] = []
    with open(path, "rb") as file:
        for line in file.read().splitlines():
            if line.startswith(b"case"):
                found.append([])
            elif line[:1] == b"|" and found:
                found[-1].append(line[2:])
    return [text for text in (b"\n".join(it) + b"\n" for it in found) if text.strip() and len(text) < 20_000]


def stock(top: str = TOP) -> list[bytes]:
    """The texts that are changed: the examples, and those of the cases of the front and of whole calls."""
    found = []
    for path in sorted(glob.glob(os.path.join(top, "examples", "*.xc"))):
        with open(path, "rb") as file:
            found.append(file.read())
    for crate in ("xt_texts", "xt_calls"):
        for path in sorted(glob.glob(os.path.join(top, "crates", crate, "data", "*.txt"))):
            found += texts_of_cases(path)
    return found


def running(chance: Random, stimulus: bytes | None) -> tuple[bytes, ...]:
    """The words of a run, in one of the orders in which they may stand."""
    words = [TEXT.encode(), *([STIMULUS.encode()] if stimulus is not None else [])]
    if chance.random() < 0.7:
        at = chance.randint(0, len(words))
        words[at:at] = [b"--ticks", str(chance.choice(TICKS)).encode()]
    return (b"run", *words)


def any_command(chance: Random, stimulus: bytes | None) -> tuple[bytes, ...]:
    return chance.choice(((b"check", TEXT.encode()), (b"asm", TEXT.encode()), running(chance, stimulus), running(chance, stimulus)))


def generated(chance: Random, texts: list[bytes]) -> Case:
    stimulus = mutate.stimulus(chance) if chance.random() < 0.6 else None
    return Case("program", running(chance, stimulus), program(chance).encode(), stimulus, "built")


def of_all_forms(chance: Random, texts: list[bytes]) -> Case:
    stimulus = mutate.stimulus(chance) if chance.random() < 0.6 else None
    return Case("all forms", running(chance, stimulus), program(chance, True).encode(), stimulus, "all")


def changed(chance: Random, texts: list[bytes]) -> Case:
    text = program(chance, chance.random() < 0.3).encode() if chance.random() < 0.5 else chance.choice(texts)
    stimulus = mutate.stimulus(chance) if chance.random() < 0.2 else None
    return Case("changed", any_command(chance, stimulus), mutate.changed(chance, text), stimulus)


def extreme(chance: Random, texts: list[bytes]) -> Case:
    text = program(chance).encode() if chance.random() < 0.5 else chance.choice(texts)
    return Case("extreme", any_command(chance, None), mutate.changed(chance, text, mutate.HEAVY))


def of_stimulus(chance: Random, texts: list[bytes]) -> Case:
    stimulus = mutate.bad_stimulus(chance)
    return Case("stimulus", running(chance, stimulus), program(chance).encode(), stimulus, "built")


def of_routes(chance: Random, texts: list[bytes]) -> Case:
    text = program(chance).encode()
    routes = mutate.routes(chance, text) if chance.random() < 0.6 else mutate.bad_routes(chance, text)
    return Case("routes", (b"time", TEXT.encode(), ROUTES.encode()), text, None, "built", routes)


def of_words(chance: Random, texts: list[bytes]) -> Case:
    text = chance.choice((b"int main(void) { return 0; }", b"int main(void) { return }", mutate.changed(chance, chance.choice(texts))))
    return Case("words", mutate.command(chance), text, mutate.stimulus(chance))


KINDS = (*[generated] * 6, *[of_all_forms] * 3, *[changed] * 6, extreme, *[of_stimulus] * 2, *[of_routes] * 2, *[of_words] * 2)


def case(seed: int, number: int, texts: list[bytes]) -> Case:
    """The case of this number: the same seed and number give the same one, over the same texts."""
    chance = Random(f"{seed}/{number}")
    return chance.choice(KINDS)(chance, texts)


def pieces_of(text: bytes, way: str) -> list[bytes]:
    return text.splitlines(keepends=True) if way == "lines" else mutate.tokens(text)


def smaller(found: Case, fails: Callable[[Case], bool], tries: int) -> Case:
    """A case with fewer lines and then fewer tokens, that fails too. It is tried so many times at most."""
    for name in ("stimulus", "routes", "text"):
        for way in ("lines", "tokens"):
            pieces = pieces_of(getattr(found, name) or b"", way)
            size = max(len(pieces) // 2, 1)
            while pieces and tries > 0:
                at, is_less = 0, False
                while at < len(pieces) and tries > 0:
                    left = pieces[:at] + pieces[at + size :]
                    tried = replace(found, **{name: b"".join(left)})
                    tries -= 1
                    if fails(tried):
                        found, pieces, is_less = tried, left, True
                    else:
                        at += size
                if size == 1 and not is_less:
                    break
                size = max(size // 2, 1)
    return found
