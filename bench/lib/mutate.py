"""Texts, stimuli, routes and words that are changed by chance: from one source of chance always the same ones."""

from __future__ import annotations

import re
from random import Random
from typing import Callable, Sequence

from .generate import PORTS

LINE_END = b"\n"
TOKEN = re.compile(
    rb"//[^\n]*|/\*.*?\*/|\s+|[A-Za-z0-9_]+|<<=|>>=|<:|:>|=>|==|!=|<=|>=|&&|\|\||<<|>>|\+\+|--|[-+*/%&|^]=|.",
    re.DOTALL,
)
WORDS = """break case chan chanend continue default do else for if in int master on out par port pinseq pinsneq return select slave stdcore tile
timer timerafter unsigned void when while char const float goto struct transaction main a0 v1 p0 XS1_PORT_1A 0 1 4294967296 09 0x 0b2 200 16384 16385
( ) { } [ ] ; , : ? & | ^ ~ ! + - * / % < > = @ <: :> => == != <= >= && || << >> ++ -- += -= *= /= %= &= |= ^= <<= >>= # $ " /* */ //""".split()
LIMITS = b"0 1 7 8 9 31 32 33 65535 65536 16384 16385 100000 2147483647 2147483648 4294967295 4294967296".split()
LIMITS += b"99999999999999999999 0x100000000 08 0u 1U 0b".split()
AROUND = ((b"(", b")"), (b"~", b""), (b"- ", b""), (b"(int)", b""), (b"1+(", b")"), (b"{", b"}"), (b"if (1) ", b""), (b"a[", b"]"))
LONGEST = 262_144  # the bytes that a text may have
DEEPEST = 200  # the nodes that may stand below one another


def tokens(text: bytes) -> list[bytes]:
    """The pieces of a text: its words, numbers, symbols, comments and blanks."""
    return TOKEN.findall(text)


def places(pieces: Sequence[bytes]) -> list[int]:
    """Where tokens stand among the pieces."""
    return [at for at, it in enumerate(pieces) if not it.isspace()] or [0]


def drop(chance: Random, pieces: list[bytes]) -> None:
    at = chance.choice(places(pieces))
    del pieces[at : at + chance.choice((1, 1, 1, 2, 5, 20))]


def double(chance: Random, pieces: list[bytes]) -> None:
    at = chance.choice(places(pieces))
    pieces[at:at] = [*pieces[at : at + chance.choice((1, 1, 2, 8))], b" "]


def swap(chance: Random, pieces: list[bytes]) -> None:
    first, second = chance.choice(places(pieces)), chance.choice(places(pieces))
    pieces[first], pieces[second] = pieces[second], pieces[first]


def put(chance: Random, pieces: list[bytes]) -> None:
    at, word = chance.choice(places(pieces)), chance.choice(WORDS).encode()
    pieces[at : at + chance.choice((0, 1))] = [b" ", word, b" "]


def take_other(chance: Random, pieces: list[bytes]) -> None:
    """Another token of the same text stands here."""
    found = places(pieces)
    pieces[chance.choice(found)] = pieces[chance.choice(found)]


def change_number(chance: Random, pieces: list[bytes]) -> None:
    found = [at for at, it in enumerate(pieces) if it[:1].isdigit()]
    if found:
        pieces[chance.choice(found)] = chance.choice(LIMITS)


def flip(chance: Random, pieces: list[bytes]) -> None:
    at = chance.choice(places(pieces))
    piece = bytearray(pieces[at])
    piece[chance.randrange(len(piece))] ^= 1 << chance.randrange(8)
    pieces[at] = bytes(piece)


def put_byte(chance: Random, pieces: list[bytes]) -> None:
    pieces.insert(chance.choice(places(pieces)), bytes([chance.choice((0, 9, 12, 13, 26, 127, 128, 195, 255, chance.randrange(256)))]))


def cut(chance: Random, pieces: list[bytes]) -> None:
    at = chance.randrange(len(pieces))
    del pieces[at if chance.random() < 0.8 else 0 : len(pieces) if chance.random() < 0.8 else at + 1]


def drop_blanks(chance: Random, pieces: list[bytes]) -> None:
    """Tokens touch that didn't."""
    pieces[:] = [it for it in pieces if not it.isspace() or chance.random() < 0.5]


def lengthen(chance: Random, pieces: list[bytes]) -> None:
    """A very long line, name, number or comment."""
    many = chance.choice((100, 1000, 10_000, 100_000))
    grown = chance.choice((b" " * many, b"x" * many, b"0" * many + b"1", b"/*" + b"*" * many + b"*/", b"+1" * many, b";" * many, b"\n" * many))
    pieces.insert(chance.choice(places(pieces)), b" " + grown + b" ")


def deepen(chance: Random, pieces: list[bytes]) -> None:
    """Brackets, signs or blocks around a token, near the depth that may be, or many more brackets, which have no depth."""
    many = chance.choice((10, DEEPEST - 10, DEEPEST - 3, DEEPEST - 2, DEEPEST - 1, DEEPEST, DEEPEST + 1, 1000, 20_000))
    before, after = chance.choice(AROUND)
    found = [at for at in places(pieces) if (pieces[at] == b";" if before in (b"{", b"if (1) ") else pieces[at][:1].isalnum())]
    if found:
        at = chance.choice(found)
        pieces[at] = (b";" if pieces[at] == b";" else b"") + before * many + pieces[at] + after * many


def fill(chance: Random, pieces: list[bytes]) -> None:
    """As many bytes as a text may have, or some less or more."""
    room = LONGEST + chance.choice((-1, 0, 1, 2)) - sum(map(len, pieces))
    blank = chance.choice((b" ", b"\n", b"\t", b";"))
    pieces.insert(chance.choice((0, len(pieces))), blank * max(room, 0))


LIGHT: tuple[Callable[[Random, list[bytes]], None], ...] = (
    *(drop, drop, double, swap, put, put, take_other, take_other, change_number, change_number, flip, put_byte, cut, drop_blanks),
)
HEAVY: tuple[Callable[[Random, list[bytes]], None], ...] = (lengthen, deepen, deepen, fill)


def changed(chance: Random, text: bytes, ways: Sequence[Callable[[Random, list[bytes]], None]] = LIGHT) -> bytes:
    """A text that is changed in one to four places."""
    for _ in range(chance.choice((1, 1, 1, 2, 4))):
        pieces = tokens(text) or [b" "]
        chance.choice(ways)(chance, pieces)
        text = b"".join(pieces)
    return text


def stimulus(chance: Random) -> bytes:
    """Lines that break no rule."""
    lines, tick = [], 0
    ports = chance.sample(sorted(PORTS), 4) + ["1A", "1B"]
    for _ in range(chance.choice((0, 1, 3, 10, 100))):
        tick = min(tick + chance.choice((0, 1, 2, 100, 3000, 70_000)), 2**32 - 1)
        port = chance.choice(ports)
        value = chance.choice((0, 1, 2 ** PORTS[port] - 1, chance.randrange(2 ** PORTS[port])))
        gap = " " * chance.choice((1, 1, 1, 3))
        lines.append(f"{gap[1:]}{tick}{gap}{chance.choice((0, 0, 0, 0, 1, 2, 3))}{gap}{port}{gap}{value}{chance.choice(('', '', ' '))}")
        if chance.random() < 0.1:
            lines.append(chance.choice(("", "   ", "# a comment", "  # 1 2 3 4")))
    end = chance.choice(("\n", "\n", "\r\n"))
    return (end.join(lines) + chance.choice((end, end, ""))).encode()


def bad_stimulus(chance: Random) -> bytes:
    """One that is changed; seldom one of as many lines as there may be, or one more."""
    way = chance.random()
    if way < 0.02:
        line = chance.choice((b"", b"#", b"0 0 1A 0"))
        return (line + b"\n") * (100_000 + chance.choice((0, 1))) + chance.choice((b"", b"x"))
    text = stimulus(chance)
    if way < 0.3:
        parts = [b"1", b"0", b"1A", b"1"]
        others = (b"4", b"2A", b"1Q", b"1a", b"-1", b"+1", b"", b"x", b"1\t", b"\r", b"\xff", b"0" * 300 + b"1")
        parts[chance.randrange(4)] = chance.choice((*LIMITS, *others))
        text += b"\n" + b" ".join(parts) + chance.choice((b"", b"\n", b" 5\n", b"\r\r\n"))
    return changed(chance, text, (drop, double, swap, take_other, change_number, flip, put_byte, cut))


def routes(chance: Random, text: bytes) -> bytes:
    """Lines of routes between places of a text at which an operator or a name stands, as those of its code are."""
    starts = [match.start() for match in re.finditer(rb"\w+(?= *(?:<:|:>))|(?<= )(?:[-+*/%&|^]|<<|>>|[<>]=?|[-+*/%&|^]=|==|!=)(?= )", text)]
    main = text.find(b"main(")
    inside = [at for at in starts if at > main]  # what stands in main is in the code, and in a function that isn't called is not
    starts = [main, *chance.sample(inside, min(len(inside), 3))] if chance.random() < 0.7 else starts or [main]
    places = ["%d:%d" % (text.count(LINE_END, 0, at) + 1, at - text.rfind(LINE_END, 0, at)) for at in starts]
    lines = []
    for _ in range(chance.choice((0, 1, 1, 1, 1, 2, 3, 16, 17))):
        back = chance.choice((0, 0, 1, 2, 3, 10, 100, 1000))
        gap = " " * chance.choice((1, 1, 1, 3))
        parts = ["route", str(chance.choice((0, 0, 0, 0, 0, 0, 1, 3))), chance.choice(places), chance.choice(places), str(back)]
        lines.append(gap[1:] + gap.join(parts) + chance.choice(("", "", " ")))
        if chance.random() < 0.1:
            lines.append(chance.choice(("", "   ", "# a comment", "  # route 0 1:1 1:1 0")))
    end = chance.choice(("\n", "\n", "\r\n"))
    return (end.join(lines) + chance.choice((end, end, ""))).encode()


def bad_routes(chance: Random, text: bytes) -> bytes:
    """Some that are changed."""
    made = routes(chance, text)
    if chance.random() < 0.3:
        parts = [b"route", b"0", b"1", b":", b"1", b"2:1", b"0"]
        others = (b"4", b"1001", b"1000", b"-1", b"+1", b"", b"x", b"1\t", b"\r", b"\xff", b"::", b"0" * 300 + b"1")
        parts[chance.randrange(7)] = chance.choice((*LIMITS, *others))
        name, core, line, colon, column, to, back = parts
        made += b"\n" + b" ".join((name, core, line + colon + column, to, back)) + chance.choice((b"", b"\n", b" 5\n", b"\r\r\n"))
    return changed(chance, made, (drop, double, swap, take_other, change_number, flip, put_byte, cut))


NAMES = [*[b"a.xc"] * 4, b"s.txt", b"s.txt", b"none.xc", b"folder", b"folder/", b"folder/a.xc", b"folder/none", b"a.xc/", b"a.xc/b"]
NAMES += [b"./a.xc", b"long.xc", b"/dev/null", b"/dev/zero", b"-", b"-a", b".", b"..", b"/", b"none/a.xc", b"a b", b"a\nb"]
NAMES += [b"\xc3\xa9.xc", b"%s%n", b"a:1:1", b"x" * 255, b"x" * 256, b"x/" * 2500, b"\x01", b"", b"\xff.xc", b"\xed\xa0\x80", b"a.xc "]
OPTIONS = [b"--ticks", b"--ticks", b"--ticks", b"--workers", b"--fast", b"--", b"--help", b"--version", b"--ticks=5", b"-ticks", b"---"]
COUNTS = [b"1", b"2", b"16", b"100", b"1000", b"200000", b"200001", b"0", b"000001", b"0000001", b"+1", b"-1", b"1e3", b"", b" 1"]
COUNTS += [b"99999999999999999999"]
COMMANDS = [*[b"run"] * 6, b"time", b"check", b"check", b"asm", b"asm", b"debug", b"make", b"bench", b"walk", b"", b"RUN", b"run ", b"--help"]


def command(chance: Random) -> tuple[bytes, ...]:
    """Words of a command line; half of them nearly right."""
    if chance.random() < 0.1:
        return tuple(chance.choice([*COMMANDS, *NAMES, *OPTIONS, *COUNTS]) for _ in range(chance.randrange(6)))
    words = [chance.choice(COMMANDS), *(chance.choice(NAMES) for _ in range(chance.choice((0, 1, 1, 1, 1, 2, 2, 3))))]
    for _ in range(chance.choice((0, 0, 0, 1, 1, 2))):
        at = chance.randint(1, len(words))
        words[at:at] = [chance.choice(OPTIONS), chance.choice(COUNTS)][: chance.choice((1, 2, 2, 2, 2))]
    return tuple(words)
