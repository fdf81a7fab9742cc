"""Texts for the lexer, the parser and the reader of stimuli, that are hard to read or much of one kind."""

from __future__ import annotations

import itertools
import string
from typing import Callable, Iterable, Iterator

WORDS = {"do", "if", "in", "on"}  # those of the language that are as short as the names here

ORDINARY = """
int work%d(chanend c, out port p, int a[4], unsigned &total) {
  int i, n = 3; unsigned k = 0x10u; timer t; chan d;
  for (i = 0; i < 4; i++) {
    if (a[i] > n && i != 2) total += a[i] * (n - 1); else total -= 1;
    while (k > 8) { k >>= 1; n = n + (k & 3) * 2 - 1; }
  }
  select {
    case c :> n: total = total + n; break;
    case n == 3 => t when timerafter(k + 2000) :> void: p @ 5000 <: n; break;
    default: n = step%d(a, i); break;
  }
  par { on stdcore[1] : d <: n + 1; { int x; d :> x; } }
  par (int j = 0; j < 4; j++) { int y; y = j << 2; }
  master { c <: n; c <: total ? n : -n; }
  do { n--; } while (n > 0);
  return (int) total;
}
"""
MAIN = "int main(void) { int x, y, a[9]; "


def names() -> Iterator[str]:
    """All names, the shortest first."""
    first = string.ascii_letters + "_"
    more = first + string.digits
    for length in itertools.count(1):
        for head in first:
            for tail in itertools.product(more, repeat=length - 1):
                name = head + "".join(tail)
                if name not in WORDS:
                    yield name


def fitting(pieces: Iterable[str], room: int) -> list[str]:
    """The first of the pieces, as many as there is room for."""
    found = []
    for piece in pieces:
        room -= len(piece)
        if room < 0:
            break
        found.append(piece)
    return found


def defines(size: int, share: int, made: Iterable[str]) -> str:
    """As many defines as fit into a share of the text, and uses of all of them in the rest."""
    lines = fitting((f"#define {name} 1\n" for name in made), share)
    used = [line.split()[1] + " " for line in lines]
    return "".join(lines + fitting(itertools.cycle(reversed(used)), size - sum(map(len, lines))))


def for_lexer(size: int) -> dict[str, str]:
    """Hostile texts of so many bytes, by their names."""
    texts = {
        "dense": ";" * size,
        "last_symbol": "@" * size,
        "mixed": "a@" * (size // 2),
        "comment": "/*" + "*" * (size - 4) + "*/",
        "comments": "/**/" * (size // 4),
        "lines": "\n" * size,
        "names": "a " * (size // 2),
        "few_defines": defines(size, size // 4, names()),
        "defines": defines(size, size // 2, names()),
        "many_defines": defines(size, size * 3 // 4, names()),
        "same_front": defines(size, size // 2, ("a" * 40 + str(n) for n in itertools.count())),
        "numbers": "9 " * (size // 2),
    }
    return {name: text[:size].ljust(size) for name, text in texts.items()}


def for_parser(size: int) -> dict[str, str]:
    """Texts of so many bytes, each of one kind of phrase, by their names. The last one breaks a rule."""

    def filled(make: Callable[[int], str], before: str = "", after: str = "") -> str:
        return before + "".join(fitting(map(make, itertools.count()), size - len(before) - len(after))) + after

    depth = size * 100000 // 262144
    texts = {
        "ordinary": filled(lambda n: ORDINARY % (n, n)),
        "expressions": filled(lambda n: "x=a[y*2+x]-(x<<3|y&~7)*(x>y?-x:y%5)+!x||y==x&&(unsigned)y<=4;", MAIN, "}"),
        "sums": filled(lambda n: "x=" + "+".join(["y"] * 190) + ";", MAIN, "}"),
        "signs": filled(lambda n: "x=" + "~" * 190 + "y;", MAIN, "}"),
        "declarations": filled(lambda n: f",y{n}=x", "int main(void) { int x", ";}"),
        "arrays": filled(lambda n: f",a[{n % 9 + 1}]", "int main(void) { int x", ";}"),
        "statements": filled(lambda n: ";", MAIN, "}"),
        "blocks": filled(lambda n: "{" * 190 + "}" * 190, MAIN, "}"),
        "brackets": MAIN + "x=" + "(" * depth + "y" + ")" * depth + ";}",
        "refused": MAIN + "x=" + "(" * (size - len(MAIN) - 2),
    }
    assert all(len(text) <= size for text in texts.values())
    return {name: text.ljust(size) for name, text in texts.items()}


def for_stimulus(lines: int) -> dict[str, str]:
    """Stimuli of so many lines, by their names; all but the first as wide as a file of 4 MB has room for with 100,000 lines."""
    room = 4194304 // 100000
    return {
        "short": "".join(f"{k} 0 1B {k % 2}\n" for k in range(lines)),
        "wide": "".join(f"{k:010} 3 32A {4294967295 - k}".rjust(room - 2) + "\r\n" for k in range(lines)),
        "blank": (" " * (room - 1) + "\n") * lines,
        "comments": ("#" * (room - 1) + "\n") * lines,
    }
