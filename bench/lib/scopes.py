"""Programs with many names, many calls, or many instances of functions."""

from __future__ import annotations

import string

from .xc import LONGEST

SIGNS = string.ascii_letters + string.digits


def name(n: int) -> str:
    """Three signs, a capital first, so that it is no word of the language."""
    return string.ascii_uppercase[n // 62 // 62] + SIGNS[n // 62 % 62] + SIGNS[n % 62]


def for_names(shape: str, size: int) -> str:
    """So many functions that call one another forwards, backwards or around a cycle, or a scope with so many names."""

    def function(n: int, callee: str) -> str:
        return f"void f{n:06}(){{{callee}}}"

    def call(n: int) -> str:
        return f"f{n:06}();"

    if shape == "scope":
        names = [name(n) for n in range(size)]
        return "int main(){int " + ",".join(names) + ";" + "".join(n + "++;" for n in names) + "}\n"
    if shape == "backwards":
        return function(0, "") + "".join(function(n + 1, call(n)) for n in range(size)) + "int main(){" + call(size) + "}\n"
    last = call(0) if shape == "cycle" else call(size)
    calls = [call(n + 1) for n in range(size - 1)] + [last]
    return "int main(){" + call(0) + "}" + "".join(function(n, c) for n, c in enumerate(calls)) + function(size, "") + "\n"


def tens(body: str, last: int, main: str = "") -> str:
    """`f0` with a body, and functions behind it, each of which calls the one before ten times."""
    lines = [f"void f0(void) {{ {body} }}"]
    lines += [f"void f{n}(void) {{" + f" f{n - 1}();" * 10 + " }" for n in range(1, last + 1)]
    return "\n".join(lines + [f"int main(void) {{ f{last}(); {main}return 0; }}"])


def chain(last: int, has_parameter: bool, main: str) -> str:
    """Functions, each of which calls the one before."""
    given, handed = ("int n", "n + 1") if has_parameter else ("void", "")
    lines = [f"void f0({given}) {{ }}"]
    lines += [f"void f{n}({given}) {{ f{n - 1}({handed}); }}" for n in range(1, last + 1)]
    return "\n".join(lines + ["int main(void) {" + main + " return 0; }"])


def for_flat() -> dict[str, str]:
    """Programs as large as rule 509 lets them be, and two that it refuses, by their names."""
    names = [name(n) for n in range(20000)]
    texts = {
        # 1 + 6 in each copy of f0: 81,111 for f4, and with what main does 100,000
        "calls": tens("int x; " + "x = x * 3 + 1; " * 6, 4, "int y; " + "y++; " * 18887),
        "branches": "int main(void) { par (int i = 0; i < 49999; i++) { int x = i * 3; } return 0; }",  # 2 in each copy
        "plain": "int main(void) { int x; " + "x++;" * 65000 + " return 0; }",  # as many as a text has room for
        "names": "int main(void){int " + ",".join(names) + ";" + "".join(n + "++;" for n in names) + "}",
        "deep": chain(498, False, " f498();" * 200),  # 499 calls for each of main's
        "handed": chain(498, True, " f498(1);" * 100),  # 499 calls with a parameter for each of main's
        "tens": tens("int x; x = 1;", 5),
        "chain": chain(8500, False, " f8500();"),
    }
    assert all(len(text) <= LONGEST for text in texts.values())
    return {shape: text + "\n" for shape, text in texts.items()}
