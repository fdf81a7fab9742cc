"""The deepest program and its listing, worked out by rules of its own, and a program of nearly 100,000 statements."""

from __future__ import annotations

from dataclasses import dataclass


class Code:
    """The lines of a core's code so far. A line without a place of its own has that of the line before."""

    def __init__(self, place: str):
        self.lines: list[list[str]] = []
        self.place = place

    def put(self, text: str, place: str = "") -> int:
        self.place = place or self.place
        self.lines.append([text, self.place])
        return len(self.lines) - 1


@dataclass(frozen=True)
class Deep:
    """A chain of functions, each of which calls the one before inside branches, the first of which adds 1."""

    functions: int
    branches: int

    def text(self) -> list[str]:
        lines = []
        for i in range(self.functions):
            inner = "a = a + 1;" if i == 0 else f"a = f{i - 1}(a);"
            lines.append(f"int f{i}(int a) {{ " + "if (a) { " * self.branches + inner + " }" * self.branches + " return a; }")
        return [*lines, f"void main(void) {{ int r; r = f{self.functions - 1}(1); }}"]

    # main's variable is word 0; each instance has its result and its parameter behind those of its caller
    def result(self, function: int) -> int:
        return 1 + 2 * (self.functions - 1 - function)

    def parameter(self, function: int) -> int:
        return 1 + self.result(function)

    def listing(self) -> list[str]:
        text = self.text()
        name = f"{self.functions + 1}:{text[-1].index('main') + 1}"
        code = Code(name)
        # four words and one for its parameter for each instance, four for main, and its variable: behind them the temporary words
        words = 5 + 5 * self.functions
        for line in (f"LDC r0, {4 * words}", "SETSP r0", "LDC r0, 0", "STWDP r0, 0"):
            code.put(line)
        self.call(code, self.functions - 1, "LDC r0, 1", f"1:{text[0].index('+') + 1}")
        code.put(f"LDWDP r0, {self.result(self.functions - 1)}")
        code.put("STWDP r0, 0")
        code.put("FREET", name)
        head = [".core 0", f".words {words + 512}", ".timers 0", ".ends 0", ".root 0"]
        return head + [f"{index}: {line} @{place}" for index, (line, place) in enumerate(code.lines)]

    def call(self, code: Code, function: int, argument: str, plus: str) -> None:
        """The code of a call, whose sum has a place of its own."""
        own = self.parameter(function)
        code.put("LDC r0, 0")
        code.put(f"STWDP r0, {self.result(function)}")
        code.put(argument)
        code.put(f"STWDP r0, {own}")
        holes = []
        for _ in range(self.branches):
            code.put(f"LDWDP r0, {own}")
            holes.append(code.put("BRFF"))
        if function == 0:
            code.put(f"LDWDP r0, {own}")
            code.put("ADDI r0, r0, 1", plus)
        else:
            self.call(code, function - 1, f"LDWDP r0, {own}", plus)
            code.put(f"LDWDP r0, {self.result(function - 1)}")
        code.put(f"STWDP r0, {own}")
        for hole in holes:
            code.lines[hole][0] = f"BRFF r0, {len(code.lines)}"
        code.put(f"LDWDP r0, {own}")
        code.put(f"STWDP r0, {self.result(function)}")
        code.put(f"BRFU {len(code.lines) + 1}")


def case(name: str, text: list[str], listing: list[str]) -> str:
    """A case of the program of crates/xt_programs."""
    return "\n".join([f"case {name}", *(f"| {line}" for line in text), *(f"= {line}" for line in listing)]) + "\n"


def copies() -> list[str]:
    """Functions of which each calls the one before ten times: 1,000 copies of 90 statements."""
    text = ["int f0(int a) {" + " ".join(f"a = a + {k};" for k in range(88)) + " return a; }"]
    for i in range(1, 4):
        text.append(f"int f{i}(int a) {{ int s; " + " ".join([f"s = f{i - 1}(a);"] * 10) + " return s; }")
    return [*text, "void main(void) { int r; r = f3(1); }"]
