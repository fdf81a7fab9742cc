"""XC programs for the built xcsim."""

from __future__ import annotations

LONGEST = 262_144  # the bytes that a text may have

# Functions that are XC and C alike: a head, a body, and the arguments of a call.
LOOPS = {
    "gcd": ("unsigned f(unsigned a, unsigned b)", "while (b != 0) { unsigned r = a % b; a = b; b = r; } return a;", "2971215073, 1836311903"),
    "bits": ("unsigned f(unsigned w)", "unsigned n = 0; while (w != 0) { w &= w - 1; n++; } return n;", "0x89abcdef"),
    "crc": (
        "unsigned f(unsigned crc)",
        "for (int i = 0; i < 8; i++) { if (crc & 0x8000) crc = crc << 1 ^ 0x1021; else crc = crc << 1; } return crc & 0xffff;",
        "0xce00",
    ),
    "divide": (
        "unsigned f(unsigned n, unsigned d)",
        "unsigned q = 0; unsigned r = 0; for (int i = 31; i >= 0; i--) { r = r << 1 | (n >> i & 1); q <<= 1;"
        " if (r >= d) { r -= d; q |= 1; } } return q;",
        "1000000, 7",
    ),
    "search": ("int f(int a[64], int v)", "int i = 0; while (i < 64 && a[i] != v) i++; return i;", "a, 1"),
    "sieve": ("int f(int a[64], int s)", "int n = 0; for (int i = s; i < 64; i += s) { a[i] = 1; n++; } return n;", "a, 3"),
}

# Programs of eight threads: busy ones, a token that goes round a ring, and four pairs that talk.
EIGHT = {
    "busy": "int main(void) { par (int i = 0; i < 8; i++) { unsigned x = i; while (1) x = x * 5 + 1; } return 0; }\n",
    "ring": "void pass(chanend from, chanend to) { int t; while (1) { from :> t; to <: t + 1; } }\n"
    "void begin(chanend from, chanend to) { int t = 0; while (1) { to <: t; from :> t; } }\n"
    "int main(void) { chan a, b, c, d, e, f, g, h; par { begin(h, a); pass(a, b); pass(b, c); pass(c, d);"
    " pass(d, e); pass(e, f); pass(f, g); pass(g, h); } return 0; }\n",
    "pairs": "void give(chanend c) { unsigned x = 0; while (1) { c <: x; x++; } }\n"
    "void take(chanend c) { unsigned x, s = 0; while (1) { c :> x; s += x; } }\n"
    "int main(void) { chan a, b, c, d; par { give(a); take(a); give(b); take(b); give(c); take(c); give(d); take(d); } return 0; }\n",
}

# Eight threads that wait, four by timers of their own and four for edges on wires of their own, each for so many ticks at a time.
WAITS = (
    "in port a = XS1_PORT_1A;\nin port b = XS1_PORT_1B;\nin port c = XS1_PORT_1C;\nin port d = XS1_PORT_1D;\n"
    "void tick(unsigned step) { timer t; unsigned time = step; while (1) { t when timerafter(time) :> void; time += step; } }\n"
    "void follow(in port wire) { int level = 0; while (1) wire when pinsneq(level) :> level; }\n"
    "int main(void) { par { tick(STEP); tick(STEP + 1); tick(STEP + 2); tick(STEP + 3);"
    " follow(a); follow(b); follow(c); follow(d); } return 0; }\n"
)
PACES = {"often": 30, "seldom": 20_000}

# Eight threads in selects, each with a timer of its own: four of them also watch a wire, two give words to two others, which wait for these.
SELECTS = (
    "in port a = XS1_PORT_1A;\nin port b = XS1_PORT_1B;\nin port c = XS1_PORT_1C;\nin port d = XS1_PORT_1D;\n"
    "void watch(in port wire, unsigned step) { timer t; unsigned time = step; int level = 0; while (1) { select {"
    " case wire when pinsneq(level) :> level: break; case t when timerafter(time) :> void: time += step; break; } } }\n"
    "void give(chanend to, unsigned step) { timer t; unsigned time = step; while (1) { select {"
    " case t when timerafter(time) :> void: to <: time; time += step; break; } } }\n"
    "void take(chanend from, unsigned step) { timer t; unsigned time = step, x, sum = 0; while (1) { select {"
    " case from :> x: sum += x; break; case t when timerafter(time) :> void: time += step; break; } } }\n"
    "int main(void) { chan e, f; par { watch(a, STEP); watch(b, STEP + 1); watch(c, STEP + 2); watch(d, STEP + 3);"
    " give(e, STEP + 4); take(e, STEP + 5); give(f, STEP + 6); take(f, STEP + 7); } return 0; }\n"
)
SELECT_PACES = {"often": 200, "seldom": 20_000}  # to set a select up takes some 30 ticks

# Rings and pairs over the links of four cores: a token that goes round, through a thread on each core or through eight of them, and threads of
# which four on each core give words to four on the next one.
PASSES = (
    "void begin(chanend from, chanend to) { int t = 0; while (1) { to <: t; from :> t; } }\n"
    "void pass(chanend from, chanend to) { int t; while (1) { from :> t; to <: t + 1; } }\n"
    "void lead(chanend from, chanend to) { chan a, b, c; par { begin(from, a); pass(a, b); pass(b, c); pass(c, to); } }\n"
    "void four(chanend from, chanend to) { chan a, b, c; par { pass(from, a); pass(a, b); pass(b, c); pass(c, to); } }\n"
)
GIVES = (
    "void give(chanend c) { unsigned x = 0; while (1) { c <: x; x++; } }\n"
    "void take(chanend c) { unsigned x, s = 0; while (1) { c :> x; s += x; } }\n"
)
LINKS = {
    "ring of four": f"{PASSES}int main(void) {{ chan a, b, c, d; par {{ on tile[0] : begin(d, a); on tile[1] : pass(a, b);"
    " on tile[2] : pass(b, c); on tile[3] : pass(c, d); } return 0; }\n",
    "ring of 32": f"{PASSES}int main(void) {{ chan a, b, c, d, e, f, g, h; par {{ on tile[0] : par {{ lead(h, a); four(a, b); }}"
    " on tile[1] : par { four(b, c); four(c, d); } on tile[2] : par { four(d, e); four(e, f); }"
    " on tile[3] : par { four(f, g); four(g, h); } } return 0; }\n",
    "pairs": f"{GIVES}int main(void) {{ chan a, b, c, d, e, f, g, h, i, j, k, l, m, n, o, p; par {{"
    " on tile[0] : par { give(a); give(b); give(c); give(d); take(m); take(n); take(o); take(p); }"
    " on tile[1] : par { give(e); give(f); give(g); give(h); take(a); take(b); take(c); take(d); }"
    " on tile[2] : par { give(i); give(j); give(k); give(l); take(e); take(f); take(g); take(h); }"
    " on tile[3] : par { give(m); give(n); give(o); give(p); take(i); take(j); take(k); take(l); } } return 0; }\n",
}

# Right sides of assignments.
EXPRESSIONS = (
    "x", "x + y", "x - 1", "-x", "!x", "x * y + 1", "x - (y - x)", "(x + y) * (x - y)", "x / y", "x >> 3", "x < y", "x <= y", "u >= v", "x && y",
    "x ? y : 5", "a[3]", "a[x]", "a[x + 1] + a[y]", "(x & 255) << 8 | (y ^ x) & 255", "x < y && y < 10 || !x",
)  # fmt: skip
DECLARED = "int x = 1; int y = 2; unsigned u = 3; unsigned v = 4; int a[8]; int z;"


def waits(pace: str) -> str:
    """The program of threads that wait at this pace."""
    return f"#define STEP {PACES[pace]}\n{WAITS}"


def selects(pace: str) -> str:
    """The program of threads in selects at this pace."""
    return f"#define STEP {SELECT_PACES[pace]}\n{SELECTS}"


def edges(step: int, ticks: int) -> str:
    """The stimulus of their wires up to a tick: each changes at the multiples of its own number of ticks, the first of so many and each of one more."""
    steps = {wire: step + at for at, wire in enumerate("ABCD")}
    found = sorted((tick, wire) for wire, step in steps.items() for tick in range(step, ticks + 1, step))
    return "".join(f"{tick} 0 1{wire} {tick // steps[wire] % 2}\n" for tick, wire in found)


def assignments() -> str:
    """A program with all assignments `z = EXPRESSION;`, behind the four of its declarations."""
    lines = ["int main(void) {", DECLARED, *(f"z = {it};" for it in EXPRESSIONS), "return 0;", "}"]
    return "\n".join(lines) + "\n"


def endless(head: str, body: str, call: str) -> str:
    """A program that calls the function for ever."""
    return f"{head} {{ {body} }}\nint main(void) {{ int a[64]; int x; a[0] = 0; while (1) x = f({call}); return x; }}\n"


def long_program(size: int) -> str:
    """A program of so many bytes, with as many assignments as fit."""
    head = "out port p = XS1_PORT_32A;\nint main(void) {\nunsigned x = 1, y = 2, a[8];\n"
    lines = ["x = x * 5 + y;\n", "y ^= x >> 3;\n", "a[x & 7] = y;\n", "if (x < y) x = y - a[2];\n", "p <: x;\n"]
    tail = "return 0; }\n"
    made, left, at = [head], size - len(head) - len(tail), 0
    while left >= len(lines[at % len(lines)]):
        made.append(lines[at % len(lines)])
        left -= len(made[-1])
        at += 1
    return "".join(made) + " " * left + tail


def turning(size: int) -> tuple[str, str, int]:
    """A loop of at least so many instructions, the two places of the outputs around it, and how long a way between them is at most with 1,000
    turns back: the first turn's test has an instruction less on it, and the last one lacks the jump."""
    count = size // 3
    head = "out port p = XS1_PORT_32A;\nint main(void) {\nunsigned a = 1;\np <: a;\nwhile (a) {\n"
    text = head + "a=a+1;\n" * count + "}\np <: a;\nreturn 0;\n}\n"
    turn = 2 + 3 * count + 1  # the test, the assignments, and the jump
    return text, f"4:1 {count + 7}:1", turn - 3 + 999 * turn + turn - 1


def outputs(size: int = LONGEST) -> str:
    """A program of so many bytes, full of outputs."""
    head, tail, line = "out port p = XS1_PORT_32A;\nint main(void) {\n", "return 0; }\n", "p<:4294967295;\n"
    room = size - len(head) - len(tail)
    return head + (line * (room // len(line))).ljust(room) + tail
