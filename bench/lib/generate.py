"""Programs that are made by chance and break no rule: from one source of chance always the same text.

With all forms they have transactions too. Nothing else that they do is known: they may err, wait for ever or never
come to an end."""

from __future__ import annotations

from dataclasses import dataclass, field, replace
from random import Random
from typing import AbstractSet

WIDTHS = {1: "ABCDEFGHIJKLMNOP", 4: "ABCDEF", 8: "ABCD", 16: "AB", 32: "A"}
PORTS = {f"{width}{letter}": width for width, letters in WIDTHS.items() for letter in letters}
NUMBERS = (*map(str, range(10)), "16", "31", "32", "33", "100", "255", "65535", "65536", "2147483647", "2147483648", "4294967295", "0xFFffFFFFu")
NUMBERS += ("0b101", "017", "5u", "0x10", "0u")
BINARY = ("+", "-", "*", "&", "|", "^", "<<", ">>", "==", "!=", "<", "<=", ">", ">=", "&&", "||", "/", "%")
ASSIGNING = ("+=", "-=", "*=", "&=", "|=", "^=", "<<=", ">>=", "/=", "%=")
DIRECTIONS = ("in port", "out port", "port")


@dataclass(frozen=True)
class Entity:
    """What a name stands for: `int` or `unsigned` words and arrays, ports by their direction, `chan`, `chanend` or `timer`."""

    kind: str
    length: int = 0  # of an array; -1 where a parameter tells none
    changes: bool = True  # whether it may be changed here

    @property
    def is_word(self) -> bool:
        return self.kind in ("int", "unsigned") and self.length == 0

    @property
    def is_array(self) -> bool:
        return self.kind in ("int", "unsigned") and self.length != 0


@dataclass
class Cost:
    """What a body takes of the device, with all its copies."""

    statements: int = 0
    words: int = 4
    ends: int = 0
    timers: int = 0

    def add(self, other: "Cost", times: int) -> None:
        self.statements += times * other.statements
        self.words += times * other.words
        self.ends += times * other.ends
        self.timers += times * other.timers

    def fits(self, other: "Cost", times: int, whole: "Cost") -> bool:
        parts = ("statements", "words", "ends", "timers")
        return all(getattr(self, it) + times * getattr(other, it) <= getattr(whole, it) for it in parts)


WHOLE = Cost(20_000, 10_000, 32, 10)  # what a program may take, with room to spare for words
PART = Cost(2_000, 1_000, 8, 3)  # what a function may


@dataclass(frozen=True)
class Function:
    name: str
    result: str
    kinds: tuple[tuple[str, Entity], ...]  # each parameter's way, `value`, `&`, `array` or `thing`, and what is to be given
    cost: Cost
    threads: int
    ports: frozenset[str]  # those of the program that it uses

    @property
    def talks(self) -> bool:
        return any(it.kind == "chanend" for _, it in self.kinds)


@dataclass(frozen=True)
class Where:
    """Where a statement stands: the names that are known, those of its own scope, what may leave it, and what there is of threads and depth."""

    names: dict[str, Entity]
    here: set[str]
    threads: int = 8
    depth: int = 0
    copies: int = 1
    breaks: bool = False
    continues: bool = False
    returns: bool = True
    talks: bool = True  # outside transactions

    def inner(self, **changed) -> "Where":
        return replace(self, **{"names": dict(self.names), "here": set(), "depth": self.depth + 1, **changed})


@dataclass
class Writer:
    """Writes one program."""

    chance: Random
    has_all: bool = False
    functions: list[Function] = field(default_factory=list)
    cost: Cost = field(default_factory=Cost)
    limit: Cost = field(default_factory=lambda: WHOLE)
    result: str = "int"
    threads: int = 1
    count: int = 0
    ports: set[str] = field(default_factory=set)  # those of the program that are used so far
    defined: list[str] = field(default_factory=list)  # the names of numbers

    # names

    def fresh(self, at: Where) -> str:
        """A name that this scope doesn't declare, by chance one that an outer one does."""
        outer = [name for name, it in at.names.items() if name not in at.here and name[0] == "v" and (it.is_word or it.is_array)]
        if outer and self.chance.random() < 0.1:
            return self.chance.choice(outer)
        self.count += 1
        return f"v{self.count}"

    def declare(self, at: Where, name: str, entity: Entity) -> None:
        at.names[name] = entity
        at.here.add(name)
        self.cost.statements += at.copies
        self.cost.words += at.copies * max(1, entity.length)

    def pick(self, at: Where, fits, taken: AbstractSet[str] = frozenset()) -> str | None:
        """A name of something that fits and isn't taken."""
        found = [name for name, it in at.names.items() if name not in taken and fits(it)]
        name = self.chance.choice(found) if found else None
        if name and name[0] == "p":
            self.ports.add(name)
        return name

    # expressions

    def number(self) -> str:
        return self.chance.choice(self.defined if self.defined and self.chance.random() < 0.1 else NUMBERS)

    def index(self, at: Where, array: Entity, deep: int) -> str:
        length = max(array.length, 1)
        if self.chance.random() < 0.5:
            return str(self.chance.randrange(length))
        inner = self.expression(at, deep + 2)
        return inner if self.chance.random() < 0.1 else f"(unsigned)({inner}) % {length}"

    def element(self, at: Where, changes: bool, deep: int = 0) -> str | None:
        name = self.pick(at, lambda it: it.is_array and (it.changes or not changes))
        return name and f"{name}[{self.index(at, at.names[name], deep)}]"

    def atom(self, at: Where, deep: int) -> str:
        way = self.chance.random()
        if way < 0.5 and (name := self.pick(at, lambda it: it.is_word)):
            return name
        if way < 0.65 and deep < 3 and (found := self.element(at, False, deep)):
            return found
        return self.number()

    def expression(self, at: Where, deep: int = 0) -> str:
        way = self.chance.random()
        if deep > 3 or way < 0.35:
            return self.atom(at, deep)
        if way < 0.8:
            sign = self.chance.choice(BINARY)
            left, right = self.expression(at, deep + 1), self.expression(at, deep + 1)
            if sign in "/%" and self.chance.random() < 0.9:
                right = str(self.chance.randrange(1, 20))
            made = f"{left} {sign} {right}"
            return f"({made})" if self.chance.random() < 0.6 else made
        if way < 0.9:
            return f"{self.chance.choice(('-', '~', '!', '+', '(int)', '(unsigned)'))}({self.expression(at, deep + 1)})"
        return f"({self.expression(at, deep + 1)} ? {self.expression(at, deep + 1)} : {self.expression(at, deep + 1)})"

    def target(self, at: Where) -> str | None:
        """An lval that may be changed."""
        if self.chance.random() < 0.25 and (found := self.element(at, True)):
            return found
        return self.pick(at, lambda it: it.is_word and it.changes)

    # calls

    def call(self, at: Where, has_result: bool) -> str | None:
        found = [it for it in self.functions if (it.result != "void" or not has_result) and it.threads <= at.threads]
        found = [it for it in found if self.cost.fits(it.cost, at.copies, self.limit) and (at.talks or not it.talks)]
        found = [it for it in found if it.ports <= at.names.keys()]
        self.chance.shuffle(found)
        for it in found:
            if (arguments := self.arguments(at, it)) is not None:
                self.cost.add(it.cost, at.copies)
                self.cost.statements += at.copies * (1 + len(it.kinds))
                self.threads = max(self.threads, it.threads)
                self.ports |= it.ports
                return f"{it.name}({', '.join(arguments)})"
        return None

    def arguments(self, at: Where, function: Function) -> list[str] | None:
        made: list[str] = []
        taken: set[str] = set()
        for way, wanted in function.kinds:
            name: str | None
            if way == "value":
                made.append(self.expression(at, 2))
                continue
            if way == "&":
                name = self.pick(at, lambda it: it.kind == wanted.kind and it.changes and (it.is_word or it.is_array), taken)
            elif way == "array":
                lengths = (wanted.length,) if wanted.length > 0 else range(-1, 100)
                name = self.pick(at, lambda it: it.kind == wanted.kind and it.is_array and it.changes and it.length in lengths, taken)
            else:
                name = self.pick(at, lambda it: it.kind == wanted.kind, taken | function.ports)
            if name is None:
                return None
            taken.add(name)
            if way == "&" and at.names[name].is_array:
                made.append(f"{name}[{self.index(at, at.names[name], 2)}]")
            else:
                made.append(f"({name})" if way == "&" and self.chance.random() < 0.1 else name)
        return made

    # statements

    def statement(self, at: Where) -> str:
        """A statement, or a declaration in its block."""
        self.cost.statements += at.copies
        deep = at.depth >= 5 or self.cost.statements > self.limit.statements // 2
        ways = ["assign"] * 6 + ["step", "declare", "declare", "output", "output", "input", "input", "timer", "wait", "talk", "talk", "call", "value"]
        ways += ["array", "nothing", "leave"]
        if not deep:
            ways += ["if", "if", "while", "do", "for", "for", "block"]
            if at.threads > 1 and at.talks and at.depth < 4:
                ways += ["par", "par", "replicated"]
            if at.talks:
                ways += ["select", "select", "transaction"] if self.has_all else ["select", "select"]
        while True:
            if (made := getattr(self, f"write_{self.chance.choice(ways)}")(at)) is not None:
                return made

    def body(self, at: Where, least: int = 1, most: int = 4) -> str:
        return " ".join(self.statement(at) for _ in range(self.chance.randint(least, most)))

    def block(self, at: Where, **changed) -> str:
        return "{ " + self.body(at.inner(**changed)) + " }"

    def write_assign(self, at: Where) -> str | None:
        if (target := self.target(at)) is None:
            return self.write_declare(at)
        sign = self.chance.choice(("=", "=", "=", *ASSIGNING[:8], "%="))
        value = str(self.chance.randrange(1, 9)) if sign == "%=" else self.expression(at)
        return f"{target} {sign} {value};"

    def write_step(self, at: Where) -> str | None:
        target = self.target(at)
        return target and f"{target}{self.chance.choice(('++', '--'))};"

    def write_declare(self, at: Where) -> str | None:
        word, name = self.chance.choice(("int", "unsigned", "unsigned int")), self.fresh(at)
        at.names.pop(name, None)
        value = f" = {self.expression(at)}" if self.chance.random() < 0.7 else ""
        self.declare(at, name, Entity(word.split()[0]))
        return f"{word} {name}{value};"

    def write_array(self, at: Where) -> str | None:
        length = self.chance.choice((1, 2, 3, 4, 8, 16))
        if self.cost.words + length * at.copies > self.limit.words // 2:
            return None
        name, word = self.fresh(at), self.chance.choice(("int", "unsigned"))
        self.declare(at, name, Entity(word, length))
        return f"{word} {name}[{length}];"

    def write_nothing(self, at: Where) -> str | None:
        return ";"

    def write_leave(self, at: Where) -> str | None:
        ways = ["break;"] * at.breaks + ["continue;"] * at.continues
        if at.returns and at.depth > 1:
            ways.append("return;" if self.result == "void" else f"return {self.expression(at)};")
        return f"if ({self.expression(at)}) {{ {self.chance.choice(ways)} }}" if ways else None

    def write_call(self, at: Where) -> str | None:
        made = self.call(at, False)
        return made and f"{made};"

    def write_value(self, at: Where) -> str | None:
        if (target := self.target(at)) is None or (made := self.call(at, True)) is None:
            return None
        return f"{target} = {made};"

    def write_output(self, at: Where) -> str | None:
        name = self.pick(at, lambda it: it.kind in ("out port", "port"))
        if name is None:
            return None
        time = f" @ {self.time(at)}" if self.chance.random() < 0.3 else ""
        return f"{name}{time} <: {self.expression(at)}{self.stamp(at)};"

    def time(self, at: Where) -> str:
        return str(self.chance.randrange(20_000)) if self.chance.random() < 0.8 else self.expression(at, 2)

    def stamp(self, at: Where) -> str:
        return f" @ {target}" if self.chance.random() < 0.3 and (target := self.target(at)) else ""

    def destination(self, at: Where) -> str:
        if self.chance.random() < 0.6 and (target := self.target(at)):
            return target
        if self.chance.random() < 0.5:
            return "void"
        word, name = self.chance.choice(("int", "unsigned")), self.fresh(at)
        self.declare(at, name, Entity(word))
        return f"{word} {name}"

    def input(self, at: Where) -> str | None:
        """An input from a port, without its semicolon."""
        name = self.pick(at, lambda it: it.kind in ("in port", "port"))
        if name is None:
            return None
        way = self.chance.random()
        if way < 0.3:
            head = f"{name} @ {self.time(at)}"
        elif way < 0.6:
            head = f"{name} when {self.chance.choice(('pinseq', 'pinsneq'))}({self.chance.choice(('0', '1', self.expression(at, 2)))})"
        else:
            head = name
        return f"{head} :> {self.destination(at)}{self.stamp(at)}"

    def write_input(self, at: Where) -> str | None:
        made = self.input(at)
        return made and f"{made};"

    def write_timer(self, at: Where) -> str | None:
        if not self.cost.fits(Cost(1, 0, 0, 1), at.copies, self.limit):
            return None
        self.count += 1
        name = f"t{self.count}"
        at.names[name] = Entity("timer")
        self.cost.timers += at.copies
        return f"timer {name};"

    def wait(self, at: Where) -> str | None:
        name = self.pick(at, lambda it: it.kind == "timer")
        if name is None:
            return None
        condition = f" when timerafter({self.time(at)})" if self.chance.random() < 0.7 else ""
        return f"{name}{condition} :> {self.destination(at)}"

    def write_wait(self, at: Where) -> str | None:
        made = self.wait(at)
        return made and f"{made};"

    def talk(self, at: Where, name: str) -> str:
        if self.chance.random() < 0.5:
            return f"{name} <: {self.expression(at)};"
        return f"{name} :> {self.destination(at)};"

    def write_talk(self, at: Where) -> str | None:
        name = self.pick(at, lambda it: it.kind == "chanend")
        return None if name is None or not at.talks else self.talk(at, name)

    def write_if(self, at: Where) -> str | None:
        made = f"if ({self.expression(at)}) {self.block(at)}"
        return f"{made} else {self.block(at)}" if self.chance.random() < 0.5 else made

    def loop(self, at: Where, changed: Where | None = None) -> str:
        return self.block(changed or at, breaks=True, continues=True)

    def write_while(self, at: Where) -> str | None:
        if self.chance.random() < 0.1:
            return f"while ({self.expression(at)}) {self.loop(at)}"
        self.count += 1
        name = f"w{self.count}"
        inner = at.inner()
        self.declare(inner, name, Entity("int", changes=False))
        body = self.loop(inner)
        return f"{{ int {name}; while ({name} < {self.chance.randrange(6)}) {{ {name}++; {body} }} }}"

    def write_do(self, at: Where) -> str | None:
        return f"do {self.loop(at)} while ({self.chance.choice(('0', '0', self.expression(at)))});"

    def write_for(self, at: Where) -> str | None:
        inner = at.inner()
        name = self.fresh(inner)
        self.declare(inner, name, Entity("int", changes=False))
        return f"for (int {name} = 0; {name} < {self.chance.randrange(7)}; {name}++) {self.loop(at, inner)}"

    def write_block(self, at: Where) -> str | None:
        return self.block(at)

    # branches

    def write_par(self, at: Where) -> str | None:
        """A par whose branches share what none changes, and each of the other things with at most one."""
        count = self.chance.randint(1, min(at.threads, 4))
        return self.branches(at, count, at.threads // count)

    def branches(self, at: Where, count: int, threads: int) -> str:
        shared = {name: replace(it, changes=False) for name, it in at.names.items() if it.is_word or it.is_array}
        parts: list[dict[str, Entity]] = [dict(shared) for _ in range(count)]
        for name, it in at.names.items():
            if not (it.is_word or it.is_array):
                self.chance.choice(parts)[name] = it
        head, uses = "", [""] * count
        if count > 1:
            for _ in range(self.chance.randint(0, 2)):
                if not self.cost.fits(Cost(1, 0, 2, 0), at.copies, self.limit):
                    break
                self.count += 1
                name = f"c{self.count}"
                head += f"chan {name}; "
                self.cost.ends += 2 * at.copies
                self.cost.statements += at.copies
                first, second = self.chance.sample(range(count), 2)
                for side, of in ((first, f"{name} <: {self.number()};"), (second, f"{name} :> void;")):
                    parts[side][name] = Entity("chanend")
                    uses[side] += of + " "
        made, before, needed = [], self.threads, 0
        for part, use in zip(parts, uses):
            self.threads = 1
            inner = at.inner(names=part, threads=threads, breaks=False, continues=False, returns=False)
            made.append("{ " + use + self.body(inner) + " }")
            needed += self.threads
        self.threads = max(before, needed)
        self.cost.statements += (1 + count) * at.copies
        text = f"{head}par {{ {' '.join(made)} }}"
        return f"{{ {text} }}" if head else text

    def write_replicated(self, at: Where) -> str | None:
        count = self.chance.randint(0, min(at.threads, 4))
        first = self.chance.randrange(5)
        shared = {name: replace(it, changes=False) for name, it in at.names.items() if it.is_word or it.is_array}
        before, self.threads = self.threads, 1
        each = max(count, 1)
        inner = at.inner(names=shared, threads=at.threads // each, copies=at.copies * each, breaks=False, continues=False, returns=False)
        name = self.fresh(inner)
        inner.names[name] = Entity("int", changes=False)
        inner.here.add(name)
        body = self.block(inner)
        self.threads = max(before, self.threads * count, 1)
        return f"par (int {name} = {first}; {name} < {first + count}; {name}++) {body}"

    def write_select(self, at: Where) -> str | None:
        made = []
        for _ in range(self.chance.randint(1, 3)):
            inner = at.inner(breaks=True)
            head = self.chance.choice((self.input, self.wait, self.case_of_channel))(inner)
            if head is None:
                continue
            guard = f"{self.expression(at, 2)} => " if self.chance.random() < 0.4 else ""
            made.append(f"case {guard}{head}: {self.body(inner)} break;")
        if not made or self.chance.random() < 0.3:
            made.insert(self.chance.randint(0, len(made)), f"default: {self.body(at.inner(breaks=True))} break;")
        return f"select {{ {' '.join(made)} }}"

    def case_of_channel(self, at: Where) -> str | None:
        name = self.pick(at, lambda it: it.kind == "chanend")
        return name and f"{name} :> {self.destination(at)}"

    # what isn't built yet

    def write_transaction(self, at: Where) -> str | None:
        name = self.pick(at, lambda it: it.kind == "chanend")
        if name is None:
            return None
        names = {it: what for it, what in at.names.items() if what.kind != "chanend"}
        inner = at.inner(names=names, breaks=False, continues=False, returns=False, talks=False, threads=1)
        talked = " ".join(self.talk(inner, name) for _ in range(self.chance.randint(1, 3)))
        self.cost.statements += 4 * at.copies
        return f"{self.chance.choice(('master', 'slave'))} {{ {talked} {self.body(inner, 0, 2)} }}"

    # the program

    def function(self, ports: dict[str, Entity]) -> str:
        self.cost, self.limit, self.threads, self.ports = Cost(), PART, 1, set()
        self.result = self.chance.choice(("void", "int", "unsigned"))
        name, at = f"f{len(self.functions)}", Where(dict(ports), set(), threads=self.chance.choice((1, 1, 2, 4)), depth=1)
        heads, kinds, uses = [], [], ""
        for _ in range(self.chance.randint(0, 4)):
            self.count += 1
            way, word = self.chance.choice(("value", "value", "&", "array", "port", "chanend")), self.chance.choice(("int", "unsigned"))
            own = f"v{self.count}"
            if way == "port":
                entity, way = Entity(self.chance.choice(DIRECTIONS)), "thing"
                heads.append(f"{entity.kind} {own}")
            elif way == "chanend":
                entity, way = Entity("chanend"), "thing"
                heads.append(f"chanend {own}")
                uses += f"{own} {self.chance.choice((':> void', f'<: {self.number()}'))}; "
            elif way == "array":
                entity = Entity(word, self.chance.choice((-1, 1, 4, 8)))
                heads.append(f"{word} {own}[{entity.length if entity.length > 0 else ''}]")
            else:
                entity = Entity(word)
                heads.append(f"{word} {'&' * (way == '&')}{own}")
            kinds.append((way, entity))
            at.names[own] = entity
            at.here.add(own)
            self.cost.words += 1
        body = uses + self.body(at, 1, 6)
        end = "" if self.result == "void" or self.chance.random() < 0.1 else f" return {self.expression(at)};"
        self.functions.append(Function(name, self.result, tuple(kinds), self.cost, self.threads, frozenset(self.ports)))
        head = f"{self.result} {name}({', '.join(heads) or self.chance.choice(('void', ''))})"
        return f"{head};\n" * (self.chance.random() < 0.1) + f"{head} {{ {body}{end} }}"

    def program(self) -> str:
        is_placed = self.chance.random() < 0.3
        lines = ["#include <xs1.h>"] * (self.chance.random() < 0.3)
        for at in range(self.chance.choice((0, 0, 0, 1, 3))):
            lines.append(f"#define N{at} {self.chance.choice(NUMBERS)}")
            self.defined.append(f"N{at}")
        cores: list[dict[str, Entity]] = [{}, {}, {}, {}]
        for at, identifier in enumerate(self.chance.sample(sorted(PORTS), self.chance.randint(0, 5))):
            core, direction = self.chance.randrange(4) if is_placed else 0, self.chance.choice(DIRECTIONS)
            place = f"on {self.chance.choice(('stdcore', 'tile'))}[{core}] : " if core else ""
            cores[core][f"p{at}"] = Entity(direction)
            lines.append(f"{place}{direction} p{at} = XS1_PORT_{identifier};")
        for _ in range(self.chance.randint(0, 4)):
            lines.append(self.function({} if is_placed else cores[0]))
        self.cost, self.limit, self.threads, self.result = Cost(), WHOLE, 1, "int"
        lines.append(self.placed(cores) if is_placed else self.main(cores[0]))
        return self.laid_out("\n".join(lines) + "\n")

    def main(self, ports: dict[str, Entity]) -> str:
        body = self.body(Where(dict(ports), set(), depth=1), 2, 8)
        return f"int main(void) {{ {body} return 0; }}"

    def placed(self, cores: list[dict[str, Entity]]) -> str:
        """A main with a branch on each of some cores, joined by channels to the next one."""
        used = self.chance.sample(range(4), self.chance.randint(1, 4))
        channels = [f"c{at}" for at in range(len(used) - 1)]
        made = []
        for at, core in enumerate(used):
            ends = {name: Entity("chanend") for name in channels[max(at - 1, 0) : at + 1]}
            uses = "".join(f"{name} {'<: 1' if name == f'c{at}' else ':> void'}; " for name in ends)
            inner = Where({**cores[core], **ends}, set(), threads=8, depth=4, returns=False)
            made.append(f"on {self.chance.choice(('stdcore', 'tile'))}[{core}] : {{ {uses}{self.body(inner)} }}")
        head = f"chan {', '.join(channels)}; " if channels else ""
        return f"int main(void) {{ {head}par {{ {' '.join(made)} }} return 0; }}"

    def laid_out(self, text: str) -> str:
        """With line ends behind some of the braces and semicolons, and a few comments."""
        share, made = self.chance.choice((0, 0.5, 1)), []
        for it in text:
            made.append(it)
            if it in "{};" and self.chance.random() < share:
                made.append(self.chance.choice((*["\n"] * 30, " // a comment; }\n", " /* a comment; } */ ")))
        return "".join(made)


def program(chance: Random, has_all: bool = False) -> str:
    """A program that breaks no rule; with all forms, also those that aren't built yet."""
    return Writer(chance, has_all).program()
