"""The scripts of bench/: what they make and read, and each as a whole over programs that stand for the built ones."""

import contextlib
import io
import json
import os
import re
import sys
import tempfile
import unittest
from datetime import datetime

from traces.stimulus import read_stimulus

from .samples import TOP, written

sys.path.insert(0, os.path.join(TOP, "bench"))

from lib import clang, codes, deep, gate, program, refusals, results, scopes, scratch, texts, timing, xc

RATTLE = os.path.join(TOP, "bench", "rattle")
PROGRAMS = scratch.read_lines(written(os.path.join(RATTLE, "programs.txt")))
CRATES = scratch.read_lines(written(os.path.join(TOP, "crates.txt")))


def sources(name):
    """The files of a program of bench/rattle, by their paths below it."""
    for at, _, files in os.walk(os.path.join(RATTLE, name)):
        for file in files:
            yield os.path.relpath(os.path.join(at, file), os.path.join(RATTLE, name)), written(os.path.join(at, file))


class Programs(unittest.TestCase):
    """Whether the programs still fit the crates is seen here without the prover."""

    def test_each_has_a_line_and_a_main(self):
        self.assertEqual(sorted(PROGRAMS), sorted(it for it in os.listdir(RATTLE) if os.path.isdir(os.path.join(RATTLE, it))))
        for name, below in PROGRAMS.items():
            self.assertTrue(os.path.exists(os.path.join(RATTLE, name, "src", "main.rt.txt")), name)
            self.assertEqual([it for it in below if it not in CRATES], ["anyhow"], name)

    def test_what_they_use_is_listed_and_there(self):
        for name, below in PROGRAMS.items():
            for path, text in sources(name):
                for crate, named in re.findall(r"^use (x\w+)::(?:\{([^}]*)\}|\w+);", text, re.MULTILINE):
                    root = written(os.path.join(TOP, "crates", crate, "src", "lib.rt"))
                    self.assertIn(crate, below, f"{name}/{path}")
                    for it in filter(None, re.split(r",\s*", named.strip())):
                        if (crate, it) != ("xc_disjoint", "first_broken"):  # which bench/needs makes public
                            self.assertRegex(root, rf"\b{it}\b", f"{name}/{path}")

    def test_the_definitions_that_they_cite_are_there(self):
        cited = re.compile(r"^(?:ghost )?use Rattle\.(x\w+)\.specs\.((?:\w+\.)+)\{([^}]*)\}", re.MULTILINE)
        for name in PROGRAMS:
            for path, text in sources(name):
                for crate, module, named in cited.findall(text):
                    parts = module.rstrip(".").split(".")
                    if parts[0] == "declared":
                        file = os.path.join(TOP, "crates", crate, "src", f"{parts[1]}.rt")
                    else:
                        file = os.path.join(TOP, "crates", crate, "specs", *parts) + ".antt"
                    for it in re.split(r",\s*", named):
                        self.assertRegex(written(file), rf"\b{it}\b", f"{name}/{path}")

    def test_the_lines_that_are_read_are_those_that_they_write(self):
        templates = {
            "time_lexer": "{tokens} tokens {microseconds} microseconds",
            "time_names": "rule {rule} {microseconds} microseconds",
            "time_needs": "rule {rule} {microseconds} microseconds",
            "time_parser": "{tokens} tokens {items} items rule {rule} {microseconds} microseconds",
            "time_stimulus": "{lines} lines of the stimulus, {microseconds} microseconds",
            "time_flat": "{instances} instances {variables} variables rule {rule} {microseconds} microseconds",
            "time_core": "{steps} {microseconds}",
            "time_windows": "{microseconds} {records}",
            "count_code": "{all} {tests}",
        }
        for name, template in templates.items():
            printed = re.search(r'println!\(rt; "(.*)"\)', dict(sources(name))[os.path.join("src", "main.rt.txt")])[1]
            self.assertEqual(re.sub(r"\{\w+\}", "{}", printed), re.sub(r"\{\w+\}", "{}", template), name)
            script = {"time_windows": ("lib", "workers.py")}.get(name, (name.partition("_")[2],))
            self.assertTrue(name == "count_code" or f'"{template}"' in written(os.path.join(TOP, "bench", *script)), name)

    def test_the_changed_places_stand_once(self):
        crate = os.path.join(TOP, "crates", "xc_disjoint", "src")
        self.assertEqual(written(os.path.join(crate, "disjointness.rt")).count("\nfn first_broken"), 1)
        self.assertEqual(written(os.path.join(crate, "lib.rt")).count("use disjointness::{DisErr, disjoint}"), 1)


class Scratch(unittest.TestCase):
    def test_lines_and_what_is_below(self):
        lines = scratch.read_lines("# Base\na:\nb: a std # low\n\nc: b a thiserror\n")
        self.assertEqual(lines, {"a": [], "b": ["a", "std"], "c": ["b", "a", "thiserror"]})
        self.assertEqual(scratch.crates_below("c", lines), ["a", "b"])

    def test_repository(self):
        """The crates below and the program, without must-fail and without the ending of its files."""
        with tempfile.TemporaryDirectory() as room:
            made = scratch.make(room, "time_stimulus")
            lines = ["xw_words: ", "xs_instr: xw_words", "xr_stim: xs_instr xw_words thiserror"]
            lines.append("time_stimulus: xr_stim xs_instr xw_words anyhow")
            self.assertEqual(written(os.path.join(room, "crates.txt")).splitlines(), lines)
            self.assertEqual(sorted(os.listdir(os.path.join(room, "crates"))), ["time_stimulus", "xr_stim", "xs_instr", "xw_words"])
            self.assertFalse(os.path.exists(os.path.join(room, "crates", "xr_stim", "must-fail")))
            self.assertEqual(os.listdir(os.path.join(made.folder, "src")), ["main.rt"])
            made.replace("time_stimulus/src/main.rt", "use std::alloc::Global;", "use std::alloc::Other;")
            self.assertIn("alloc::Other", written(os.path.join(made.folder, "src", "main.rt")))
            with self.assertRaises(SystemExit):
                made.replace("time_stimulus/src/main.rt", "use std", "use core")

    def test_proofs_come_along(self):
        with tempfile.TemporaryDirectory() as room:
            made = scratch.make(room, "time_core", ("must-fail", "out"))
            self.assertTrue(os.path.exists(os.path.join(made.folder, "proofs", "rounds", "run", "Invariants.antt")))


class Timing(unittest.TestCase):
    def test_figures_of_a_line(self):
        self.assertEqual(timing.figures("{tokens} tokens (at {rule})", "12 tokens (at 3)\n"), {"tokens": 12, "rule": 3})
        with self.assertRaises(SystemExit):
            timing.figures("{tokens} tokens", "no tokens")

    def test_ratios(self):
        self.assertEqual(timing.middle_ratio([2, 3, 10], [4, 4, 4]), 0.75)
        self.assertEqual(timing.least_ratio([2, 3, 10], [4, 4, 5]), 0.5)

    def test_least(self):
        took = iter([3.0, 1.0, 2.0])
        self.assertEqual(timing.least(lambda: next(took), 3), 1.0)

    def test_instructions(self):
        self.assertEqual(timing.collected("==7== Events    : Ir\n==7== Collected : 120345\n"), 120345)
        self.assertIsNone(timing.collected("valgrind: no such file\n"))

    def test_run(self):
        ran = timing.run(["sh", "-c", "echo a; echo b >&2; exit 3"], (3,))
        self.assertEqual((ran.output, ran.errors, ran.status), ("a\n", "b\n", 3))
        self.assertEqual(timing.run(["echo", "a"], keeps=False).output, "")
        with self.assertRaises(SystemExit):
            timing.run(["false"])
        with self.assertRaisesRegex(SystemExit, "no-such-program isn't there"):
            timing.run(["no-such-program"], ())
        self.assertEqual(timing.run_with_memory(["sh", "-c", "echo a; exit 3"], ()).status, 3)


class Results(unittest.TestCase):
    def test_stolen(self):
        before = timing.ticks_of("cpu  100 0 50 800 20 0 10 20 0 0\ncpu0 1 2\n")
        after = timing.ticks_of("cpu  150 0 70 820 20 0 10 30 0 0\n")
        self.assertEqual((before.stolen, before.all, after.stolen_since(before)), (20, 1000, 0.1))

    def test_model(self):
        self.assertEqual(results.model_of("processor\t: 0\nmodel name\t: A Chip @ 2 GHz\nmodel name\t: B\n"), "A Chip @ 2 GHz")
        self.assertEqual(results.model_of(""), "unknown")

    def test_rows_and_line(self):
        out = io.StringIO()
        sitting = results.Sitting("lexer", out)
        sitting.add("texts", [{"text": "a || b", "bytes": 5, "growth": None}])
        sitting.add("texts", iter([{"text": "c", "bytes": 10, "growth": 2.0}]))
        lines = ["", "texts", "", f"| {'text':24} |   bytes |  growth |", "|---|---|---|"]
        lines += [f"| {'a ' + chr(92) + '|' + chr(92) + '| b':24} |       5 |       - |", f"| {'c':24} |      10 |     2.0 |"]
        self.assertEqual(out.getvalue().splitlines(), lines)
        machine = results.Machine("A Chip", 4, 0.5, 0.01)
        self.assertEqual(
            json.loads(sitting.line(machine, datetime(2026, 12, 1, 9, 5), "abcd1234+", "kit")),
            {
                "date": "2026-12-01T09:05Z",
                "commit": "abcd1234+",
                "kit": "kit",
                "machine": {"model": "A Chip", "processors": 4, "load": 0.5, "stolen": 0.01},
                "figures": {"texts": [{"text": "a || b", "bytes": 5}, {"text": "c", "bytes": 10, "growth": 2.0}]},
            },
        )

    def test_only_what_came_to_its_end_is_stored(self):
        with tempfile.TemporaryDirectory() as top, contextlib.redirect_stdout(io.StringIO()):
            os.makedirs(os.path.join(top, "bench", "results"))
            with self.assertRaises(SystemExit), results.sitting("run", top=top):
                sys.exit("not built")
            with results.sitting("run", is_stored=False, top=top):
                pass
            self.assertEqual(os.listdir(os.path.join(top, "bench", "results")), [])


class Texts(unittest.TestCase):
    def test_names(self):
        names = [name for name, _ in zip(texts.names(), range(4000))]
        self.assertEqual((names[0], names[52], names[53]), ("a", "_", "aa"))
        self.assertEqual(len(set(names)), 4000)
        self.assertFalse({"do", "if", "in", "on"} & set(names))

    def test_defines(self):
        self.assertEqual(texts.defines(40, 30, iter(["a", "b", "c"])), "#define a 1\n#define b 1\nb a b a b a b a ")

    def test_sizes(self):
        for size in (4096, 8192):
            for made in (texts.for_lexer(size), texts.for_parser(size)):
                self.assertEqual({len(text) for text in made.values()}, {size})
        stimuli = texts.for_stimulus(50)
        self.assertEqual({name: text.count("\n") for name, text in stimuli.items()}, dict.fromkeys(("short", "wide", "blank", "comments"), 50))
        self.assertEqual({len(text) for name, text in stimuli.items() if name != "short"}, {50 * 41})

    def test_calls(self):
        self.assertEqual(scopes.for_names("cycle", 2), "int main(){f000000();}void f000000(){f000001();}void f000001(){f000000();}void f000002(){}\n")
        self.assertEqual(scopes.for_names("scope", 2), "int main(){int Aaa,Aab;Aaa++;Aab++;}\n")
        self.assertEqual(len({scopes.name(n) for n in range(20000)}), 20000)
        self.assertEqual(scopes.chain(1, True, " f1(1);"), "void f0(int n) { }\nvoid f1(int n) { f0(n + 1); }\nint main(void) { f1(1); return 0; }")
        self.assertEqual(sorted(scopes.for_flat()), ["branches", "calls", "chain", "deep", "handed", "names", "plain", "tens"])

    def test_long_programs(self):
        for text in (xc.long_program(5000), xc.outputs(5000)):
            self.assertEqual((len(text), text[-12:]), (5000, "return 0; }\n"))

    def test_waiting(self):
        changes = ["20000 0 1A 1", "20001 0 1B 1", "20002 0 1C 1", "20003 0 1D 1", "40000 0 1A 0", "40002 0 1B 0"]
        self.assertEqual(xc.edges(xc.PACES["seldom"], 40_003).splitlines(), changes)
        read = read_stimulus(io.BytesIO(xc.edges(xc.PACES["often"], 200_000).encode()), "often")
        self.assertEqual(len(read), sum(200_000 // step for step in range(30, 34)))
        self.assertTrue(xc.waits("often").startswith("#define STEP 30\nin port a"))
        self.assertTrue(xc.selects("seldom").startswith("#define STEP 20000\nin port a"))


class Codes(unittest.TestCase):
    def test_busy_cores(self):
        """Each core has three channels or two to each other one, eight in all, and each end is of one channel."""
        ends = [tuple(map(int, it)) for it in re.findall(r"^\.chan (\d) (\d) (\d) (\d)$", codes.busy_listing(), re.MULTILINE)]
        used = [(a, e) for a, e, _, _ in ends] + [(b, f) for _, _, b, f in ends]
        self.assertEqual(sorted(used), [(core, end) for core in range(4) for end in range(8)])
        self.assertEqual(codes.busy_listing().count("\n39: BRBU 19 @1:1\n"), 0)
        self.assertEqual(codes.busy_listing().count(": BRBU 19 @1:1\n"), 4)

    def test_ring(self):
        self.assertEqual(codes.ring(1)[-6:], ["LDC r6, 16780802", "LDC r7, 16781058", "OUT r6, r0", "IN r1, r7", "ADDI r0, r1, 1", "BRBU 44"])
        self.assertEqual(codes.listings()["ring"].count(".chan "), 32)

    def test_deepest(self):
        """The listing of `int f0(int a) { if (a) { a = a + 1; } return a; }` and of `main` that calls it, worked out by hand."""
        made = deep.Deep(1, 1)
        wanted = """LDC r0, 40|SETSP r0|LDC r0, 0|STWDP r0, 0|LDC r0, 0|STWDP r0, 1|LDC r0, 1|STWDP r0, 2|LDWDP r0, 2|BRFF r0, 13|LDWDP r0, 2
            |ADDI r0, r0, 1|STWDP r0, 2|LDWDP r0, 2|STWDP r0, 1|BRFU 16|LDWDP r0, 1|STWDP r0, 0|FREET"""
        code = [line.partition(": ")[2].rpartition(" @")[0] for line in made.listing()[5:]]
        self.assertEqual(code, [it.strip() for it in wanted.split("|")])
        self.assertEqual(made.listing()[1], ".words 522")
        self.assertEqual(deep.case("a", ["x"], ["y"]), "case a\n| x\n= y\n")


class Counts(unittest.TestCase):
    def test_assembly(self):
        text = "\t.text\nf:\n.LBB0_1:\n\tldw r1, r0[0]\n\tadd r0, r0, 1\n\tbt r0, .LBB0_1\n\tretsp 0\n\t.cc_bottom f\n"
        self.assertEqual(clang.size_of_assembly(text), (4, 3))
        self.assertEqual(clang.size_of_assembly("\tretsp 0\n"), (1, 0))

    def test_listing(self):
        text = "code\n.core 0\n0: LDC r0, 1 @1:1\n1: ADDI r0, r0, 1 @1:1\n2: BRBT r0, 1 @2:1\n3: BRBU 0 @2:1\n"
        self.assertEqual(clang.size_of_listing(text), (4, 2))

    def test_interpreter(self):
        self.assertEqual(program.stats_of("end 0\nsteps 3200 seconds 0.25\n"), (3200, 0.25))
        self.assertIsNone(program.stats_of("no such file"))


class Gate(unittest.TestCase):
    WORDS = ["/kit/bin/rattle", "check", "--crate-name", "xw_io"]

    def test_checks(self):
        self.assertTrue(gate.is_prover(self.WORDS))
        self.assertFalse(gate.is_prover(["rattle", "version", ""]))
        kinds = [gate.kind_of(*it) for it in (("/w", self.WORDS), ("/w", ["--test"]), ("/tmp/rt-edit-1/w", []), ("/w", ["--crate-checked"]))]
        self.assertEqual(kinds, ["proof", "tests", "edits", "building"])

    def test_process(self):
        stat = "7 (a (b) c) S 3 1 1 0 -1 0 9 9 9 9 100 50 20 30 20 0"
        self.assertEqual(gate.process_of(stat, "a\0b\0"), (3, 200 / gate.SECOND, ["a", "b", ""]))

    def test_rows(self):
        began = (("edits", 300.0), ("edits", 200.0), ("edits", 100.0), ("proof", 0.0))
        checks = [gate.Check("a", kind, at, at + 60, 60.0) for kind, at in began]
        first, second = gate.rows([gate.Check("b", "tests", 0.0, 6.0, 6.0), *checks])
        wanted = {"crate": "a", "proof": 1.0, "first edit": 1.0, "other edits": 2.0, "edits": 3, "sum": 4.0, "proof ended": 1}
        self.assertEqual({name: first[name] for name in wanted}, wanted)
        self.assertEqual((second["crate"], second["proof"], second["tests"], second["proof began"]), ("b", None, 0.1, None))


class Refusals(unittest.TestCase):
    WHOLE = timing.Run("trace\n", "", 4, 0.1)

    def test_calls(self):
        kinds = [
            refusals.kind_of_call(timing.Run(*it), self.WHOLE, had_line)
            for *it, had_line in (
                ("trace\n", "", 4, 0.2, False),
                ("", "out of memory\n", 12, 0.2, False),
                ("", "", 12, 0.2, False),
                ("", "", 12, 0.2, True),
                ("tra", "out of memory\n", 12, 0.2, False),
                ("trace\n", "", 0, 0.2, False),
            )
        ]
        self.assertEqual(kinds, ["without effect", "out of memory", "of the words", "wrong", "wrong", "wrong"])

    def test_cores(self):
        kinds = [refusals.kind_of_core(timing.Run(it, "", 0, 0.1), self.WHOLE, True) for it in ("trace\n", "no memory\n", "came 1, wanted 2\n")]
        self.assertEqual(kinds, ["without effect", "out of memory", "wrong"])

    def test_case(self):
        cases = "case a\n1\n\ncase room that is asked for\n2\n\ncase c\n3\n"
        self.assertEqual(refusals.room_case(cases), "case room that is asked for\n2\n\n")
        kept = written(os.path.join(TOP, "crates", "xt_core", "data", "turns.txt"))
        self.assertTrue(refusals.room_case(kept).startswith("case room that is asked for"))
