"""The examples, their stored traces, and what the pages show of them."""

import os
import re
import subprocess
import unittest

from traces.stimulus import read_stimulus

from .models import MODELS, STIMULI, Read, level_at, stimulus_of, trace_of
from .samples import (
    EXAMPLES,
    PROGRAMS,
    TOP,
    WAITING,
    example,
    output_of,
    output_of_example,
    runs_of_examples,
    stimulus_lines,
    stimulus_words,
    written,
)
from .test_commands import called
from .test_diagram import drawn

PROGRAM = os.path.join(TOP, "crates", "xcsim", "out", "xcsim")
RUNS = os.path.join(TOP, "crates", "xt_programs", "data", "runs.txt")
STATUS = {"finished": 0, "trapped": 3, "stopped": 4, "stuck": 5}

# of the route of strobe.xc, worked out by hand from its instructions
BOUND = 93

# without a model: their traces were worked out by hand
BY_HAND = {"bus", "numbers", "pulse", "widths", "wrap"}


class Stored(unittest.TestCase):
    def test_each_program_has_its_trace(self):
        stored = sorted(name[:-6] for name in os.listdir(EXAMPLES) if name.endswith(".trace"))
        self.assertEqual(stored, PROGRAMS)

    def test_each_trace_is_that_of_its_model(self):
        self.assertEqual(sorted({*MODELS, *BY_HAND}), PROGRAMS)
        for name in MODELS:
            self.assertEqual(written(example(f"{name}.trace")), trace_of(name), name)

    def test_each_stimulus_is_that_of_its_model(self):
        stored = sorted(name[:-5] for name in os.listdir(EXAMPLES) if name.endswith(".stim"))
        self.assertEqual(sorted(STIMULI), stored)
        for name, edges in STIMULI.items():
            with open(example(f"{name}.stim"), "rb") as file:
                self.assertEqual([tick for tick, _ in read_stimulus(file, name)], [tick for tick, _ in edges])
            self.assertEqual(stimulus_lines(name), stimulus_of(name), name)

    def test_each_model_reads_the_pins(self):
        for name, edges in STIMULI.items():
            read = [record for record in MODELS[name]() if isinstance(record, Read)]
            self.assertEqual([record.value for record in read], [level_at(edges, record.tick) for record in read], name)

    def test_the_receiver_reads_what_the_transmitter_sent(self):
        made = called("stim-from-trace", "-", "0:1A=0:1B", text=output_of_example("serial")).stdout
        self.assertEqual([line for line in made.splitlines() if not line.startswith("#")], stimulus_lines("receiver"))

    def test_each_trace_can_be_read(self):
        for name in PROGRAMS:
            output = output_of(output_of_example(name), name)
            list(output.records())
            self.assertIn(output.end, STATUS, name)

    def test_the_gate_runs_each_program(self):
        self.assertEqual(written(RUNS), runs_of_examples(), "tools/runs writes the file anew")

    def test_each_program_is_listed(self):
        listed = re.findall(r"^\| \[(\w+)\.xc\]\(\1\.xc\) \|", written(example("README.md")), re.MULTILINE)
        self.assertEqual(sorted(listed), PROGRAMS)

    def test_the_whole_output_ends_with_the_trace(self):
        self.assertTrue(written(example("pulse.out")).endswith("\ntrace\n" + written(example("pulse.trace"))))

    @unittest.skipUnless(os.access(PROGRAM, os.X_OK), "the program isn't built")
    def test_the_program_writes_what_is_stored(self):
        for name in [it for it in PROGRAMS if it not in WAITING]:
            words = [PROGRAM, "run", example(f"{name}.xc"), *stimulus_words(name)]
            run = subprocess.run(words, capture_output=True, encoding="utf-8", check=False)
            _, mark, trace = run.stdout.partition("\ntrace\n")
            self.assertEqual((mark, trace, run.stderr), ("\ntrace\n", written(example(f"{name}.trace")), ""), name)
            output = output_of(run.stdout, name)
            list(output.records())
            self.assertEqual(run.returncode, STATUS[output.end], name)

    def test_the_strobe_is_high_for_no_longer_than_its_bound(self):
        """And one time for just so long; its comment, and pages, tell the bound."""
        edges = [int(it) for it in re.findall(r"^out 0 1A @(\d+) ", written(example("strobe.trace")), re.MULTILINE)]
        widths = [fall - rise for rise, fall in zip(edges[::2], edges[1::2])]
        self.assertEqual((len(widths), min(widths), max(widths), widths.index(max(widths))), (8, 85, BOUND + 4, 4))
        route = re.fullmatch(r"# .*\nroute 0 (\d+):5 (\d+):5 3\n", written(example("strobe.routes")))
        lines = written(example("strobe.xc")).splitlines()
        self.assertEqual([lines[int(it) - 1] for it in route.groups()], ["    strobe <: 1;", "    strobe <: 0;"])
        self.assertIn(f"`ticks {BOUND}`", written(example("strobe.xc")))
        self.assertIn(f"the line `ticks {BOUND}`", written(os.path.join(TOP, "docs", "language.md")))

    @unittest.skipUnless(os.access(PROGRAM, os.X_OK), "the program isn't built")
    def test_the_program_tells_the_bound(self):
        words = [PROGRAM, "time", example("strobe.xc"), example("strobe.routes")]
        told = subprocess.run(words, capture_output=True, encoding="utf-8", check=False)
        self.assertEqual((told.returncode, told.stderr, told.stdout.splitlines()[-1]), (0, "", f"ticks {BOUND}"))

    @unittest.skipUnless(os.access(PROGRAM, os.X_OK), "the program isn't built")
    def test_what_waits_is_refused_so_far(self):
        for name in WAITING:
            check = subprocess.run([PROGRAM, "check", example(f"{name}.xc")], capture_output=True, encoding="utf-8", check=False)
            self.assertRegex(check.stderr, r"rule 299\n\Z", f"{name} waits no more: its line leaves WAITING in samples.py")

    @unittest.skipUnless(os.access(PROGRAM, os.X_OK), "the program isn't built")
    def test_the_program_writes_the_whole_output(self):
        run = subprocess.run([PROGRAM, "run", example("pulse.xc")], capture_output=True, encoding="utf-8", check=False)
        self.assertEqual(run.stdout, written(example("pulse.out")))


class Pages(unittest.TestCase):
    """What the pages show is made of the stored outputs."""

    def page(self, *names):
        return written(os.path.join(TOP, *names))

    def test_listing_and_trace(self):
        listing, trace = re.search(r"```\n(code\n.*?)\.\.\.\n(trace\n.*?)```", self.page("README.md"), re.DOTALL).groups()
        stored = written(example("pulse.out"))
        self.assertTrue(stored.startswith(listing))
        self.assertTrue(stored.endswith("\n" + trace))

    def test_diagram_in_the_terminal(self):
        whole = drawn("--text", text=output_of_example("bus"), columns="80")
        self.assertIn("```\n" + whole.split("\n\n")[0] + "\n```", self.page("docs", "looking.md"))

    def test_diagram_with_a_stimulus(self):
        words = ["--text", "--stimulus", example("meter.stim"), "--to", "3000"]
        whole = drawn(*words, text=output_of_example("meter"), columns="80")
        self.assertIn("```\n" + whole.split("\n\n")[0] + "\n```", self.page("docs", "looking.md"))

    def test_stimulus_and_what_it_makes(self):
        page = self.page("docs", "using.md")
        lines, records = re.search(r"```\n# a pulse.*?\n(.*?)```.*?```\n(in .*?)```", page, re.DOTALL).groups()
        self.assertIn("\n" + lines, written(example("meter.stim")))
        self.assertTrue(written(example("meter.trace")).startswith(records))

    def test_what_the_gate_runs_of_the_language(self):
        page = self.page("docs", "language.md")
        for section, cases in (("Inputs and timers", "inputs.txt"), ("Selects", "selects.txt"), ("Cores", "cores.txt")):
            shown = re.search(rf"## {section}.*?```\n(.*?)```.*?```\n(.*?)```.*?```\n(.*?)```", page, re.DOTALL).groups()
            marked = ["".join(f"{mark} {line}\n" for line in part.splitlines()) for mark, part in zip(("|", "stim", "="), shown)]
            self.assertIn("case the example of docs/language.md\n" + "".join(marked), self.page("crates", "xt_programs", "data", cases))

    def test_pictures(self):
        self.assertEqual(drawn(text=output_of_example("bus")), self.page("docs", "bus.svg"))
        messages = called("trace-msc", "--lockstep", "--to", "4000", text=output_of_example("producer")).stdout
        self.assertEqual(messages, self.page("docs", "messages.svg"))

    def test_listing_with_its_text(self):
        page = re.search(r"```\n(    9 \|.*?)```", self.page("docs", "looking.md"), re.DOTALL)[1]
        self.assertIn("\n" + page, called("annotate", "--source", example("pulse.xc"), example("pulse.out")).stdout)
