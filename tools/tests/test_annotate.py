"""Listings with the lines of their texts between."""

import os
import tempfile
import unittest

from traces.annotated import notes_of, told_by

from .samples import data, example, output_of, output_of_example, written
from .test_commands import called

SOURCE = """\
in port b = XS1_PORT_1B;
void m(chanend c) {
  while (1) {
    c <: 7; c <: 8;
  }
}
void s(chanend c)
{
\tc :> int x;
}
"""

LISTING = """\
code
.core 0
.words 1
.timers 0
.ends 1
.port 8A both
.root 0
.root 2
0: LDC r0, 2 @4:5
1: OUT r0, r1 @4:13
2: BRFT r0, 4 @4:13
3: BRBU 0 @3:3
4: FREET @99:1
.core 2
.words 516
.timers 2
.ends 1
.root 0
0: IN r1, r0 @9:2
.chan 0 0 2 0
"""

TRACE = """\
trace
out 0 8A @8 5
out 0 8A @12 6
in 0 8A @16 1
com 2 7
err 2 9:2 mismatch
end stuck
"""

ANNOTATED = """\
core 0: 1 word, 0 timers, 1 channel end
  port 8A both

    4 |     c <: 7; c <: 8;
      |     ^
          0  LDC r0, 2                       root, from 3
      |             ^
          1  OUT r0, r1                      end 0 to core 2
          2  BRFT r0, 4                      root
    3 |   while (1) {
      |   ^~~~~
          3  BRBU 0
   99 | there is no such line in the text
          4  FREET                           from 2

core 2: 516 words, 2 timers, 1 channel end

    9 | \tc :> int x;
      | \t^
          0  IN r1, r0                       root

"""


# the numbers of core 1's resources: port 1A is 16777216, port 8B 16777472, the timer 16777217, the end 16777218
LOOP = """\
code
.core 1
.words 516
.timers 1
.ends 1
.port 1A out
.port 8B both
.root 0
0: LDC r0, 16777472 @1:1
1: SETC r0, NONE @1:1
2: OUT r0, r2 @1:1
3: LDC r1, 16777216 @2:1
4: LDC r3, 16777217 @2:1
5: IN r2, r3 @2:1
6: LDC r3, 16777218 @2:1
7: IN r2, r3 @2:1
8: OUT r1, r2 @2:1
9: BRBT r2, TARGET @3:1
10: OUT r1, r2 @4:1
11: FREET @5:1
.core 2
.words 512
.timers 0
.ends 1
.root 0
0: FREET @6:1
.chan 1 0 2 0
trace
out 1 8B @8 5
com 1 3
out 1 1A @9 1
com 1 0
out 1 1A @12 0
out 1 1A @13 0
end finished
"""


class Resources(unittest.TestCase):
    """What instructions use, and how often they ran."""

    def notes(self, text):
        output = output_of(text)
        told = told_by(output.records())
        return {index: ", ".join(it) for index, it in notes_of(output.listing.cores[1], output.listing, told).items()}

    def test_loop_that_loads_all(self):
        expected = {
            **{0: "root", 1: "port 8B", 2: "port 8B, ran 1 time", 3: "from 9", 5: "timer 0", 7: "end 0 to core 2, ran 2 times"},
            **{8: "port 1A", 10: "port 1A"},  # each of the two may have made each record
        }
        self.assertEqual(self.notes(LOOP.replace("TARGET", "3")), expected)

    def test_what_comes_from_elsewhere_isnt_told(self):
        # r1 may have been loaded anywhere, so an output to 8B may be one of the instructions that use it
        expected = {0: "root", 1: "port 8B", 2: "port 8B", 4: "from 9", 5: "timer 0", 7: "end 0 to core 2, ran 2 times"}
        self.assertEqual(self.notes(LOOP.replace("TARGET", "4")), expected)

    def test_the_only_output_to_a_port(self):
        text = LOOP.replace("TARGET", "3").replace("10: OUT r1, r2 @4:1\n11: FREET", "10: FREET")
        self.assertEqual(self.notes(text)[8], "port 1A, ran 3 times")

    def test_a_register_that_changes(self):
        text = LOOP.replace("TARGET", "3").replace("6: LDC r3, 16777218", "6: LDWDP r3, 5")
        self.assertNotIn(7, self.notes(text))


class Annotated(unittest.TestCase):
    def setUp(self):
        holder = tempfile.TemporaryDirectory()
        self.addCleanup(holder.cleanup)
        self.source = os.path.join(holder.name, "a.xc")
        with open(self.source, "w", encoding="utf-8") as file:
            file.write(SOURCE)

    def written(self, text, *words):
        answer = called("annotate", "--source", self.source, *words, text=text)
        self.assertEqual((answer.returncode, answer.stderr), (0, ""))
        return answer.stdout

    def test_listing(self):
        self.assertEqual(self.written(LISTING), ANNOTATED)

    def test_what_a_run_tells(self):
        expected = ANNOTATED.replace("port 8A both", "port 8A both, 2 outputs, 1 input")
        expected = expected.replace("1 channel end\n  port", "1 channel end, 0 words taken\n  port")
        expected = expected.replace("2 timers, 1 channel end", "2 timers, 1 channel end, 1 word taken")
        expected = expected.replace("\t^", "\t^  <- err 2 mismatch") + "end stuck\n"
        self.assertEqual(self.written(LISTING + TRACE), expected)

    def test_lines_with_their_counts(self):
        lines = self.written(LISTING + TRACE, "--lines").splitlines()
        self.assertEqual(lines[0], "       |    1 | in port b = XS1_PORT_1B;")
        self.assertEqual(lines[2:4], ["     1 |    3 |   while (1) {", "     3 |    4 |     c <: 7; c <: 8;"])
        self.assertEqual(lines[8:], ["     1 |    9 | \tc :> int x;  <- err 2 mismatch", "       |   10 | }", "     6 | instructions in all"])

    def test_the_example(self):
        text = called("annotate", "--source", example("pulse.xc"), example("pulse.out")).stdout
        code = [line.partition(": ")[2].partition(" @")[0] for line in written(example("pulse.out")).splitlines() if " @" in line]
        for instruction in code[:20]:
            self.assertIn(f"  {instruction}", text)
        self.assertIn("    9 |   p @ 100 <: 1;\n      |   ^\n          6  LDC r11, 0\n", text)
        self.assertIn("port 1A out, 2 outputs\n", text)

    def test_bounds_behind_a_listing(self):
        text = written(example("pulse.out")).partition("trace\n")[0]
        wanted = called("annotate", "--source", example("pulse.xc"), text=text).stdout
        self.assertEqual(called("annotate", "--source", example("pulse.xc"), text=text + "ticks 4294967296\nticks 0\n").stdout, wanted)

    def test_errors_of_an_example(self):
        text = called("annotate", "--source", example("outside.xc"), "--lines", text=output_of_example("outside")).stdout
        self.assertIn("   12 |     a[i] = i * i;  <- err 0 index\n", text.replace(written(example("outside.xc")).splitlines()[11], "    a[i] = i * i;"))

    def test_refused(self):
        for words, text, expected in [
            ([], LISTING + "trace\n", "standard input:22: expected a record"),
            ([], LISTING + "track\n", 'standard input:21: expected ".chan CORE END CORE END" or "trace"'),
            (["nowhere.out"], "", "annotate: nowhere.out: No such file or directory"),
        ]:
            answer = called("annotate", "--source", self.source, *words, text=text)
            self.assertEqual((answer.returncode, answer.stdout), (1, ""))
            self.assertTrue(answer.stderr.startswith(expected), answer.stderr)
        answer = called("annotate", "--source", "nowhere.xc", data("two_cores.out"))
        self.assertEqual((answer.returncode, answer.stderr), (1, "annotate: nowhere.xc: No such file or directory\n"))
