"""Sequences of messages, as columns and as SVG."""

import re
import unittest
import xml.etree.ElementTree as tree

from traces import sequence_svg
from traces.sequence import sequence_of
from traces.times import timed

from .samples import KEPT, data, example, listing_of, output_of, output_of_example
from .test_commands import called
from .test_diagram import SIGN, SVG

TWO_CORES = ["--lockstep", "--stimulus", data("two_cores.stim"), data("two_cores.out")]
TEXT = """\
tick       pins                    core 0                   core 3
500          |=0:1B 1                 |                        |
500          |-------1B 1 @500------->|                        |
~501         |                        |-----------7----------->|
600          |<-----8A 255 @600-------|                        |
~601         |                        |-----------8----------->|
650          |<--------------32A 4294967295 @650---------------|
700          |=0:8A 9                 |                        |
65539        |--------8A 9 @3-------->|                        |
~65540       |                        |!3:9 arithmetic         |
66236        |<-------------------32A 0 @700-------------------|

"""


class Columns(unittest.TestCase):
    def drawn(self, *words, text=""):
        answer = called("trace-msc", "--text", *words, text=text)
        self.assertEqual((answer.returncode, answer.stderr), (0, ""))
        return answer.stdout

    def test_each_kind(self):
        text = self.drawn(*TWO_CORES)
        self.assertTrue(text.startswith(TEXT), text)
        self.assertTrue(text.endswith("\nend stuck\n"))

    def test_channels_alone(self):
        lines = self.drawn("--lockstep", "--channels", data("two_cores.out")).splitlines()
        self.assertEqual(lines[0], "tick      core 0    core 3")
        self.assertEqual(lines[1:4], ["~501         |----7--->|", "~601         |----8--->|", "~65540       |!3:9 arithmetic"])

    def test_range(self):
        lines = self.drawn("--from", "600", "--to", "650", *TWO_CORES).splitlines()
        self.assertEqual([line.split()[0] for line in lines[1:4]], ["600", "~601", "650"])
        self.assertEqual(self.drawn("--from", "701", "--to", "702", *TWO_CORES).splitlines()[1:], ["no records", "", "end stuck"])

    def test_words_of_the_core_itself(self):
        lines = self.drawn("--channels", text=output_of_example("producer")).splitlines()
        self.assertEqual([line.split("<-")[1].strip() for line in lines[1:11]], "12 6 3 10 5 16 8 4 2 1".split())

    def test_sender_that_is_not_told(self):
        listing = listing_of((0, 1, []), (1, 2, []), (2, 1, []), channels=".chan 0 0 1 0\n.chan 1 1 2 0\n")
        lines = self.drawn(text=listing + "com 1 5\nend stuck\n").splitlines()
        self.assertEqual(lines[1].replace(" ", ""), "~1||?-5|")
        self.assertIn("  ?- 7   a word, of which the listing doesn't tell from where", lines)

    def test_threads(self):
        self.assertIn("|=0 ready pc 3", self.drawn(data("script.out")))


class Pictures(unittest.TestCase):
    def drawn(self, *words, text=""):
        answer = called("trace-msc", *words, text=text)
        self.assertEqual((answer.returncode, answer.stderr), (0, ""))
        return answer.stdout

    def test_well_formed_and_by_itself(self):
        for kept in KEPT:
            output = output_of(kept)
            events = timed(output.records(), is_lockstep=True)
            sequence = sequence_of(output.listing, events, {"com", "err", "show", "out"}, 0, 1 << 64, 500)
            text = "\n".join(sequence_svg.draw(sequence))
            names = {element.tag for element in tree.fromstring(text).iter()}
            self.assertLessEqual(names, {SVG + it for it in ("svg", "title", "style", "rect", "g", "text", "polyline", "path")})
            self.assertNotRegex(text, "font-face|url|href|import")

    def test_arrows_go_from_one_to_another(self):
        image = tree.fromstring(self.drawn(*TWO_CORES))
        places = {it.text: float(it.get("x")) for it in image.iter(SVG + "text") if it.get("text-anchor") == "middle"}
        ways = [it.get("d") for it in image.findall(SVG + "g")[0].findall(SVG + "path") if it.get("class") == "word"]
        for way in ways:
            start, end = map(float, re.match(r"M(\S+) \S+H(\S+)", way).groups())
            self.assertEqual(start, places["core 0"])
            self.assertEqual(end, places["core 3"] - 6)
        self.assertEqual(len(ways), 2)

    def test_readable(self):
        for words in (TWO_CORES, ["--lockstep", example("pulse.out")]):
            image = tree.fromstring(self.drawn(*words))
            for group in image.findall(SVG + "g"):
                self.check_labels(group, float(image.get("width")))

    def check_labels(self, group, width):
        """No label stands over another, or outside of the picture."""
        spans = []
        for it in group.findall(SVG + "text"):
            size = len(it.text) * SIGN
            start = float(it.get("x")) - (size / 2 if it.get("text-anchor") else 0)
            spans.append((float(it.get("y")), start, start + size))
        for (y, _, end), (next_y, start, _) in zip(sorted(spans), sorted(spans)[1:]):
            self.assertTrue(y != next_y or end <= start)
            self.assertLess(end, width)

    def test_too_many(self):
        text = listing_of((0, 0, ["1A out"])) + "".join(f"out 0 1A @{tick} 1\n" for tick in range(1, 502)) + "end stopped\n"
        answer = called("trace-msc", text=text)
        self.assertEqual((answer.returncode, answer.stdout), (1, ""))
        self.assertEqual(answer.stderr, "more than 500 records: choose some with --from TICK and --to TICK, or the words alone with --channels\n")
        self.assertEqual(called("trace-msc", "--to", "500", text=text).returncode, 0)
        self.assertEqual(called("trace-msc", "--text", text=text).returncode, 0)
