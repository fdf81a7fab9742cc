"""Timing diagrams, as columns and as SVG."""

import itertools
import os
import re
import subprocess
import sys
import unittest
import xml.etree.ElementTree as tree

from .samples import KEPT, PULSE, TOP, data, listing_of, output_of_example

SVG = "{http://www.w3.org/2000/svg}"
SIGN = 7.3  # how wide a sign of 12 px is in a usual font, rounded up


def drawn(*words, text=None, columns="100"):
    """What trace-svg writes with these words, and with a text on standard input."""
    command = [sys.executable, os.path.join(TOP, "tools", "trace-svg"), *words]
    places = {**os.environ, "COLUMNS": columns}
    return subprocess.run(command, input=text, capture_output=True, encoding="utf-8", check=True, env=places).stdout


def many(count):
    """An output of so many records: of a narrow and a wide port by turns, at uneven distances, and with the longest values."""
    listing = listing_of((0, 0, ["1A out", "32A out"]))
    ticks = itertools.accumulate(itertools.cycle([1, 7, 100, 30000, 13]))
    ports = itertools.cycle(["1A {}", "32A {}", "1A {}"])
    lines = []
    for number, tick, port in zip(range(count), ticks, ports):
        front, value = port.split()[0], number % 2 if port.startswith("1A") else 4294967295 - number
        lines.append(f"out 0 {front} @{tick % 65536} {value}\n")
    return listing + "".join(lines) + "end stopped\n"


class Columns(unittest.TestCase):
    def check_drawn(self, expected, *words, **given):
        self.assertEqual(drawn("--text", *words, **given).splitlines()[: len(expected)], expected)

    def test_levels(self):
        expected = [
            "tick           100     350",
            "core 0",
            "  1A out    ...|‾‾‾‾‾‾‾\\______",
            "",
            "  __/‾‾ \\__  a port of one bit: low, high; | an output without an edge",
        ]
        self.check_drawn(expected, text=PULSE)

    def test_range(self):
        self.check_drawn(["tick           350", "core 0", "  1A out    ‾‾‾\\______"], "--from", "101", text=PULSE)
        self.check_drawn(["tick           100", "core 0", "  1A out    ...|‾‾‾‾‾‾"], "--to", "349", text=PULSE)
        self.check_drawn(["no records", "end finished"], "--from", "101", "--to", "349", text=PULSE)

    def test_each_kind_of_row(self):
        expected = [
            "tick           500   501             600   601",
            "core 0",
            "  8A out    .........................|255--------",
            "  8A in     .....................................",
            "  8A pins   0------------------------------------",
            "  1B in     ...v1................................",
            "  1B pins   ___/‾‾‾‾‾‾‾‾‾‾‾‾‾‾‾‾‾‾‾‾‾‾‾‾‾‾‾‾‾‾‾‾‾",
            "  words",
            "  errors",
            "core 3",
            "  32A out   .....................................",
            "  words              0>7                   0>8",
            "",
            "tick           650     700            ~65539",
            "stamp          @650    @700            @3",
        ]
        self.check_drawn(expected, "--lockstep", "--stimulus", data("two_cores.stim"), data("two_cores.out"), columns="60")

    def test_several_at_one_tick(self):
        expected = ["tick           0       1              ~4464", "core 0", "  4A out    ...|5, 9-------------------|5------"]
        self.check_drawn([*expected, "  threads              =0 ready pc 3"], data("script.out"))

    def test_lines_fit(self):
        for columns in (40, 80, 200):
            text = drawn("--text", text=many(200), columns=str(columns))
            rows = [line for line in text.splitlines() if re.match(r"tick|stamp|  \d+A", line)]
            self.assertLessEqual(max(map(len, rows)), columns)
            edges = re.findall(r"[/\\|]", "".join(line for line in rows if line.startswith("  1A")))
            self.assertEqual(len(edges), 133)  # two of each three, and one of the last two


class Pictures(unittest.TestCase):
    def test_well_formed_and_by_itself(self):
        for output in KEPT:
            text = drawn("--lockstep", text=output)
            names = {element.tag for element in tree.fromstring(text).iter()}
            known = {"svg", "title", "style", "rect", "g", "text", "polyline", "polygon", "path", "circle"}
            self.assertLessEqual(names, {SVG + it for it in known})
            self.assertNotRegex(text, "font-face|url|href|import")
            self.assertIn("@media (prefers-color-scheme: dark)", text)

    def test_edges_have_stamps(self):
        texts = self.texts(drawn(text=output_of_example("bus")))
        for label in ("@8", "@1000", "@1500", "@65535", "@2000", "67536", "85", "44", "1A out", "8B out", "end finished"):
            self.assertIn(label, texts)

    def test_arrows_go_between_cores(self):
        text = drawn("--lockstep", data("two_cores.out"))
        ways = re.findall(r'<path class="word" d="M\S+ (\S+)V(\S+)"/>', text)
        rows = {it.text: float(it.get("y")) for it in tree.fromstring(text).iter(SVG + "text") if it.text == "core 3"}
        sent, taken = map(float, ways[0])
        self.assertLess(sent, rows["core 3"])
        self.assertGreater(taken, rows["core 3"])

    def texts(self, text):
        return [it.text for it in tree.fromstring(text).iter(SVG + "text")]

    def test_readable_however_many(self):
        for count in (1, 20, 500):
            image = tree.fromstring(drawn(text=many(count)))
            self.assertLessEqual(float(image.get("width")), 1200)
            labels = 0
            for band in image.findall(SVG + "g"):
                labels += self.check_band(band, float(image.get("width")))
            self.assertGreaterEqual(labels, 2 * count)

    def check_band(self, band, width):
        """No label of a band stands over another. Returns how many there are."""
        texts = [(float(it.get("y")), float(it.get("x")), it.text) for it in band.findall(SVG + "text")]
        for (y, x, label), (next_y, next_x, _) in zip(sorted(texts), sorted(texts)[1:]):
            if y == next_y:
                self.assertLessEqual(x + len(label) * SIGN, next_x, label)
            self.assertLess(x + len(label) * SIGN, width)
        return len(texts)

    def test_without_records(self):
        texts = self.texts(drawn(text=listing_of((0, 0, [])) + "end finished\n"))
        self.assertEqual(texts, ["no records, end finished"])
