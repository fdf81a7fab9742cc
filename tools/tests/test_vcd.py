"""The dump of an output, as text and read back by other programs."""

import os
import re
import shutil
import subprocess
import sys
import tempfile
import unittest

from .samples import KEPT, PROGRAMS, TOP, data, listing_of, output_of_example

READERS = shutil.which("vcd2fst") and shutil.which("fst2vcd")

TWO_CORES = """\
$timescale 10 ns $end
$scope module core0 $end
$var wire 8 ! port_8A [7:0] $end
$var wire 8 " port_8A_in [7:0] $end
$var wire 1 # port_1B_in $end
$var event 1 $ com $end
$var wire 32 % com_value [31:0] $end
$var wire 1 & port_1B_pins $end
$var wire 8 ' port_8A_pins [7:0] $end
$upscope $end
$scope module core3 $end
$var wire 32 ( port_32A [31:0] $end
$var event 1 ) com $end
$var wire 32 * com_value [31:0] $end
$upscope $end
$enddefinitions $end
#0
$dumpvars
bx !
bx "
x#
bx %
0&
b0 '
bx (
bx *
$end
#1
1)
b111 *
#2
1)
b1000 *
#500
1&
1#
#600
b11111111 !
#650
b11111111111111111111111111111111 (
#700
b1001 '
b0 (
#65539
b1001 "
#65540
$comment err 0 3:9 arithmetic $end
$comment end stuck $end
#65541
"""


def dump_of(*words, text=None):
    """What trace-vcd writes with these words, and with a text on standard input."""
    command = [sys.executable, os.path.join(TOP, "tools", "trace-vcd"), *words]
    return subprocess.run(command, input=text, capture_output=True, text=True, check=True).stdout


def read_dump(text):
    """The changes of a dump: for each signal the ticks and values, by its scope and name. It knows only what is read back here."""
    names, changes, scope, now = {}, {}, "", 0
    head, _, body = text.partition("$enddefinitions $end")
    for line in head.splitlines():
        words = line.split()
        if words[:1] == ["$scope"]:
            scope = words[2]
        if words[:1] == ["$var"] and words[1] != "event":
            names[words[3]] = f"{scope}.{words[4]}"
            changes[names[words[3]]] = []
    for line in re.sub(r"\$comment.*?\$end", "", body, flags=re.DOTALL).splitlines():
        if line.startswith("#"):
            now = int(line[1:])
        elif match := re.fullmatch(r"b([01x]+) (\S+)|([01x])(\S+)", line):
            code = match[2] or match[4]
            if code in names:
                changes[names[code]].append((now, match[1] or match[3]))
    return changes


def value_at(changes, tick):
    """A signal's value at a tick, None where it is unknown."""
    value = [it for at, it in changes if at <= tick][-1]
    return None if "x" in value else int(value, 2)


def outputs_of_trace(text):
    """By the text of an output alone: what each port of core 0 output, and at which tick."""
    found, latest = {}, 0
    for port, stamp, value in re.findall(r"^out 0 (\w+) @(\d+) (\d+)$", text, re.MULTILINE):
        while latest % 65536 != int(stamp):
            latest += 1
        found.setdefault(port, []).append((latest, int(value)))
    return found, latest


class Dumps(unittest.TestCase):
    def test_whole_text(self):
        text = dump_of(data("two_cores.out"), "--stimulus", data("two_cores.stim"))
        self.assertEqual(text[text.index("$timescale") :], TWO_CORES)
        self.assertIn("A gap of a whole turn of 65536 ticks or more can't be seen", text)

    def test_without_stimulus_no_pins(self):
        self.assertNotIn("pins [", dump_of(data("two_cores.out")))

    def test_lockstep(self):
        changes = read_dump(dump_of(data("two_cores.out"), "--lockstep"))
        self.assertEqual([tick for tick, _ in changes["core3.com_value"]], [0, 501, 601])
        self.assertEqual([tick for tick, _ in changes["core3.port_32A"]], [0, 650, 66236])

    def test_range(self):
        words = ["--lockstep", "--stimulus", data("two_cores.stim"), "--from", "601", "--to", "700", data("two_cores.out")]
        _, _, body = dump_of(*words).partition("$enddefinitions $end\n")
        before = ["b11111111 !", 'bx "', "1#", "bx %", "1&", "b0 '", "bx (", "b111 *"]  # 255, 1 and 7 came before
        after = ["1)", "b1000 *", "#650", "b11111111111111111111111111111111 (", "#700", "b1001 '", "$comment end stuck $end", "#701"]
        self.assertEqual(body.splitlines(), ["#601", "$dumpvars", *before, "$end", *after])

    def test_range_without_changes(self):
        body = dump_of(data("script.out"), "--from", "5000").partition("$enddefinitions $end\n")[2]
        self.assertEqual(body.splitlines(), ["#5000", "$dumpvars", "b101 !", "$end", "$comment end stopped $end", "#5001"])

    def test_show_is_a_comment(self):
        text = dump_of(data("script.out"))
        self.assertIn("#0\n$dumpvars\nbx !\n$end\nb101 !\nb1001 !\n#1\n$comment show 0 0 ready pc 3 r0 0", text)
        self.assertTrue(text.endswith("#4464\nb101 !\n$comment end stopped $end\n#4465\n"))

    def test_more_signals_than_signs(self):
        ports = [f"{width}{letter} both" for width, letters in ((1, "ABCDEFGHIJKLMNOP"), (4, "ABCDEF"), (8, "ABCD")) for letter in letters]
        listing = listing_of((0, 0, ports), (1, 0, ports))
        text = dump_of(text=f"{listing}out 0 1A @5 1\nout 1 8D @6 129\nin 1 8D @7 130\nend finished\n")
        codes = re.findall(r"^\$var \w+ \d+ (\S+) ", text, re.MULTILINE)
        self.assertEqual((len(codes), len(set(codes))), (104, 104))
        changes = read_dump(text)
        self.assertEqual(changes["core0.port_1A"], [(0, "x"), (5, "1")])
        self.assertEqual(changes["core1.port_8D"], [(0, "x"), (6, "10000001")])
        self.assertEqual(changes["core1.port_8D_in"], [(0, "x"), (7, "10000010")])


@unittest.skipUnless(READERS, "vcd2fst and fst2vcd of gtkwave are missing")
class ReadBack(unittest.TestCase):
    """The dumps go through vcd2fst and fst2vcd, and have to say the same behind it."""

    def read_back(self, text):
        with tempfile.TemporaryDirectory() as room:
            dump, packed = os.path.join(room, "a.vcd"), os.path.join(room, "a.fst")
            with open(dump, "w", encoding="ascii") as file:
                file.write(text)
            packing = subprocess.run(["vcd2fst", dump, packed], capture_output=True, text=True, check=True)
            self.assertEqual((packing.stdout, packing.stderr), ("", ""))
            return subprocess.run(["fst2vcd", packed], capture_output=True, text=True, check=True).stdout

    def test_kept_outputs(self):
        for output in KEPT:
            text = dump_of(text=output)
            before, after = read_dump(text), read_dump(self.read_back(text))
            self.assertEqual(before.keys(), after.keys())
            for signal, changes in before.items():
                for tick in [0, *(at + step for at, _ in changes for step in (0, 1))]:
                    self.assertEqual(value_at(changes, tick), value_at(after[signal], tick), (output, signal, tick))

    def check_output(self, name, text):
        """Compares what is read back at ten instants with the trace."""
        changes = read_dump(self.read_back(dump_of(text=text)))
        found, last = outputs_of_trace(text)
        for port, outputs in found.items():
            for tick in [last * number // 9 for number in range(10)]:
                so_far = [None, *(value for at, value in outputs if at <= tick)]
                self.assertEqual(value_at(changes[f"core0.port_{port}"], tick), so_far[-1], (name, port, tick))

    def test_ten_instants_of_each_example(self):
        for name in PROGRAMS:
            self.check_output(name, output_of_example(name))
