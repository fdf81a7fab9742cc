"""How the commands answer: help, status, and what they say on standard error."""

import os
import subprocess
import sys
import unittest

from .samples import PULSE, TOP, example, listing_of, written

TOOLS = ["trace-vcd", "trace-svg"]
OTHERS = ["trace-msc", "annotate", "explain", "stim-from-vcd", "stim-from-trace"]


def called(tool, *words, text=""):
    command = [sys.executable, os.path.join(TOP, "tools", tool), *words]
    return subprocess.run(command, input=text, capture_output=True, encoding="utf-8", check=False)


class AllCommands(unittest.TestCase):
    def test_help_has_an_example_and_is_told_by_the_launcher(self):
        told = written(os.path.join(TOP, "tools", "help.txt"))
        for tool in [*TOOLS, *OTHERS]:
            answer = called(tool, "--help")
            self.assertEqual((answer.returncode, answer.stderr), (0, ""))
            self.assertRegex(answer.stdout, rf"\nexamples?:\n(.*\n)*.*tools/{tool} ")
            self.assertIn(f"\n  tools/{tool} ", told)

    def test_wrong_words(self):
        for tool in [*TOOLS, *OTHERS]:
            answer = called(tool, "--fast")
            self.assertEqual((answer.returncode, answer.stdout), (2, ""))


class Commands(unittest.TestCase):
    def test_help_has_an_example(self):
        for tool in TOOLS:
            told = called(tool, "--help")
            self.assertEqual(told.returncode, 0)
            self.assertIn(f"example:\n  ./xcsim run examples/pulse.xc > pulse.out\n  tools/{tool} pulse.out > pulse.", told.stdout)

    def test_file_or_standard_input(self):
        path = example("pulse.out")
        for tool in TOOLS:
            self.assertEqual(called(tool, path).stdout, called(tool, text=written(path)).stdout)

    def check_refused(self, expected, *words, text=""):
        for tool in TOOLS:
            answer = called(tool, *words, text=text)
            self.assertEqual((answer.returncode, answer.stdout), (1, ""))
            self.assertTrue(answer.stderr.startswith(expected.format(tool=tool)), answer.stderr)
            self.assertEqual(answer.stderr.count("\n"), 1)

    def test_refused(self):
        expected = 'standard input:13: expected a record (out, in, com, err or show) or "end WORD"'
        self.check_refused(expected, text=PULSE.replace("\nend", "\nEND"))
        source = example("pulse.xc")
        self.check_refused(f'{source}:1: expected "code"', source)
        self.check_refused(f'{source}:1: expected "TICK CORE PORT VALUE"', example("pulse.out"), "--stimulus", source)

    def test_no_file(self):
        self.check_refused("{tool}: nowhere.out: No such file or directory", "nowhere.out")
        self.check_refused("{tool}: nowhere.stim: No such file or directory", example("pulse.out"), "--stimulus", "nowhere.stim")

    def test_wrong_words(self):
        for tool in TOOLS:
            self.assertEqual(called(tool, "--fast").returncode, 2)
        for word in ("-1", "x", "1.5", "\u0661"):
            self.assertEqual(called("trace-svg", "--from", word).returncode, 2)

    def test_too_many_records(self):
        listing = listing_of((0, 0, ["1A out"]))
        text = listing + "".join(f"out 0 1A @{tick} 1\n" for tick in range(1, 5002)) + "end stopped\n"
        answer = called("trace-svg", text=text)
        self.assertEqual((answer.returncode, answer.stdout), (1, ""))
        self.assertEqual(answer.stderr, "more than 5000 records: choose some with --from TICK and --to TICK\n")
        self.assertEqual(called("trace-svg", "--to", "20", text=text).returncode, 0)

    def test_reader_that_stops(self):
        text = listing_of((0, 0, ["1A out"])) + "".join(f"out 0 1A @{tick} 1\n" for tick in range(1, 20000)) + "end stopped\n"
        command = [sys.executable, os.path.join(TOP, "tools", "trace-vcd")]
        with subprocess.Popen(command, stdin=subprocess.PIPE, stdout=subprocess.PIPE, stderr=subprocess.PIPE) as process:
            process.stdin.write(text.encode())
            process.stdin.close()
            process.stdout.readline()
            process.stdout.close()
            self.assertEqual(process.stderr.read(), b"")
            self.assertEqual(process.wait(), 1)
