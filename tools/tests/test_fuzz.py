"""bench/fuzz: what it makes, and what it finds of a program that stands for xcsim."""

import collections
import os
import re
import subprocess
import sys
import tempfile
import unittest
from dataclasses import replace
from random import Random

from .samples import EXAMPLES, TOP, written

sys.path.insert(0, os.path.join(TOP, "bench"))

from lib import bounds, cases, fuzz, generate, mutate, verdicts

# Answers as xcsim should to the texts of the tests, but for those that hold the name of something wrong.
PROGRAM = r"""#!/bin/sh
refuses() { echo "$1" >&2; exit "$2"; }
case $1 in
check | asm | run) ;;
*) refuses "usage: xcsim check FILE | asm FILE | run FILE [STIM] [--ticks N] [--workers W] | debug FILE STIM SCRIPT | make N | bench N | time FILE SPEC" 2 ;;
esac
[ -e "$2" ] || refuses "no file $2" 6
read -r text < "$2"
case $text in
crash) kill -SEGV $$ ;;
hang) exec sleep 20 ;;
status) exit 14 ;;
refused) refuses "$2:1:1: rule 201" 1 ;;
torn) [ "$1" = check ] || refuses "$2:1:1: rule 201" 1 ;;
esac
[ "$1" = check ] && echo accepted && exit
printf 'code\n.core 0\n.words 516\n.timers 0\n.ends 0\n.port 1A out\n.root 0\n0: FREET @1:5\n'
[ "$1" = asm ] && exit
echo trace
case $text:$4 in
twice:) echo "com 0 $$" ;;
front:50000) echo com 0 1 ;;
wide:) echo out 0 1A @5 2 ;;
word:) echo end stuck; exit ;;
esac
echo end finished
"""
RUN = (b"run", b"a.xc")
LISTING = b"code\n.core 0\n.words 516\n.timers 0\n.ends 0\n.port 1A out\n.root 0\n0: FREET @1:5\n"


class Made(unittest.TestCase):
    def test_the_same_seed_gives_the_same_cases(self):
        texts = [b"int main(void) { return 0; }\n", b"void f(int a[4]) { a[3] = 09; }\n"]
        first, again, other = ([cases.case(seed, number, texts) for number in range(40)] for seed in (1, 1, 2))
        self.assertEqual(first, again)
        self.assertNotEqual(first, other)
        self.assertEqual([cases.read_case(it.written()) for it in first], first)
        self.assertEqual({it.kind for it in first}, {"program", "all forms", "changed", "extreme", "stimulus", "routes", "words"})

    def test_it_is_known_what_is_changed(self):
        texts = cases.stock()
        self.assertGreater(len(texts), 500)
        self.assertIn(written(os.path.join(EXAMPLES, "pulse.xc")).encode(), texts)

    def test_programs_are_of_tokens_and_balanced(self):
        symbols = {*mutate.WORDS} - set('# $ " /* */ //'.split())
        numbers = {*generate.NUMBERS, *map(str, range(20_000))}
        for number in range(12):
            text = generate.program(Random(number), number % 2 == 1)
            self.assertLess(len(text), mutate.LONGEST)
            found = mutate.tokens(text.encode())
            self.assertEqual(b"".join(found), text.encode())
            opened = []
            for it in (it.decode() for it in found if not it.isspace() and it[:2] not in (b"//", b"/*")):
                if it in "([{":
                    opened.append(it)
                elif it in ")]}":
                    self.assertEqual(opened.pop() + it, {")": "()", "]": "[]", "}": "{}"}[it])
                elif text.startswith("#") and it in ("#", "include", "xs1", ".", "h"):
                    continue
                elif it[0].isdigit():
                    self.assertIn(it, numbers)
                else:
                    self.assertTrue(it in symbols or re.fullmatch(r"[a-zA-Z_]\w*", it), it)
            self.assertEqual(opened, [])
            self.assertEqual(text.count("int main("), 1)

    def test_only_programs_of_all_forms_have_those_that_are_not_built(self):
        found = collections.Counter()
        for number in range(25):
            text, whole = (generate.program(Random(number), it).encode() for it in (False, True))
            self.assertFalse(verdicts.is_unbuilt(text))
            found.update(re.findall(rb"\b(?:master|slave)\b", whole))
        self.assertEqual(len(found), 2)

    def test_what_is_not_built(self):
        page = "What isn't built yet is what a text\ntells by one of the words `master slave`. Rule 299 is broken"
        self.assertEqual(verdicts.words_of_rule_299(page), ["master", "slave"])
        self.assertLessEqual(set(verdicts.UNBUILT), {"master", "slave"})

    def test_each_name_is_declared_once_in_its_block(self):
        """The block of a function has its parameters too; the heads of loops are scopes of their own."""
        declared = re.compile(r"([{}])|(?<!for \()(?<!par \()\b(?:int|unsigned|timer|chan|chanend|port) &?([vtc]\d+)\b")
        for number in range(12):
            blocks, heads = [], []
            text = re.sub(r"//.*|/\*.*?\*/|\w+ f\d+\([^)]*\);$", "", generate.program(Random(number), number % 2 == 1), flags=re.MULTILINE)
            for sign, name in declared.findall(text):
                if sign == "{":
                    blocks.append(heads)
                    heads = []
                elif sign == "}":
                    names = blocks.pop()
                    self.assertEqual(len(names), len(set(names)), f"{number}: {names}")
                else:
                    (blocks[-1] if blocks else heads).append(name)

    def test_stimuli(self):
        for number in range(30):
            self.assertIsNone(verdicts.broken_line(mutate.stimulus(Random(number))))
        lines = [(b"7 0 1B 1\n6 0 1B 0", (2, 802)), (b"7 0 1B 2", (1, 804)), (b"\n7 4 1B 1\n", (2, 803)), (b"7 0 2B 1", (1, 803))]
        lines += [(b"500 0 1B", (1, 801)), (b"4294967296 0 1A 0", (1, 801)), (b"0 0 1A 0\r", (1, 801))]
        lines += [(b"4294967295 3 32A 4294967295\r\n", None), (b"# x\n  \n0 0 1A 0 ", None)]
        lines += [(b"\n" * 100_001, (100_001, 805)), (b"\n" * 100_000 + b"x", (100_001, 801)), (b"\n" * 100_000, None)]
        for text, wanted in lines:
            self.assertEqual(verdicts.broken_line(text), wanted, text[-30:])

    def test_routes(self):
        code = "code\n.core 0\n0: BRFT r0, 2 @1:1\n1: BRBU 0 @1:2\n2: FREET @1:3\n"
        forms = [(b"route 0 1:1 1:3 2\r\n\n# x\n  route  0 01:2  1:3 00 ", ([4, 1], None)), (b"route 0 1:2 1:2 1", ([2], None))]
        forms += [(b"route 0 1:1 1:3 2\r", ([], (1, 1001))), (b"route 0 1:1 1:3\nroute 4 1:1 1:3 0", ([], (1, 1001)))]
        forms += [(b"route 4 1:1 1:3 1001", ([], (1, 1002))), (b"route 0 9:9 1:3 0\nroute 0 1:1 1:3 1001", ([], (2, 1002)))]
        forms += [(b"route 0 1:1 9:9 0", ([], (1, 1003))), (b"route 3 1:1 1:3 0", ([], (1, 1003)))]
        forms += [(b"#\n" + b"route 0 1:1 1:3 0\n" * 17, ([], (18, 1005))), (b"route 0 1:1 1:3 0\n" * 16, ([0] * 16, None))]
        for text, wanted in forms:
            self.assertEqual(bounds.bounds(code, verdicts.lines_of(text)), wanted, text[-30:])
        for number in range(30):
            text = generate.program(Random(number)).encode()
            self.assertLessEqual(len(bounds.broken_route(verdicts.lines_of(mutate.routes(Random(number), text)))[0]), 16)

    def test_bounds_of_the_cases(self):
        """The numbers of the cases of xt_calls that were worked out by hand are those of their listings."""
        tried = 0
        for case in written(os.path.join(TOP, "crates", "xt_calls", "data", "routes.txt")).split("\n\n"):
            _, is_there, rest = case.partition("\nfile t.txt\n")
            shown = re.findall(r"^= (.*)$", case, re.MULTILINE)
            status = re.search(r"^status (\d+)$", case, re.MULTILINE)
            if not is_there or shown[:1] != ["code"] or status[1] not in ("0", "13"):
                continue
            text = "".join(f"{it[2:]}\n" if it[0] == "|" else it[2:] for it in rest.split("\n") if it[:1] in ("|", "/"))
            numbers, broken = bounds.bounds("\n".join(shown), verdicts.lines_of(text.encode()))
            self.assertEqual([it for it in shown if it.startswith("ticks")], [f"ticks {it}" for it in numbers], case)
            named = [f"t.txt:{broken[0]}: rule {broken[1]}"] if broken else []
            self.assertEqual(re.findall(r"^! (.*)$", case, re.MULTILINE), named, case)
            tried += 1
        self.assertGreater(tried, 5)

    def test_words(self):
        """Those of xt_calls that mean nothing, and others."""
        text = written(os.path.join(TOP, "crates", "xt_calls", "data", "words.txt"))
        block = next(it for it in text.split("\n\n") if it.startswith("case words that mean nothing"))
        for line in re.findall(r"^call ?(.*)$", block, re.MULTILINE):
            self.assertIsNone(verdicts.meant(tuple(it.encode() for it in line.split())), line)
        for line, wanted in (
            ("check a.xc", verdicts.Command(b"check", b"a.xc")),
            ("run --ticks 000005 a.xc s.txt", verdicts.Command(b"run", b"a.xc", b"s.txt", 5)),
            ("run a.xc -x", verdicts.Command(b"run", b"a.xc", b"-x")),
        ):
            self.assertEqual(verdicts.meant(tuple(line.encode().split())), wanted)

    def test_a_case_is_made_smaller(self):
        whole = cases.Case("changed", RUN, b"int a;\nint b; x = crash + 1;\nint c;\n", b"0 0 1A 1\n")
        less = cases.smaller(whole, lambda it: b"crash" in it.text, 100)
        self.assertEqual((less.text, less.stimulus), (b"crash", b""))
        self.assertEqual(cases.smaller(whole, lambda it: b"crash" in it.text, 0), whole)


class Found(unittest.TestCase):
    @classmethod
    def setUpClass(cls):
        cls.room = tempfile.TemporaryDirectory()
        cls.addClassCleanup(cls.room.cleanup)
        path = os.path.join(cls.room.name, "xcsim")
        with open(path, "w", encoding="utf-8") as file:
            file.write(PROGRAM)
        os.chmod(path, 0o755)
        cls.trial = fuzz.Trial(path, shrinks=0)

    def kind(self, text, words=RUN, trial=None, forms=""):
        found = (trial or self.trial).wrong(cases.Case("changed", words, text, None, forms))
        return found and found.kind

    def test_what_is_right(self):
        came = fuzz.Came()
        self.assertIsNone(self.trial.wrong(cases.Case("program", RUN, b"int main(void) { }", None, "built"), came))
        self.assertEqual((came.calls, came.statuses), (5, {"0": 1}))
        self.assertIsNone(self.kind(b"refused", (b"check", b"a.xc")))
        self.assertIsNone(self.kind(b"", (b"check", b"none.xc")))
        self.assertIsNone(self.kind(b"", (b"walk",)))

    def test_what_is_wrong(self):
        self.assertEqual(self.kind(b"crash"), "signal")
        self.assertEqual(self.kind(b"status"), "status")
        self.assertEqual(self.kind(b"word"), "status")
        self.assertEqual(self.kind(b"twice"), "differs")
        self.assertEqual(self.kind(b"torn", (b"check", b"a.xc")), "disagree")
        self.assertEqual(self.kind(b"front"), "front")
        self.assertEqual(self.kind(b"wide"), "trace")
        self.assertEqual(self.kind(b"refused", forms="built"), "refused")
        self.assertEqual(self.kind(b"", (b"run", b"a.xc", b"--ticks", b"0")), "words")

    def test_a_hang(self):
        self.assertEqual(self.kind(b"hang", trial=replace(self.trial, waits=0.2)), "hang")

    def test_another_trace_of_the_interpreter(self):
        path = os.path.join(self.room.name, "interpreter")
        with open(path, "w", encoding="utf-8") as file:
            file.write("#!/bin/sh\nprintf 'trace\\ncom 0 1\\nend finished\\n'\n")
        os.chmod(path, 0o755)
        self.assertEqual(self.kind(b"", trial=replace(self.trial, interpreter=path)), "reference")

    def test_forms_of_answers(self):
        def kind(text, status, out=b"", err=b"", words=RUN):
            with tempfile.TemporaryDirectory() as room:
                case = cases.Case("changed", words, text)
                case.put(room)
                try:
                    verdicts.judge(case, room, verdicts.Answer(status, out, err))
                except verdicts.Wrong as found:
                    return found.kind
            return None

        self.assertIsNone(kind(b"x\n", 1, err=b"a.xc:2:1: rule 201\n"))
        self.assertEqual(kind(b"x\n", 1, err=b"a.xc:3:1: rule 201\n"), "place")
        self.assertEqual(kind(b"x\n", 1, err=b"a.xc:1:1: rule 207\n"), "errors")
        self.assertEqual(kind(b"x\n", 1, b"code\n", b"a.xc:1:1: rule 201\n"), "errors")
        self.assertEqual(kind(b"x\n", 1, err=b"a.xc:1:1: rule 299\n"), "rule")
        for word in verdicts.UNBUILT:
            self.assertIsNone(kind(word.encode(), 1, err=b"a.xc:1:1: rule 299\n"))
        self.assertEqual(kind(b" " * 262_145, 1, err=b"a.xc:1:1: rule 305\n"), "rule")
        self.assertIsNone(kind(b"", 3, LISTING + b"trace\nerr 0 1:2 index\nend trapped\n"))
        self.assertEqual(kind(b"", 3, LISTING + b"trace\nend trapped\n"), "trace")
        self.assertEqual(kind(b"", 4, LISTING + b"trace\nin 0 1A @1 1\nend stopped\n"), "trace")
        self.assertEqual(kind(b"", 5, LISTING + b"trace\nend stopped\n"), "status")
        self.assertEqual(kind(b"", 0, LISTING.replace(b"0: ", b"1: ") + b"trace\nend finished\n"), "listing")
        self.assertEqual(kind(b"", 12, err=b"out of memory\n"), "errors")
        self.assertIsNone(kind(b"", 8, err=b"read fault folder\n", words=(b"check", b"folder")))
        self.assertIsNone(kind(b"", 7, err=b"too long long.xc\n", words=(b"check", b"long.xc")))
        self.assertIsNone(kind(b"", 15, words=(b"check", b"\xff")))

    def test_failures_are_kept(self):
        found = self.trial.came(7, cases.Case("changed", (b"check", b"a.xc"), b"crash")).failures[0]
        with tempfile.TemporaryDirectory() as folder:
            line = fuzz.keep(folder, 3, found)
            path = os.path.join(folder, "3-7", "smaller", "case.json")
            self.assertEqual(line, f"bench/fuzz --again {path}")
            self.assertEqual(cases.read_case(written(path)), found.smaller)
            self.assertIn("signal", written(os.path.join(folder, "3-7", "what")))

    def test_where_the_program_is_not_built(self):
        words = [os.path.join(TOP, "bench", "fuzz"), "--program", os.path.join(self.room.name, "none")]
        done = subprocess.run(words, capture_output=True, text=True, check=False)
        self.assertEqual((done.returncode, done.stdout), (2, ""))
        self.assertRegex(done.stderr, r"\Abench/fuzz: the program isn't there, and nothing was tried: ")
