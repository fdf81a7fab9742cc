"""The scripts of bench/, each as a whole, where programs that write what they are told stand for the kit and for what it builds."""

import json
import os
import re
import shutil
import subprocess
import tempfile
import unittest

from .samples import TOP, written

# What stands for a built program: the line that it writes, by its name.
LINES = {
    "time_lexer": "12 tokens 34 microseconds",
    "time_parser": "12 tokens 3 items rule 0 34 microseconds",
    "time_names": "rule 0 34 microseconds",
    "time_needs": "rule 0 34 microseconds",
    "time_stimulus": "12 lines of the stimulus, 34 microseconds",
    "time_flat": "1 instances 2 variables rule 0 40 microseconds\n1 instances 2 variables rule 0 34 microseconds",
    "time_core": "3200 50\n3200 20\n3200 40",
    "time_windows": "34 56",
    "xt_core": "turns.txt: 1 cases, 0 differ",
}
RT = """\
#!/bin/sh
case $1 in
version) echo a kit ;;
ci) echo 'rt: ok' ;;
try) for n in 0 1 2 3 4 5 6 7 8 9 10 11 12 13 14 15 16 17 18 19 20 21 22 23; do echo "$n 0"; done ;;
*) mkdir -p out; cp "{programs}/${{PWD##*/}}" out/ ;;
esac
"""
BUILD = "#!/bin/sh\nmkdir -p crates/$1/out; cp '{programs}/'$1 crates/$1/out/\n"
VALGRIND = '#!/bin/sh\nfor last; do :; done\n[ "$last" = 0 ] && echo "==1== Collected : 1000" >&2 || echo "==1== Collected : 21000" >&2\n'
XT_PROGRAMS = "#!/bin/sh\nif grep -q copies listings.txt; then echo a case is too long; else echo listings.txt: 1 cases, 0 differ; fi\n"
XCSIM = "#!/bin/sh\ncase $1 in\ncheck) ;;\nasm) printf '0: LDC r0, 1 @1:1\\n1: BRBU 0 @1:1\\n' ;;\n*) exit 4 ;;\nesac\n"
REFUSES = "#!/bin/sh\necho \"$2:1:1: rule 299\" >&2\nexit 1\n"
WANTS = r"""
#include <stdlib.h>
#include <unistd.h>
/* three allocations: of the words, of what can do with less, and of what is needed */
int main(void) {
    if (!malloc(8)) return 12;
    free(malloc(8));
    if (!malloc(8)) { (void)!write(2, "out of memory\n", 14); return 12; }
    return (int)write(1, "trace\n", 6) - 6;
}
"""


class Scripts(unittest.TestCase):
    @classmethod
    def setUpClass(cls):
        cls.room = tempfile.TemporaryDirectory()
        cls.addClassCleanup(cls.room.cleanup)
        cls.top, programs = (os.path.join(cls.room.name, it) for it in ("top", "programs"))
        shutil.copytree(os.path.join(TOP, "bench"), os.path.join(cls.top, "bench"), ignore=shutil.ignore_patterns("*.jsonl"))
        shutil.copytree(os.path.join(TOP, "examples"), os.path.join(cls.top, "examples"))
        os.symlink(os.path.join(TOP, "docs"), os.path.join(cls.top, "docs"))
        for name in os.listdir(os.path.join(TOP, "crates")):
            os.makedirs(os.path.join(cls.top, "crates", name))
        for path in (("xc_disjoint", "src"), ("xt_front", "proofs"), ("xt_core", "data")):
            os.symlink(os.path.join(TOP, "crates", *path), os.path.join(cls.top, "crates", *path))
        for name in ("crates.txt", "HANDLES"):
            shutil.copy(os.path.join(TOP, name), cls.top)
        for name, line in LINES.items():
            cls.put(f"#!/bin/sh\necho '{line}'\n", programs, name)
        cls.put(RT.format(programs=programs), cls.room.name, "bin", "rt")
        for name, text in (("valgrind", VALGRIND), ("perf", "#!/bin/sh\nexit 1\n"), ("clang", "#!/bin/sh\nexit 1\n")):
            cls.put(text, cls.room.name, "bin", name)
        cls.put(BUILD.format(programs=programs), cls.top, "tools", "build")
        cls.put("#!/bin/sh\n", cls.top, "xcsim")
        cls.put(XCSIM, cls.top, "crates", "xcsim", "out", "xcsim")
        cls.put(XT_PROGRAMS, cls.top, "crates", "xt_programs", "out", "xt_programs")

    @staticmethod
    def put(text, *path):
        os.makedirs(os.path.dirname(os.path.join(*path)), exist_ok=True)
        with open(os.path.join(*path), "w", encoding="utf-8") as file:
            file.write(text)
        os.chmod(os.path.join(*path), 0o755)

    def call(self, name, *words, status=0):
        env = {**os.environ, "PATH": f"{self.room.name}/bin:{os.environ['PATH']}"}
        done = subprocess.run([f"{self.top}/bench/{name}", *words], env=env, capture_output=True, text=True, check=False)
        self.assertEqual((done.returncode, done.stderr), (status, ""), f"{name}: {done.stdout}")
        return done.stdout

    def tables(self, name, *words, status=0):
        """What a call of a script stores."""
        self.call(name, *words, status=status)
        stored = json.loads(written(os.path.join(self.top, "bench", "results", f"{name}.jsonl")).splitlines()[-1])
        self.assertEqual(sorted(stored), ["commit", "date", "figures", "kit", "machine"])
        self.assertEqual(stored["kit"], "a kit")
        return stored["figures"]

    def test_help(self):
        """Each tells its words, and README has a row for each."""
        names = sorted(it.name for it in os.scandir(os.path.join(TOP, "bench")) if it.is_file() and "." not in it.name)
        self.assertEqual(len(names), 19)
        for name in names:
            self.assertIn(f"usage: bench/{name} ", self.call(name, "--help"))
        self.assertEqual(sorted(re.findall(r"^\| `(\w+)", written(os.path.join(TOP, "bench", "README.md")), re.MULTILINE)), names)

    def test_lexer(self):
        rows = self.tables("lexer")["texts"]
        self.assertEqual(len(rows), 12 * 4)
        self.assertEqual(rows[0], {"shape": "comment", "size": 32768, "tokens": 12, "microseconds": 34, "instructions": 2100})
        self.assertEqual(rows[1]["growth"], 1.0)

    def test_parser(self):
        rows = self.tables("parser")["texts"]
        self.assertEqual((len(rows), rows[0]["items"], rows[0]["rule"]), (10 * 4, 3, 0))
        self.assertEqual("kilobytes" in rows[0], shutil.which("time") is not None)

    def test_names(self):
        rows = self.tables("names")["programs"]
        sizes = {row["shape"]: row["size"] for row in rows[3::4]}
        self.assertEqual(sizes, {"forwards": 10000, "backwards": 10000, "cycle": 10000, "scope": 20000})
        self.assertEqual(rows[0]["instructions"], 2000)

    def test_needs(self):
        found = self.tables("needs")
        self.assertEqual((len(found["kernels"]), found["kernels"][3]["size"]), (8 * 4, 100000))
        self.assertEqual(found["stacks"][7], {"shape": "pars", "stack in KB": 1024, "is enough": "yes", "rule": 0, "microseconds": 34})

    def test_stimulus(self):
        rows = self.tables("stimulus")["texts"]
        self.assertEqual((len(rows), rows[-1]), (4 * 3, {"shape": "wide", "size": 100000, "lines": 12, "microseconds": 34}))

    def test_flat(self):
        rows = self.tables("flat")["programs"]
        self.assertEqual((len(rows), rows[0]["program"], rows[0]["microseconds"]), (8, "branches", 34))
        self.assertIn("23 0", self.call("flat", "--unproved"))

    def test_code(self):
        rows = self.tables("code")["assignments"]
        self.assertEqual((len(rows), rows[0], rows[-1]["here"]), (20, {"z = ..": "x", "here": 4}, 23))

    def test_core(self):
        rows = self.tables("core")["works"]
        self.assertEqual(rows[0], {"work": "arithmetic", "steps": 3200, "microseconds": 20, "rounds a second": 5_000_000_000})
        self.assertEqual([row["work"] for row in rows], ["arithmetic", "memory", "ring"])

    def test_windows(self):
        found = self.tables("windows", "1000", "2")
        self.assertEqual(found["the run"], [{"ticks": 1000, "records": 56, "rounds": 2}])
        self.assertEqual([row["way"] for row in found["milliseconds"]], ["rounds", "alone", "1", "2", "4", "side"])
        self.assertEqual(found["ratios"][3], {"way": "4", "of": "1", "middle": 1.0, "of the least": 1.0})
        libraries = os.path.join(self.top, "crates", "xcsim", "out", "rlib")
        self.put("a library", libraries, "xw_io.rlib", "code")
        self.put("its sum", libraries, "xw_io.sum")
        with tempfile.TemporaryDirectory() as folder:
            self.call("windows", "--unstored", "1000", "1", folder)
            out = os.path.join(folder, "crates", "time_windows", "out")
            self.assertEqual((sorted(os.listdir(out)), sorted(os.listdir(f"{out}/rlib"))), (["rlib", "time_windows"], ["xw_io.rlib", "xw_io.sum"]))

    def test_gate(self):
        with tempfile.TemporaryDirectory() as folder:
            whole = self.tables("gate", os.path.join(folder, "log"))["the whole gate"]
            self.assertEqual((whole[0]["last line"], written(os.path.join(folder, "log"))), ("rt: ok", "rt: ok\n"))

    def test_image(self):
        rows = self.tables("image")["cases"]
        self.assertEqual([row["is right"] for row in rows], ["yes", "yes"])
        self.assertTrue(self.call("image", "--case").startswith("case calls and branches"))

    def test_bounds(self):
        """The program that stands here tells none."""
        rows = self.tables("bounds", status=1)["loops"]
        self.assertEqual([(row["instructions"], row["is right"]) for row in rows], [(2, "no")] * 3)

    def test_run(self):
        rows = self.tables("run")["programs"]
        self.assertEqual([(row["program"], row["status"]) for row in rows], [("empty", 4), ("busy", 4), ("full", 4)])

    def test_fuzz(self):
        """The program that stands here answers nothing as it should."""
        with tempfile.TemporaryDirectory() as folder:
            found = self.tables("fuzz", "--cases", "3", "--shrink", "1", "--keep", folder, status=1)
            self.assertEqual([found["all"][0][it] for it in ("seed", "cases", "failed")], [1, 3, 3])
            self.assertEqual(sorted(os.listdir(folder)), ["1-0", "1-1", "1-2"])
            again = os.path.join(folder, "1-2", "smaller", "case.json")
            self.assertRegex(self.call("fuzz", "--again", again, status=1), r"\Awrong, ")

    def test_programs(self):
        found = self.tables("programs")
        self.assertEqual([len(rows) for rows in found.values()], [6, 3, 2])
        self.assertEqual((found["loops"][0]["here"], found["loops"][0]["its loop"]), (0, 2))
        self.assertEqual((found["long texts"][1]["bytes"], found["long texts"][1]["instructions"]), (262144, 2))

    def test_waiting(self):
        rows = self.tables("waiting")["eight threads"]
        self.assertEqual([row["waits"] for row in rows], ["often", "seldom"])
        self.assertIn("here, ms", rows[0])

    def test_selects(self):
        rows = self.tables("selects")["eight threads"]
        self.assertEqual([row["waits"] for row in rows], ["often", "seldom"])
        self.assertIn("here, ms", rows[0])

    def test_links(self):
        rows = self.tables("links")["four cores"]
        self.assertEqual([row["four cores"] for row in rows], ["ring of four", "ring of 32", "pairs"])
        self.assertIn("here, ms", rows[0])

    def test_programs_that_are_refused(self):
        """Then nothing is stored."""
        built = ("crates", "xcsim", "out", "xcsim")
        self.addCleanup(self.put, written(os.path.join(self.top, *built)), self.top, *built)
        self.put(REFUSES, self.top, *built)
        for name in ("selects", "links"):
            stored = os.path.join(self.top, "bench", "results", f"{name}.jsonl")
            before = written(stored) if os.path.exists(stored) else ""
            done = subprocess.run([f"{self.top}/bench/{name}"], capture_output=True, text=True, check=False)
            self.assertEqual((done.returncode, done.stdout), (1, ""))
            self.assertRegex(done.stderr, rf"\Abench/{name}: xcsim refuses the program, and nothing was measured: .*:1:1: rule 299\n\Z")
            self.assertEqual(written(stored) if os.path.exists(stored) else "", before)

    @unittest.skipUnless(shutil.which("cc") and shutil.which("gcc"), "there is no C compiler")
    def test_with_an_interpreter(self):
        """Which gcc compiles."""
        source = os.path.join(self.room.name, "interpreter.c")
        self.put('#include <stdio.h>\nint main(void) { puts("steps 3200 seconds 0.000010"); return 3; }\n', source)
        self.assertEqual(self.tables("core", source)["works"][0]["ratio"], 2.0)
        found = self.tables("programs", source)
        self.assertEqual(found["loops"][0]["interpreter's"], 320.0)
        self.assertIn("interpreter, ms", found["eight threads"][0])
        for name in ("waiting", "selects"):
            self.assertEqual(self.tables(name, source)["eight threads"][0]["same trace"], "yes")
        self.assertEqual(self.tables("links", source)["four cores"][0]["same trace"], "yes")

    @unittest.skipUnless(shutil.which("cc"), "there is no C compiler")
    def test_refuse_memory(self):
        """A program of three allocations, each of which is refused once."""
        source = os.path.join(self.room.name, "wants.c")
        self.put(WANTS, source)
        built = os.path.join(self.top, "crates", "xcsim", "out", "xcsim")
        kept = written(built)
        self.addCleanup(self.put, kept, built)
        os.unlink(built)
        subprocess.run(["cc", "-o", built, source], check=True)
        turns = WANTS.replace('"trace\\n", 6) - 6', '"turns.txt: 1 cases, 0 differ\\n", 29) - 29')
        turns = turns.replace("if (!malloc(8)) return", "free(malloc(8)); if (!malloc(8)) return")
        self.put(turns, source)
        subprocess.run(["cc", "-o", os.path.join(self.room.name, "programs", "xt_core"), source], check=True)
        found = self.tables("refuse_memory")
        wanted = {"status": 0, "of the words": 1, "out of memory": 1, "without effect": 1, "wrong": 0}
        self.assertEqual(found["calls"][0], {"call": "run pulse.xc", **wanted})
        self.assertEqual(found["a core"], [{"call": "a core", **wanted, "of the words": 0, "out of memory": 2, "without effect": 2}])
