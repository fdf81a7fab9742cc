"""The launcher's own answers, and what a build tells: in a copy of the scripts, with a prover that only makes files."""

import os
import pty
import re
import shutil
import subprocess
import tempfile
import unittest

from .samples import TOP, written

RT = """\
#!/bin/sh
case $1 in
version) echo kit-0 ;;
doc) echo {room}/kit/START.md ;;
esac
"""
PROVER = """\
#!/bin/sh
while [ $# -gt 1 ]; do
    [ "$1" = --crate-name ] && name=$2
    [ "$1" = -o ] && out=$2
    shift
done
echo $name >> {room}/order
[ -e {room}/fails ] && [ $name = middle ] && echo "no proof" && exit 1
sleep 0.5
touch "$out"
"""
LINKER = """\
#!/bin/sh
while [ $# -gt 1 ]; do
    [ "$1" = -o ] && printf '#!/bin/sh\\necho ran "$@"\\n' > "$2" && chmod +x "$2"
    shift
done
"""


class Launcher(unittest.TestCase):
    def setUp(self):
        holder = tempfile.TemporaryDirectory()
        self.addCleanup(holder.cleanup)
        self.room = holder.name
        os.makedirs(f"{self.room}/tools")
        for name in ("xcsim", "tools/build", "tools/help.txt"):
            shutil.copy(os.path.join(TOP, name), f"{self.room}/{name}")
        self.put("crates.txt", "# the crates\nlow:\nmiddle: low\nxcsim: middle low\n")
        for crate, file in (("low", "lib.rt"), ("middle", "lib.rt"), ("xcsim", "main.rt")):
            self.put(f"crates/{crate}/src/{file}", "fn f() {}\n")
        for path, text in (("bin/rt", RT), ("kit/bin/rattle", PROVER), ("kit/bin/rattle-link", LINKER)):
            self.put(path, text.replace("{room}", self.room))
            os.chmod(f"{self.room}/{path}", 0o755)

    def put(self, path, text):
        os.makedirs(os.path.dirname(f"{self.room}/{path}"), exist_ok=True)
        with open(f"{self.room}/{path}", "w", encoding="utf-8") as file:
            file.write(text)

    def places(self, has_kit):
        return {"HOME": self.room, "PATH": f"{self.room}/bin:{os.environ['PATH']}" if has_kit else "/usr/bin:/bin", "COLUMNS": "60"}

    def called(self, *words, has_kit=True):
        command = [f"{self.room}/xcsim", *words]
        return subprocess.run(command, capture_output=True, encoding="utf-8", check=False, env=self.places(has_kit))

    def called_in_terminal(self, *words):
        """What a terminal gets of standard error."""
        above, below = pty.openpty()
        with subprocess.Popen([f"{self.room}/xcsim", *words], stdout=subprocess.DEVNULL, stderr=below, env=self.places(True)) as process:
            os.close(below)
            found = b""
            try:
                while piece := os.read(above, 4096):
                    found += piece
            except OSError:  # how Linux tells the end
                pass
            os.close(above)
            return process.wait(), found.decode()

    def test_help_comes_without_a_build(self):
        answer = self.called("--help", has_kit=False)
        self.assertEqual((answer.returncode, answer.stdout, answer.stderr), (0, written(f"{TOP}/tools/help.txt"), ""))
        self.assertFalse(os.path.exists(f"{self.room}/crates/xcsim/out"))

    def test_version_comes_without_a_build(self):
        answer = self.called("--version", has_kit=False)
        self.assertEqual((answer.returncode, answer.stderr), (0, ""))
        self.assertIn("not built yet", answer.stdout)
        self.assertEqual(self.called("--version").stdout.splitlines()[1], "kit kit-0")
        self.assertFalse(os.path.exists(f"{self.room}/crates/xcsim/out"))

    def test_version_names_the_commit(self):
        git = ["git", "-C", self.room, "-c", "user.name=x", "-c", "user.email=x@example.org"]
        subprocess.run([*git, "init", "-q"], check=True)
        subprocess.run([*git, "commit", "-q", "--allow-empty", "-m", "x", "--date", "2001-02-03T12:00:00"], check=True)
        commit = subprocess.run([*git, "rev-parse", "HEAD"], check=True, capture_output=True, text=True).stdout
        told = re.match(r"xcsim at the commit ([0-9a-f]{7,}) of \d{4}-\d\d-\d\d, not built yet\n", self.called("--version").stdout)
        self.assertTrue(commit.startswith(told[1]))
        subprocess.run([*git, "add", "xcsim"], check=True)
        self.assertRegex(self.called("--version").stdout, r"^xcsim at the commit [0-9a-f]{7,} of \d{4}-\d\d-\d\d with changes, not built yet\n")

    def test_other_words_go_to_the_program(self):
        for words in (["--help", "x"], ["run", "--help"], []):
            answer = self.called(*words)
            self.assertEqual((answer.returncode, answer.stdout), (0, " ".join(["ran", *words]) + "\n"))
        self.assertIn(", built\n", self.called("--version").stdout)

    def test_build_without_a_terminal(self):
        told = self.called().stderr.splitlines()
        self.assertEqual(written(f"{self.room}/order"), "low\nmiddle\nxcsim\n")
        self.assertRegex(told[0], r"^xcsim: proving and building the program: it needs about \d+ GB of memory")
        self.assertRegex(told[1], r"^xcsim: 3 of 3 crates proved and built in 0 min \d s$")
        self.assertEqual(len(told), 2)
        self.assertEqual(self.called().stderr, "")

    def test_build_in_a_terminal_stands_on_one_line(self):
        status, told = self.called_in_terminal()
        self.assertEqual(status, 0)
        front, *shown, last = told.split("\r\n")
        self.assertEqual((front[:8], last), ("xcsim: p", ""))
        lines = shown[0].split("\r\033[K")  # each stands in place of the one before
        said = "\n".join(re.sub(r"\d+ min \d+ s", "TIME", it) for it in lines)
        for line in ("0 of 3 crates, 0% of the work, TIME: low", "1 of 3 crates, 33% of the work, TIME: middle"):
            self.assertIn(f"xcsim: {line}\n", said)
        self.assertIn("xcsim: 2 of 3 crates, 67% of the work, TIME: xcsim\n", said)
        self.assertTrue(said.endswith("xcsim: 3 of 3 crates proved and built in TIME"))
        self.assertLess(max(map(len, lines)), 60)

    def test_failed_build(self):
        self.put("fails", "")
        answer = self.called("check", "a.xc")
        self.assertEqual((answer.returncode, answer.stdout), (70, ""))
        self.assertTrue(answer.stderr.endswith("no proof\nxcsim: the crate middle could not be built; what the prover said stands above\n"))
        os.remove(f"{self.room}/fails")
        self.assertEqual(self.called("check", "a.xc").stdout, "ran check a.xc\n")
        self.assertEqual(written(f"{self.room}/order"), "low\nmiddle\nmiddle\nxcsim\n")  # what was done is kept

    def test_without_the_kit(self):
        answer = self.called("check", "a.xc", has_kit=False)
        self.assertEqual((answer.returncode, answer.stdout, answer.stderr.count("\n")), (70, "", 1))


class Help(unittest.TestCase):
    def test_what_it_names_is_there(self):
        text = written(os.path.join(TOP, "tools", "help.txt"))
        self.assertLessEqual(max(map(len, text.splitlines())), 120)
        for path in re.findall(r"(?:tools|docs|examples)/[\w.-]+\w|README\.md", text):
            self.assertTrue(os.path.exists(os.path.join(TOP, path)), path)
