"""The man page, the help text and the completions: that they tell the same words, and that shells complete them."""

import os
import re
import shutil
import subprocess
import tempfile
import unittest

from .samples import TOP, written

HELP = written(os.path.join(TOP, "tools", "help.txt"))
PAGE = os.path.join(TOP, "docs", "xcsim.1")
FOLDER = os.path.join(TOP, "tools", "completion")
COMMANDS = ["check", "run", "asm", "time"]
OPTIONS = ["--ticks", "--workers", "--help", "--version"]
ZSH = shutil.which("zsh")

# in a pseudo terminal of its own, as the completion system has it; what is offered is asked for by a widget
COMPLETE = """\
zmodload zsh/zpty
zpty -b z zsh -f -i
zpty -w z "PS1=; fpath=({folder} \\$fpath); autoload -Uz compinit; compinit -u -d {room}/dump; zstyle ':completion:*' format ''"
zpty -w z "LISTMAX=1000; bindkey '^I' complete-word; cd {room}; unsetopt automenu; compdef _xcsim xcsim; echo BEGIN"
zpty -r z told '*BEGIN*BEGIN*'
zpty -w -n z '{words}'$'\\t'$'\\t'
sleep {seconds}
zpty -w -n z $'\\n'
zpty -w z 'echo END'
zpty -r z told '*END*END*'
print -r -- "$told"
zpty -d z
"""


def plain(text):
    """A man page's text without its macros and marks."""
    return re.sub(r"\s+", " ", re.sub(r"^\.\w+ ?", "", text, flags=re.MULTILINE).replace("\\-", "-").replace('"', ""))


class Words(unittest.TestCase):
    def test_commands_and_options(self):
        self.assertEqual(re.findall(r"^  (\w+) FILE(?:  | SPEC )", HELP, re.MULTILINE), COMMANDS)
        self.assertEqual(re.findall(r"^  (--\w+) ", HELP, re.MULTILINE), OPTIONS)
        for command in COMMANDS:
            self.assertRegex(written(os.path.join(TOP, "docs", "language.md")), rf"\n\| `{command} FILE[^`]*` \|")

    def test_each_has_an_example(self):
        for word in [*COMMANDS, "--ticks", "--workers"]:
            self.assertRegex(HELP, rf"(?m)^  {word} .*\n +xcsim .*\b{word.lstrip('-')}\b", word)

    def test_man_page(self):
        text = written(PAGE)
        self.assertEqual(re.findall(r'^\.BI (\w+) " FILE(?: SPEC)?"$', text, re.MULTILINE), COMMANDS)
        found = re.findall(r"^\.BI? (\\-\\-\w+)", text[text.index(".SH OPTIONS") :], re.MULTILINE)
        self.assertEqual([it.replace("\\", "") for it in found], OPTIONS)

    def test_statuses(self):
        rows = re.findall(r"^\| (\d+) \| (.*?) \|", written(os.path.join(TOP, "docs", "language.md")), re.MULTILINE)
        statuses = [(number, meaning) for number, meaning in rows if len(number) < 3]
        page = written(PAGE)
        told = re.findall(r"^\.B (\d+)$", page[page.index(".SH EXIT STATUS") :], re.MULTILINE)
        self.assertEqual(told, [*(number for number, _ in statuses), "70"])
        for number, meaning in statuses:
            if number not in ("0", "3", "4", "5"):
                self.assertIn(f" {number} {meaning}", plain(page))

    def test_what_it_names_is_there(self):
        for path in re.findall(r"(?:tools|docs|examples)/[\w./\\-]+\w", written(PAGE)):
            self.assertTrue(os.path.exists(os.path.join(TOP, path.replace("\\", ""))), path)

    @unittest.skipUnless(shutil.which("mandoc"), "mandoc is missing")
    def test_mandoc_warns_of_nothing(self):
        told = subprocess.run(["mandoc", "-Tlint", "-W", "warning", PAGE], capture_output=True, text=True, check=False)
        self.assertEqual((told.returncode, told.stdout), (0, ""))

    @unittest.skipUnless(shutil.which("man") and shutil.which("groff"), "man is missing")
    def test_man_warns_of_nothing(self):
        places = {**os.environ, "LC_ALL": "C.UTF-8", "MANWIDTH": "100"}
        told = subprocess.run(["man", "--warnings", "-l", PAGE], capture_output=True, text=True, check=False, env=places)
        self.assertEqual((told.returncode, told.stderr), (0, ""))


class Completion(unittest.TestCase):
    def setUp(self):
        holder = tempfile.TemporaryDirectory()
        self.addCleanup(holder.cleanup)
        self.room = holder.name
        for name in ("bus.xc", "bits.xc", "bus.stim", "bus.routes", "notes.txt"):
            with open(os.path.join(self.room, name), "w", encoding="utf-8"):
                pass
        os.mkdir(os.path.join(self.room, "more"))

    def in_bash(self, *words):
        """What bash offers for the last of these words."""
        script = f'. {FOLDER}/xcsim.bash; COMP_WORDS=("$@"); COMP_CWORD=$(($# - 1)); _xcsim; printf "%s\\n" "${{COMPREPLY[@]}}"'
        told = subprocess.run(["bash", "-c", script, "bash", *words], cwd=self.room, capture_output=True, text=True, check=True)
        self.assertEqual(told.stderr, "")
        return sorted(told.stdout.split())

    def test_bash(self):
        for words, expected in [
            ([""], [*COMMANDS, "--help", "--version"]),
            (["c"], ["check"]),
            (["--v"], ["--version"]),
            (["run", "b"], ["bits.xc", "bus.xc"]),
            (["check", "m"], ["more"]),
            (["run", ""], ["bits.xc", "bus.xc", "more"]),
            (["run", "bus.xc", "-"], ["--ticks", "--workers"]),
            (["run", "bus.xc", "b"], ["bus.stim"]),
            (["time", "b"], ["bits.xc", "bus.xc"]),
            (["time", "bus.xc", "b"], ["bus.routes"]),
            (["check", "bus.xc", "b"], ["bits.xc", "bus.xc"]),
            (["asm", "-"], []),
            (["run", "--ticks", ""], []),
            (["run", "--workers", ""], []),
            (["run", "--ticks", "5", "bu"], ["bus.xc"]),
            (["walk", ""], []),
        ]:
            self.assertEqual(self.in_bash("xcsim", *words), sorted(expected), words)

    def in_zsh(self, words, expected):
        """What zsh shows behind these words, once it has had time enough to show what is expected."""
        for seconds in (1, 5, 20):
            script = COMPLETE.format(folder=FOLDER, room=self.room, words=words, seconds=seconds)
            told = subprocess.run([ZSH, "-f", "-c", script], capture_output=True, text=True, check=False, timeout=120).stdout
            if all(it in told for it in expected):
                break
        return told

    @unittest.skipUnless(ZSH, "zsh is missing")
    def test_zsh(self):
        subprocess.run([ZSH, "-n", f"{FOLDER}/_xcsim"], check=True)
        for words, expected, others in [
            ("xcsim ", [*COMMANDS, "say whether a text is accepted"], ["bus.xc"]),
            ("xcsim --", ["--help", "--version", "the commit"], ["bus.xc"]),
            ("xcsim run b", ["bits.xc", "bus.xc"], ["notes.txt"]),
            ("xcsim run --", ["--ticks", "--workers"], ["bus.xc"]),
            ("xcsim run bus.xc b", ["bus.stim"], ["notes.txt"]),
            ("xcsim time bus.xc b", ["bus.routes"], ["bus.stim"]),
        ]:
            told = self.in_zsh(words, expected)
            for it in expected:
                self.assertIn(it, told, words)
            for it in others:
                self.assertNotIn(it, told, words)
