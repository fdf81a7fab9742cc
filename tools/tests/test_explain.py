"""What explain tells: the rules in words, the lines of texts, and what may have been meant."""

import os
import re
import tempfile
import unittest

from diagnostics.answers import Finding, finding_of, shown
from diagnostics.hints import hint_of_grammar, names_of_words, unbuilt_words
from diagnostics.rules import read_rules
from diagnostics.source import Source
from diagnostics.words import read_words

from .samples import TOP, data, example, listing_of, output_of_example, refused_texts, written
from .test_commands import called

RULES = read_rules()
TOLD = [name for name in RULES if name.startswith("rule ") and not "rule 900" < name < "rule 999"]  # by docs/; the rules of scripts aren't yet
PAGES = os.path.join(TOP, "docs")


class Words(unittest.TestCase):
    """The words stand once: what docs/ has of them is what tools/rules.txt and tools/words.txt have."""

    def test_rows_of_the_pages(self):
        found = set()
        for name in (it for it in os.listdir(PAGES) if it.endswith(".md")):
            for row in re.findall(r"^\| \d{3,4} \|.*$", written(os.path.join(PAGES, name)), re.MULTILINE):
                number = row.split()[1]
                found.add(f"rule {number}")
                self.assertEqual(row, RULES[f"rule {number}"].row, f"{name} and tools/rules.txt")
        self.assertEqual(found & set(TOLD), set(TOLD))

    def test_the_answer_of_the_page(self):
        page = re.search(r"```\n(a\.xc:3:3: .*?)```", written(os.path.join(PAGES, "using.md")), re.DOTALL)[1]
        source = Source(b"int main(void) {\n  int x\n  x = 1;\n  return 0;\n}\n")
        self.assertEqual("".join(f"{line}\n" for line in shown(finding_of("a.xc:3:3: rule 201"), source)), page)

    def test_the_refused_stimulus_of_the_page(self):
        page = re.search(r"```\n(a\.stim:2:1: .*?)```", written(os.path.join(PAGES, "using.md")), re.DOTALL)[1]
        finding = shown(finding_of("a.stim:2: rule 802"), Source(b"7 0 1B 1\n6 0 1B 0\n"))
        self.assertEqual("".join(f"{line}\n" for line in finding), page)

    def test_statuses_of_the_language(self):
        page = written(os.path.join(PAGES, "language.md"))
        for rule in (it for name, it in RULES.items() if name.startswith("line ")):
            row = rule.row.replace("`the usage line`", "the usage line")
            self.assertIn("\n" + row[:-2], page)

    def test_kinds_of_errors(self):
        kinds = re.search(r"a trap: (.*) \|", written(os.path.join(PAGES, "machine.md")))[1]
        self.assertEqual([f"trap {it}" for it in re.findall("`(\\w+)`", kinds)], [it for it in RULES if it.startswith("trap ")])

    def test_each_has_words_and_most_have_help(self):
        self.assertEqual({name for name in RULES if name.startswith(("rule", "trap")) and not RULES[name].help}, {"rule 201"})
        for rule in RULES.values():
            self.assertFalse(rule.says.endswith("."), rule.name)
            self.assertFalse(rule.help and not rule.help.endswith((".", "`.")), rule.name)

    def test_words_of_the_language(self):
        page = written(os.path.join(PAGES, "language.md"))
        words, kept = re.search(r"These words aren't names: `([a-z\s]+)` and, kept for later, `([a-z\s]+)`", page).groups()
        groups = read_words()
        self.assertEqual(sorted(groups["kept"]), sorted(kept.split()))
        self.assertEqual(names_of_words(groups), {*words.split(), *kept.split()})
        self.assertEqual(len(words.split()), sum(len(groups[it]) for it in ("control", "types", "places", "conditions")))
        symbols = re.search(r"The symbols are `(.+?)` and\s+`(.+?)`", page).groups()
        self.assertEqual(groups["symbols"], " ".join(symbols).split())
        self.assertEqual(sorted(set(re.findall(r"`#include <(.+?)>`", page))), groups["headers"])


class Places(unittest.TestCase):
    def test_what_stands_there(self):
        source = Source(b"int a1=0x1F<<=b; /* x */\n\tc:>d;//e\n$\n")
        places = [(1, 5, "a1"), (1, 8, "0x1F"), (1, 12, "<<="), (1, 18, "/*"), (2, 3, ":>"), (2, 7, "//"), (3, 1, "$"), (4, 1, ""), (9, 1, "")]
        for line, column, text in places:
            self.assertEqual(source.at(line, column), text)

    def test_caret(self):
        source = Source("\tint count; // \u00e9\nx = '\u65e5\u672c' $;\n".encode())
        self.assertEqual(source.excerpt(1, 6), ("\tint count; // \u00e9", "\t    ^~~~~"))
        self.assertEqual(source.excerpt(2, 14), ("x = '\u65e5\u672c' $;", "           ^"))  # columns count bytes, and these letters are wide
        self.assertEqual(source.excerpt(3, 1), ("", "^"))
        self.assertIsNone(source.excerpt(4, 1))

    def test_long_lines_are_cut(self):
        shown_line, caret = Source(b" " * 500 + b"count" + b" " * 500).excerpt(1, 501)
        self.assertEqual((shown_line, caret), (".." + " " * 60 + "count" + " " * 55 + "..", " " * 62 + "^~~~~"))

    def test_tokens_in_front(self):
        source = Source(b"#define A 1\n  # define ( \n/* ( \n */ f ( // (\n  x\n")
        self.assertEqual([it[:] for it in source.tokens_before(6, 1)], [("f", 4, 5), ("(", 4, 7), ("x", 5, 3)])
        self.assertEqual([it.text for it in source.tokens_before(4, 7)], ["f"])


class Hints(unittest.TestCase):
    def test_what_may_be_meant(self):
        for text, expected in [
            ("int main(void) {\n  x = 1\n  @}", "Perhaps a `;` is missing behind the `1` of line 2, column 7."),
            ("int main(void) {\n  if (x) {\n  }\n@", "The `{` of line 1, column 16 isn't closed."),
            ("int main(void) { x = (1 + 2@; }", "The `(` of line 1, column 22 isn't closed."),
            ("int @float;", "`float` is kept for later: no form has it yet, and no name may be it."),
            ("int main(void) { int @in; }", "`in` is a word of the language, so nothing can have it as its name."),
            ("int x @= 3;", "Ports are all that is declared outside of functions: declare it in main, and hand it on as an argument."),
            ("int main(void) { if (x @= 1) ; }", "Nothing is changed inside an expression"),
            ("int main(void) { x = y @= 1; }", "Nothing is changed inside an expression"),
            ("int main(void) { x = 1 + f@(2); }", "A call stands by itself, or right behind `=` or `return`"),
            ("int main(void) { x = f(2) @+ 1; }", "A call stands by itself, or right behind `=` or `return`"),
            ("int main(void) { x = a[1]@[2]; }", "Arrays have one dimension"),
            ("int main(void) { int a[2] @= {1, 2}; }", "Arrays have no initial values"),
            ("int main(void) { select { case c :> x: y = 1; @} }", "Each case of a `select` ends with `break;`."),
            ("int main(void) { x = @; }", ""),
            ("int main(void) { for (int i@;;) ; }", ""),
            ("@x", ""),
        ]:
            front, _, _ = text.partition("@")
            line, column = front.count("\n") + 1, len(front) - front.rfind("\n")
            hint = hint_of_grammar(Source(text.replace("@", "").encode()), line, column)
            self.assertEqual((hint[: len(expected)], bool(hint)), (expected, bool(expected)), text)

    def test_words_that_are_not_built(self):
        definition = written(os.path.join(TOP, "crates", "xc_today", "specs", "Today.antt"))
        words = re.search(r"^later_words = (.*)", definition, re.MULTILINE)[1]
        self.assertEqual(unbuilt_words(), set(re.findall(r"words\.(\w+)_word", words)))
        self.assertEqual(unbuilt_words("nowhere.md"), set())


class Answers(unittest.TestCase):
    def told(self, line, text=""):
        return [*shown(finding_of(line), Source(text.encode()) if text else None)]

    def test_a_whole_answer(self):
        text = "int main(void) {\n  y = 1;\n  return 0;\n}\n"
        self.assertEqual(
            self.told("a b:c.xc:2:3: rule 301", text)[:4],
            [
                "a b:c.xc:2:3: error: `y` isn't known here [rule 301]",
                "    2 |   y = 1;",
                "      |   ^",
                "  rule: a name is used where it isn't known",
            ],
        )

    def test_without_the_text(self):
        self.assertEqual(self.told("a.xc:2:3: rule 301")[0], "a.xc:2:3: error: it isn't known here [rule 301]")

    def test_at_the_end(self):
        told = self.told("a.xc:2:1: rule 201", "int main(void) {\n")
        self.assertEqual(told[0], "a.xc:2:1: error: the text ends before the program does [rule 201]")
        self.assertEqual(told[-1], "  help: The `{` of line 1, column 16 isn't closed.")

    def test_lines_of_a_stimulus(self):
        self.assertEqual(
            self.told("s.txt:2: rule 804", "500 0 1B 1\n600 0 1B 2\n")[:3],
            ["s.txt:2:1: error: the value is too large for the port [rule 804]", "    2 | 600 0 1B 2", "      | ^~~"],
        )

    def test_what_has_no_place(self):
        self.assertEqual(self.told("no file x y"), ["x y: error: there is no such file"])
        self.assertEqual(self.told("out of memory"), ["xcsim: error: memory was wanting"])
        self.assertEqual(self.told("usage: xcsim check FILE | ..")[0], "xcsim: error: the words mean no command")

    def test_other_lines(self):
        for line in ("", "xcsim: 3 of 3 crates", "a.xc:1:1: rule 999", "a.xc:1:1: rules 101", "see no file"):
            self.assertIsNone(finding_of(line), line)

    def test_each_rule_can_be_told(self):
        for name in RULES:
            if name.startswith("rule"):
                told = self.told(f"a.xc:1:1: {name}", "x")
                self.assertEqual(told[0], f"a.xc:1:1: error: {RULES[name].says} [{name}]".replace("{}", "`x`"))


class Cases(unittest.TestCase):
    """The refused texts that the compiler's own cases have, with what each breaks and where."""

    def test_each_is_told_at_its_place(self):
        found = set()
        for text, number, line, column in refused_texts():
            rule, source = RULES[f"rule {number}"], Source(text.encode("latin-1"))
            told = [*shown(Finding("a.xc", line, column, rule), source)]
            self.assertTrue(told[0].startswith(f"a.xc:{line}:{column}: error: "), text)
            if "{}" in rule.says and number not in (101, 201):
                self.assertRegex(told[0], r"`\w+`", text)  # a name, a number or a word stands there
            if number in (501, 502, 503, 507, 701, 702, 703, 704):
                wanted = {501: "break continue", 502: "return", 503: "on", 507: "default"}.get(number, "main")
                self.assertIn(source.at(line, column), wanted.split(), text)
            found.add(number)
        self.assertLessEqual({*range(301, 306), *range(401, 417), *range(501, 510), *range(601, 607), *range(701, 707)}, found)


class Command(unittest.TestCase):
    def test_standard_error_goes_in(self):
        with tempfile.TemporaryDirectory() as room:
            path = os.path.join(room, "a.xc")
            with open(path, "w", encoding="utf-8") as file:
                file.write("int main(void) { return x; }\n")
            answer = called("explain", text=f"building\n{path}:1:25: rule 301\n")
        lines = answer.stdout.splitlines()
        self.assertEqual((answer.returncode, answer.stderr), (1, ""))
        self.assertEqual(lines[:2], ["building", f"{path}:1:25: error: `x` isn't known here [rule 301]"])
        self.assertEqual(lines[3], "      |" + " " * 25 + "^")

    def test_nothing_wrong(self):
        for text in ("", "accepted\n", output_of_example("bus")):
            self.assertEqual((called("explain", text=text).returncode, called("explain", text=text).stderr), (0, ""))

    def test_errors_of_a_run(self):
        source = example("outside.xc")
        answer = called("explain", "--source", source, text=output_of_example("outside"))
        lines = answer.stdout.splitlines()
        self.assertEqual(answer.returncode, 1)
        self.assertEqual(lines[0], f"{source}:12:5: error: the index isn't below the length of `a` [trap index]")
        self.assertEqual(lines[1], "   12 | " + written(source).splitlines()[11])
        self.assertIn("  note: on core 0, where a thread is trapped from there on", lines)

    def test_which_text_a_trace_is_of(self):
        answer = called("explain", data("two_cores.out"))
        self.assertEqual((answer.returncode, answer.stdout), (1, ""))
        self.assertEqual(answer.stderr, "a record doesn't tell which text it is of: name that with --source FILE\n")

    def test_a_trace_is_checked(self):
        answer = called("explain", text=listing_of((0, 0, [])) + "err 0 1:1 odd\nend stuck\n")
        self.assertEqual(answer.returncode, 1)
        self.assertTrue(answer.stderr.startswith('standard input:9: expected "err CORE LINE:COL KIND"'))
