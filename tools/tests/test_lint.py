"""The house's limits: what is found beyond them, and that the crates keep them."""

import subprocess
import unittest
from pathlib import Path

from house.limits import Excess, long_bodies, long_clauses, missing_heads, names_in_many_crates, wide_specs
from house.rust import functions
from house.sources import Source

TOP = Path(__file__).resolve().parents[2]


def rust(*lines):
    return Source("crates/xa/src/a.rt", lines)


def spec(crate, *lines):
    return Source(f"crates/{crate}/specs/A.antt", lines)


class Functions(unittest.TestCase):
    def test_clauses_and_bodies(self):
        source = rust(
            "pub fn first(a: u32) -> u32",
            "    requires small { a < 3 }",
            "    ensures { result",
            "        ≡ a }",
            "{",
            "    a",
            "}",
            "",
            "pub fn law()",
            "    ensures so { IsSo }",
            "{}",
            "",
            "impl A {",
            "    fn inner(&self) -> u32 {",
            "        let b = 1;",
            "        b",
            "    }",
            "}",
        )
        found = [(it.name, [(c.kind, c.name) for c in it.clauses], it.length) for it in functions(source)]
        self.assertEqual(found, [
            ("first", [("requires", "small"), ("ensures", "")], 1),
            ("law", [("ensures", "so")], 0),
            ("inner", [], 2),
        ])

    def test_clause_is_one_line(self):
        source = rust("fn f()", "    ensures long { A", "        B }", "{}")
        self.assertEqual(next(functions(source)).clauses[0].text, "ensures long { A B }")


class Limits(unittest.TestCase):
    def test_clause_of_201_characters(self):
        for length, found in ((200, []), (201, [Excess("clause", "crates/xa/src/a.rt f so", 201)])):
            text = "ensures so { " + "a" * (length - 15) + " }"
            self.assertEqual(len(text), length)
            self.assertEqual(list(long_clauses([rust("fn f()", "    " + text, "{}")])), found)

    def test_body_of_61_lines(self):
        for length, found in ((60, []), (61, [Excess("body", "crates/xa/src/a.rt f", 61)])):
            self.assertEqual(list(long_bodies([rust("fn f() {", *["    a();"] * length, "}")])), found)

    def test_columns(self):
        source = spec("xa", "-- A.", "a" * 140, "a" * 141, "use " + "a" * 150)
        self.assertEqual(list(wide_specs([source])), [Excess("columns", "crates/xa/specs/A.antt", 1)])

    def test_heads(self):
        self.assertEqual(list(missing_heads([spec("xa", "-- A."), spec("xb", "use A")])), [Excess("head", "crates/xb/specs/A.antt", 1)])

    def test_names(self):
        files = [spec(f"x{n}", "abbrev pub of_one : ℕ", "pub record Two : Type 0 where", "hidden : ℕ") for n in range(3)]
        self.assertEqual(list(names_in_many_crates(files[:2])), [])
        self.assertEqual(list(names_in_many_crates(files)), [Excess("name", "Two", 3), Excess("name", "of_one", 3)])


class Crates(unittest.TestCase):
    def test_limits_are_kept(self):
        done = subprocess.run([TOP / "tools" / "lint"], capture_output=True, text=True, check=False)
        self.assertEqual((done.returncode, done.stdout), (0, ""))


if __name__ == "__main__":
    unittest.main()
