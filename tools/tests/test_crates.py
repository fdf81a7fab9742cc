"""The table of crates."""

import os
import re
import unittest

from pages.crates import Crate, calls_of, cell_of_calls, direct, page, public_calls, read_crates, what_it_is

from .samples import TOP, written

ROOT = """\
//! Numbers that count
//! upward.
//!
//! They end.
#![tactic(auto)]

mod counter;
pub mod laws;

pub use counter::{Counter, Step, next};
"""

COUNTER = """\
pub struct Counter { at: u32 }

impl Counter {
    pub fn new() -> Counter
        ensures begins { result.now ≡ 0 }
    {
        Counter { at: 0 }
    }

    fn private(&self) -> u32
        ensures { result ≡ 0 }
    {
        0
    }
}

pub trait Step {
    fn step(&mut self)
        requires few { self.old < 8 }
        ensures stepped { self.new ≡ self.old + 1 }
        ensures { ⊤ };
}

impl Step for Counter {
    fn step(&mut self)
        ensures stepped { self.new ≡ self.old + 1 }
    {
        self.at += 1;
    }
}

pub fn next(n: u32) -> u32
    ensures { result ≡ n + 1 }
{
    n + 1
}

pub fn unseen(n: u32) -> u32
    ensures same { result ≡ n }
{
    n
}
"""


class Lines(unittest.TestCase):
    def test_headings_and_comments(self):
        crates = read_crates("# Base\na:\nb: a std # low\n\n# Top\nc: b a\n")
        self.assertEqual(crates, [Crate("a", "Base", ()), Crate("b", "Base", ("a", "std")), Crate("c", "Top", ("b", "a"))])

    def test_what_is_below_is_told_once(self):
        crates = {it.name: it for it in read_crates("a:\nb: a std\nc: b a serde\n")}
        self.assertEqual(direct(crates["c"], crates), ["b", "serde"])

    def test_first_paragraph(self):
        self.assertEqual(what_it_is(ROOT), "Numbers that count upward.")


class Calls(unittest.TestCase):
    def test_public_calls_with_their_clauses(self):
        calls = public_calls(ROOT, list(calls_of("counter", COUNTER)))
        self.assertEqual(cell_of_calls(calls), "`next`; `Counter::new` (begins); `Step::step` (stepped)")

    def test_public_modules(self):
        calls = public_calls(ROOT, list(calls_of("laws", "pub fn kept()\n    ensures stays { Stays }\n{}\n")))
        self.assertEqual(cell_of_calls(calls), "`kept` (stays)")


class Page(unittest.TestCase):
    def test_it_is_what_the_crates_say(self):
        self.assertEqual(written(os.path.join(TOP, "docs", "crates.md")), page(TOP), "tools/crates writes the page anew")

    def test_promises_name_calls_that_there_are(self):
        rows = {row.split(" | ")[0][2:]: row for row in page(TOP).splitlines() if row.startswith("| x")}
        promised = re.findall(r"^\| (x\w+) \| (.*?) \| ", written(os.path.join(TOP, "docs", "promises.md")), re.MULTILINE)
        for crate, calls in promised:
            for name in re.findall(r"`([\w:]+)`", calls):
                self.assertRegex(rows[crate], rf"\b{name.split('::')[-1]}\b", crate)
        self.assertEqual({crate for crate, row in rows.items() if "`" in row.split(" | ")[-1]} - {crate for crate, _ in promised}, {"xr_listed"})
