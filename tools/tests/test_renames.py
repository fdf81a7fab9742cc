"""Older names: what stands for them today, and the moves of a step in a repository."""

import unittest

from renaming.older import older_now
from renaming.places import Step, antt_now, code_now, path_now, place_now, rust_now, words_now
from renaming.repository import crates_now, edit_now, files_now, is_done, joined, known_now, list_now, lists_now, no_longer_public, said_twice
from renaming.sweeps import SWEEPS
from renaming.tables import ORDER, STEPS, name_now
from renaming.words import Local, Page, Sweep, Word, local_now, swept, word_now

MOVES = {
    "xc_old": "xc_new",
    "xc_part": "xc_whole",
    "xc_part/src/code": "xc_whole/src/parts",
    "xc_part/src/cut": "xc_whole/src/parts/cut",
    "xc_part/specs/Rules": "xc_whole/specs/PartRules",
    "xc_part/proofs/Steps": "xc_whole/proofs/PartSteps",
    "xc_deep/src": "xc_whole/src/deep",
    "xc_deep/src/lib": "xc_whole/src/deep",
    "xc_deep": "xc_whole",
}
SPLIT = {"xr_both/src/front": "xr_front/src/front", "xr_both/specs/Rules": "xr_front/specs/Rules", "xr_both/src/law": "xr_front/src/law"}


class Places(unittest.TestCase):
    def test_longest_beginning(self):
        for before, after in (
            ("xc_other/src/code", "xc_other/src/code"),
            ("xc_old", "xc_new"),
            ("xc_old/src/code/f", "xc_new/src/code/f"),
            ("xc_part/src/code/f", "xc_whole/src/parts/f"),
            ("xc_part/src/codes", "xc_whole/src/codes"),
            ("xc_deep/src/page/Page", "xc_whole/src/deep/page/Page"),
        ):
            self.assertEqual(place_now(before, MOVES), after)

    def test_modules_of_definitions_and_proofs(self):
        for before, after in (
            ("Rattle.xc_old.specs.Rules", "Rattle.xc_new.specs.Rules"),
            ("Rattle.xc_part.specs.Rules.first", "Rattle.xc_whole.specs.PartRules.first"),
            ("Rattle.xc_part.specs.declared.code.Use", "Rattle.xc_whole.specs.declared.parts.Use"),
            ("Rattle.xc_part.specs.contracts.code.Use", "Rattle.xc_whole.specs.contracts.parts.Use"),
            ("Rattle.xc_part.proofs.code.+channels.Goals", "Rattle.xc_whole.proofs.parts.+channels.Goals"),
            ("Rattle.xc_part.proofs.Steps", "Rattle.xc_whole.proofs.PartSteps"),
            ("Rattle.xc_deep.proofs.page.put.Goals", "Rattle.xc_whole.proofs.deep.page.put.Goals"),
            ("Rattle.std.specs.Prelude", "Rattle.std.specs.Prelude"),
        ):
            self.assertEqual(antt_now(before, MOVES), after)

    def test_paths_of_rust(self):
        for before, home, here, after in (
            ("crate::code::f", "xc_part", "xc_whole", "crate::parts::f"),
            ("crate::proofs::Steps::steps", "xc_part", "xc_whole", "crate::proofs::PartSteps::steps"),
            ("xc_part::proofs::Steps::steps", "xc_other", "xc_other", "xc_whole::proofs::PartSteps::steps"),
            ("xc_part::cut", "xc_whole", "xc_whole", "crate::parts::cut"),
            ("xc_part::cut", "xc_other", "xc_other", "xc_whole::cut"),
            ("crate::page::Page", "xc_deep", "xc_whole", "crate::deep::page::Page"),
            ("xc_deep", "xc_whole", "xc_whole", "crate::deep"),
        ):
            self.assertEqual(rust_now(before, home, here, MOVES), after)

    def test_what_goes_to_another_crate_is_found_at_its_root(self):
        self.assertEqual(rust_now("crate::front::read", "xr_both", "xr_both", SPLIT), "xr_front::read")
        self.assertEqual(rust_now("crate::front::read", "xr_both", "xr_front", SPLIT), "crate::front::read")

    def test_files(self):
        for before, after in (
            ("xc_part/src/code.rt", "xc_whole/src/parts.rt"),
            ("xc_part/specs/Rules.antt", "xc_whole/specs/PartRules.antt"),
            ("xc_part/proofs/code/+all/Answers.antt", "xc_whole/proofs/parts/+all/Answers.antt"),
            ("xc_old/data/README.md", "xc_new/data/README.md"),
            ("xc_old", "xc_new"),
        ):
            self.assertEqual(path_now(before, MOVES), after)


class Text(unittest.TestCase):
    def test_code(self):
        before = (
            "ghost use Rattle.xc_part.specs.Rules as rules;\n\nuse crate::code::f;\nuse xc_old::{a, b};\nuse xw_words::{\n    c,\n    d,\n};\n"
            "pub(crate) fn g() {} // of xc_part\n"
        )
        after = (
            "ghost use Rattle.xc_whole.specs.PartRules as rules;\n\nuse crate::parts::f;\nuse xc_new::{a, b};\nuse xw_words::{\n    c,\n    d,\n};\n"
            "pub(crate) fn g() {} // of xc_whole\n"
        )
        self.assertEqual(code_now(before, "xc_part", "xc_whole", MOVES), after)

    def test_import_of_several_items_by_their_modules(self):
        text = "use xc_part::{cut, whole};\n"
        self.assertEqual(code_now(text, "xc_whole", "xc_whole", MOVES), "use crate::parts::cut;\nuse crate::whole;\n")
        self.assertEqual(code_now(text, "xc_other", "xc_other", MOVES), "use xc_whole::{cut, whole};\n")

    def test_each_name_is_changed_once(self):
        moves = {"xa_one": "xa_two", "xa_two/src/graph": "xa_two/src/call_graph"}
        text = "use xa_one::graph::{A};\nuse crate::graph::B;\n"
        self.assertEqual(code_now(text, "xa_two", "xa_two", moves), "use crate::graph::{A};\nuse crate::call_graph::B;\n")

    def test_pages(self):
        before = "`crates/xc_part/specs/Rules.antt` of xc_part ([code](../crates/xc_part/src/code.rt)), XC_OLD, xc_olden, my_xc_old"
        after = "`crates/xc_whole/specs/PartRules.antt` of xc_whole ([code](../crates/xc_whole/src/parts.rt)), XC_NEW, xc_olden, my_xc_old"
        self.assertEqual(words_now(before, MOVES), after)

    def test_text_older_than_the_steps(self):
        before = "use Rattle.xc_meaning.specs.Runs.{moves, other}\nf = moves x"
        self.assertEqual(older_now(before), "use Rattle.xc_meaning.specs.Runs.{acts, other}\nf = acts x")


STEP = Step("try", "", "", MOVES, {"xc_whole/src/lib.rt": "mod deep;\nmod parts;\nmod whole;\n", "xc_whole/src/deep.rt": "mod page;\n"})
FILES = {
    "crates.txt": "# Base\nxw_words:\nxc_old: xw_words indexmap\nxc_part: xw_words\nxc_deep: xw_words\nxc_whole: xc_part xc_deep xw_words\n",
    "crates/xc_old/src/lib.rt": "mod a;\n",
    "crates/xc_old/src/a.rt": "use xc_part::cut;\n",
    "crates/xc_part/src/lib.rt": "mod code;\n",
    "crates/xc_part/src/code.rt": "pub fn cut() {}\n",
    "crates/xc_part/specs/Lib.antt": "pub mod Rules\n",
    "crates/xc_part/specs/Rules.antt": "-- Rules.\n",
    "crates/xc_part/proofs/Lib.antt": "pub mod Same\n",
    "crates/xc_part/proofs/Same.antt": "-- The same.\n",
    "crates/xc_part/must-fail/cut.edit": "file: src/code.rt\nold: cut\nnew: crate::code::cut\n",
    "crates/xc_deep/src/lib.rt": "mod page;\n",
    "crates/xc_deep/src/page.rt": "",
    "crates/xc_whole/src/lib.rt": "mod whole;\n",
    "crates/xc_whole/src/whole.rt": "use xc_deep::Page;\nuse xc_part::cut;\n",
    "crates/xc_whole/specs/Lib.antt": "-- All.\npub mod Rules\n",
    "crates/xc_whole/specs/Rules.antt": "-- All rules.\n",
    "crates/xc_whole/proofs/Lib.antt": "mod Same\npub use Rattle.xc_old.proofs.Laws\n",
    "crates/xc_whole/proofs/Same.antt": "-- The same.\n",
    "docs/a.md": "xc_part and xc_whole\nxc_old\n",
    "tools/house/known.txt": "# Known.\nbody 61 crates/xc_old/src/a.rt f\nbody 62 crates/xc_part/src/code.rt f\nname 3 One\n",
}


class Repository(unittest.TestCase):
    def setUp(self):
        self.below = {path.removeprefix("crates/"): text for path, text in FILES.items() if path.startswith("crates/")}

    def test_crates_are_joined(self):
        found = crates_now(FILES, STEP)
        self.assertEqual(sorted(it for it in found if it.endswith(".rt")), [
            "crates/xc_new/src/a.rt",
            "crates/xc_new/src/lib.rt",
            "crates/xc_whole/src/deep.rt",
            "crates/xc_whole/src/deep/page.rt",
            "crates/xc_whole/src/lib.rt",
            "crates/xc_whole/src/parts.rt",
            "crates/xc_whole/src/whole.rt",
        ])
        self.assertEqual(found["crates/xc_whole/src/whole.rt"], "use crate::deep::Page;\nuse crate::parts::cut;\n")
        self.assertEqual(found["crates/xc_whole/must-fail/cut.edit"], "file: src/parts.rt\nold: cut\nnew: crate::parts::cut\n")
        self.assertEqual(found["crates/xc_whole/proofs/Same.antt"], "-- The same.\n")

    def test_two_files_at_one_place(self):
        with self.assertRaisesRegex(SystemExit, "xc_whole/proofs/Same.antt, which another file has"):
            crates_now(FILES | {"crates/xc_part/proofs/Same.antt": "-- Not the same.\n"}, STEP)

    def test_root_names_all_modules(self):
        with self.assertRaisesRegex(SystemExit, "names other modules than there are"):
            crates_now(FILES | {"crates/xc_whole/src/more.rt": ""}, STEP)

    def test_lists_of_modules(self):
        self.assertEqual(lists_now(self.below, STEP), {
            "xc_whole/specs/Lib.antt": "-- All.\npub mod Rules\npub mod PartRules\n",
            "xc_whole/proofs/Lib.antt": "pub mod Same\npub use Rattle.xc_new.proofs.Laws\n",
        })
        self.assertEqual(joined(["mod A", "pub mod A", "mod B"]), "pub mod A\nmod B\n")

    def test_edits_stay_with_their_crate(self):
        with self.assertRaisesRegex(SystemExit, "an edit of xr_both is of a file that goes to xr_front"):
            edit_now("file: src/front.rt\nold: a\nnew: b", "xr_both", Step("split", "", "", SPLIT))

    def test_pages_results_and_what_is_known(self):
        found = files_now(FILES | {"bench/results/a.md": "xc_old xc_part\n"}, STEP, {"": "xw_words xc_new xc_whole"})
        self.assertEqual(found["bench/results/a.md"], "xc_new xc_part\n")
        self.assertEqual(found["crates.txt"], "# \nxw_words:\nxc_new: xw_words indexmap\nxc_whole: xw_words\n")
        known = "# Known.\nbody 61 crates/xc_new/src/a.rt f\nbody 62 crates/xc_whole/src/parts.rt f\nname 3 One\n"
        self.assertEqual(known_now(FILES["tools/house/known.txt"], STEP), known)
        self.assertEqual(said_twice(FILES, found), ["docs/a.md:1: xc_whole and xc_whole"])

    def test_a_crate_that_is_parted(self):
        step = Step("split", "", "", SPLIT, {}, ("xr_front", "xr_both"))
        files = {"crates/xr_front/src/front.rt": "use xc_low::f;\n", "crates/xr_both/src/top.rt": "use xr_front::g;\nuse xs_low::h;\n"}
        text = "xw_words:\nxc_low: xw_words\nxs_low: xw_words\nxr_both: xs_low xc_low xw_words\nxr_top: xr_both\n"
        order = {"Low": "xw_words xs_low xc_low", "High": "xr_front xr_both xr_top"}
        self.assertEqual(
            list_now(text, files, step, order),
            "# Low\nxw_words:\nxs_low: xw_words\nxc_low: xw_words\n\n"
            "# High\nxr_front: xc_low xw_words\nxr_both: xr_front xc_low xs_low xw_words\nxr_top: xr_both\n",
        )

    def test_what_others_cant_call_any_more(self):
        before = {"crates/a/src/lib.rt": "pub use code::{one, two};\npub use other::three as third;\n"}
        after = {"crates/b/src/lib.rt": "pub use code::two;\npub use other::{\n    third,\n};\n"}
        self.assertEqual(no_longer_public(before, after), ["one"])

    def test_done_before(self):
        self.assertFalse(is_done(STEP, FILES))
        self.assertTrue(is_done(STEP, files_now(FILES, STEP, {"": "xw_words xc_new xc_whole"})))
        split = Step("split", "", "", SPLIT)
        self.assertFalse(is_done(split, {"crates/xr_both/src/law.rt": ""}))
        self.assertTrue(is_done(split, {"crates/xr_both/src/top.rt": "", "crates/xr_front/src/law.rt": ""}))


class Tables(unittest.TestCase):
    def test_no_name_is_an_older_one_of_another_crate(self):
        for at, step in enumerate(STEPS):
            older = {place for it in STEPS[: at + 1] for place in it.crates}
            self.assertEqual(older & {now.split("/")[0] for now in step.moves.values()}, set())

    def test_all_crates_have_a_role(self):
        known = {it for crates in ORDER.values() for it in crates.split()}
        self.assertEqual({name_now(now).split("/")[0] for step in STEPS for now in step.moves.values()} - known, set())

    def test_names_of_today(self):
        for before, after in (
            ("xc_sides/specs/Rules.antt", "xc_disjoint/specs/SideRules.antt"),
            ("xc_shown/src/trees/items.rt", "xt_front/src/shown/trees/items.rt"),
            ("xr_commands/src/front.rt", "xr_front/src/front.rt"),
            ("xr_commands", "xr_driver"),
            ("xw_words", "xw_words"),
        ):
            self.assertEqual(name_now(before), after)


class Words(unittest.TestCase):
    def changed(self, path: str, text: str, word: Word) -> tuple[str, list[str]]:
        refused: list[str] = []
        return word_now(f"crates/{path}", text, word, refused), refused

    def test_where_it_is_defined(self):
        word = Word("xa_one/specs/Did", "told", "map_did")
        text = "-- the same, told of more: `told`\nabbrev pub told : A → A\ntold x = x.told\nnot_told = told-one\n"
        after = "-- the same, told of more: `map_did`\nabbrev pub map_did : A → A\nmap_did x = x.told\nnot_told = told-one\n"
        self.assertEqual(self.changed("xa_one/specs/Did.antt", text, word), (after, []))
        self.assertEqual(self.changed("xa_one/specs/Did.antt", after, word), (after, []))

    def test_where_it_is_imported(self):
        word = Word("xa_one/specs/Did", "told", "map_did")
        for before, after in (
            ("use Rattle.xa_one.specs.Did.{Did, told}\nf = told c.told", "use Rattle.xa_one.specs.Did.{Did, map_did}\nf = map_did c.told"),
            ("use Rattle.xa_one.specs.Did.{told as t}\nf = told t", "use Rattle.xa_one.specs.Did.{map_did as t}\nf = told t"),
            ("use Rattle.xa_one.specs.Did as did\nf = did.told told", "use Rattle.xa_one.specs.Did as did\nf = did.map_did told"),
            (
                "use Rattle.xa_one.specs.Did.{told}\n  open a use {b, told as c}\nf = told",
                "use Rattle.xa_one.specs.Did.{map_did}\n  open a use {b, told as c}\nf = map_did",
            ),
            ("use Rattle.xa_two.specs.Did.{told}\nf = told", "use Rattle.xa_two.specs.Did.{told}\nf = told"),
        ):
            self.assertEqual(self.changed("xa_two/proofs/Steps.antt", before, word), (after, []))

    def test_clauses_keep_their_labels(self):
        text = "ghost use Rattle.xa_one.specs.Did.{told};\n    ensures told { told result.told }\n"
        after = "ghost use Rattle.xa_one.specs.Did.{map_did};\n    ensures told { map_did result.told }\n"
        self.assertEqual(self.changed("xa_two/src/a.rt", text, Word("xa_one/specs/Did", "told", "map_did")), (after, []))

    def test_what_meets_another_word_or_a_field_is_refused(self):
        word = Word("xa_one/specs/Did", "told", "map_did")
        text = "use Rattle.xa_one.specs.Did.{told}\nmap_did = told\n"
        self.assertEqual(self.changed("xa_two/proofs/A.antt", text, word)[1], ["crates/xa_two/proofs/A.antt: told -> map_did, which stands there already"])
        text = "use Rattle.xa_one.specs.Did.{told}\npub record A where\n  pub told : told A\n"
        self.assertEqual(self.changed("xa_two/proofs/A.antt", text, word)[1], ["crates/xa_two/proofs/A.antt: told is a field, too"])

    def test_types_and_variants(self):
        kind, variant = Word("xa_one/src/turn", "Turn", "Result"), Word("xa_one/src/turn", "Turn::Own", "Local")
        for path, before, after in (
            ("xa_one/src/turn.rt", "pub enum Turn {\n    Own(u8),\n}\n", "pub enum Result {\n    Local(u8),\n}\n"),
            ("xa_one/src/a.rt", "use crate::turn::Turn;\nTurn::Own(Other::Own)", "use crate::turn::Result;\nResult::Local(Other::Own)"),
            ("xa_two/src/a.rt", "use xa_one::{Turn, b};\nTurn::Own", "use xa_one::{Result, b};\nResult::Local"),
            ("xa_two/src/b.rt", "use xa_three::Turn;\nTurn::Own", "use xa_three::Turn;\nTurn::Own"),
            (
                "xa_one/proofs/A.antt",
                "use Rattle.xa_one.specs.declared.turn.Turn.TheVariants.{Own}\nf = Own",
                "use Rattle.xa_one.specs.declared.turn.Turn.TheVariants.{Local}\nf = Local",
            ),
        ):
            self.assertEqual(self.changed(path, self.changed(path, before, variant)[0], kind), (after, []))

    def test_words_of_a_file(self):
        text = "f = c.is_own.ensures own_is_own in-is_own\n"
        self.assertEqual(local_now("crates/xa_one/proofs/A.antt", text, Local("xa_one", "is_own", "is_local")), text)
        after = "f = c.is_local.ensures own_is_own in-is_local\n"
        self.assertEqual(local_now("crates/xa_one/proofs/A.antt", text, Local("xa_one", "is_own", "is_local", True)), after)
        edit = "file: src/a.rt\nold: is_own(1)\nnew: is_own(2)\n"
        self.assertEqual(local_now("crates/xa_one/must-fail/a.edit", edit, Local("xa_one/src/b.rt", "is_own", "is_local")), edit)
        now = edit.replace("is_own", "is_local")
        self.assertEqual(local_now("crates/xa_one/must-fail/a.edit", edit, Local("xa_one/src/a.rt", "is_own", "is_local")), now)
        self.assertEqual(local_now("crates/xa_one_more/proofs/A.antt", text, Local("xa_one", "is_own", "is_local", True)), text)

    def test_modules_and_pages(self):
        files = {
            "crates/xa_one/specs/Lib.antt": "pub mod Turns\n",
            "crates/xa_one/specs/Turns.antt": "-- Turns.\n",
            "crates/xa_one/src/lib.rt": "mod turn;\n\npub use turn::Turn;\n",
            "crates/xa_one/src/turn.rt": "pub enum Turn {}\n",
            "docs/a.md": "`Turn` of `crates/xa_one/specs/Turns.antt`\n",
        }
        moves = {"xa_one/specs/Turns": "xa_one/specs/Results", "xa_one/src/turn": "xa_one/src/result"}
        sweep = Sweep("try", "", "", (Word("xa_one/src/turn", "Turn", "Result"),), (), moves, (Page("docs/a.md", "`Turn` of", "`Result` of"),))
        self.assertEqual(swept(files, sweep, []), {
            "crates/xa_one/specs/Lib.antt": "pub mod Results\n",
            "crates/xa_one/specs/Results.antt": "-- Turns.\n",
            "crates/xa_one/src/lib.rt": "mod result;\n\npub use result::Result;\n",
            "crates/xa_one/src/result.rt": "pub enum Result {}\n",
            "docs/a.md": "`Result` of `crates/xa_one/specs/Results.antt`\n",
        })

    def test_no_word_of_a_module_is_changed_twice(self):
        rows = [(it.place, it.old) for sweep in SWEEPS for it in sweep.words]
        self.assertEqual(len(rows), len(set(rows)))


if __name__ == "__main__":
    unittest.main()
