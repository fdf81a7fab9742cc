"""The steps by which crates and modules got today's names, in their order, and the order of crates.txt."""

from __future__ import annotations

from .places import Step, path_now

FRONT = Step(
    "front",
    "crates: name the front's crates by what they do",
    """\
The parser's symbols, the inlining of calls, well-formed kernels and what
holds in all runs stood under names that say nothing to someone who reads
the list of files.""",
    {
        "xc_phrases": "xc_nonterminals",
        "xc_roots": "xc_inline",
        "xc_formed": "xc_wellformed",
        "xc_laws": "xc_invariants",
    },
)

LOWERING = Step(
    "lowering",
    "crates: name the lowering of statements and of ends",
    "Two crates had `sides` in their names; this one says which end code uses.",
    {"xl_sides": "xl_ends", "xl_walk": "xl_statements"},
)

JOINS = Step(
    "joins",
    "crates: name the simulation, the channels and the driver",
    """\
compile stands with the whole simulation, which has no threads of a
system; what it says of channels had the name of cables.""",
    {"xr_threads": "xr_simulation", "xr_wires": "xr_channels", "xr_commands": "xr_driver"},
)

TESTS = Step(
    "tests",
    "crates: put what only tests or shows below xt_",
    """\
Someone who looks for a part of the system can pass over them. What shows
trees and kernels, and the cases that are told by it, are one crate:
nothing else uses either. Its tests stay apart, since a crate with tests
is proved twice; and so do the four programs of pieces of code, whole
programs, a core and a machine, since a change of the front or of boards
would prove the others anew.""",
    {
        "xw_cases": "xt_cases",
        "xc_cases": "xt_front",
        "xc_shown": "xt_front",
        "xc_shown/src": "xt_front/src/shown",
        "xc_shown/src/lib": "xt_front/src/shown",
        "xc_tests": "xt_front_tests",
        "xc_texts": "xt_texts",
        "xl_tests": "xt_code",
        "xl_texts": "xt_programs",
        "xr_turns": "xt_core",
        "xr_images": "xt_machine",
        "xr_tests": "xt_parts",
        "xr_calls": "xt_calls",
        "xs_rows": "xt_rows",
        "xc_examples": "xt_meaning",
    },
    {
        "xt_front/src/shown.rt": """\
//! Tokens, trees, names and kernels as text, each put on a page.

mod kernels;
mod names;
mod page;
mod spelled;
mod tokens;
mod trees;

pub use kernels::put_kernel;
pub use names::put_names;
pub use page::Page;
pub use tokens::put_tokens;
pub use trees::put_tree;
""",
        "xt_front/src/lib.rt": """\
//! Cases of the compiler's front: source texts, and what must come of each by the public calls of the crates below. What comes
//! is shown as text, and a report tells of the cases of a file how many they are, and each of which something else comes.
#![tactic(auto)]

mod cases;
mod kernels;
mod messages;
mod names;
mod needs;
mod phases;
mod report;
mod shown;
mod texts;
mod tokens;
mod trees;
mod types;

pub use phases::Phase;
pub use report::{Report, report_of, told_of};
""",
    },
)

MERGES = Step(
    "merges",
    "crates: merge what is one phase, or one subject",
    """\
Marks and what names mean, the two ends of the copy rule, the three parts
of disjointness, and lines and stimuli stood in crates of their own. All
have edits already, so the gate proves nothing twice that it didn't.""",
    {
        "xc_marks": "xc_names",
        "xc_names/src/graph": "xc_names/src/call_graph",
        "xc_marks/src/Components": "xc_names/src/components/Components",
        "xc_marks/src/components_of": "xc_names/src/components/components_of",
        "xc_marks/src/Edge": "xc_names/src/graph/Edge",
        "xc_marks/src/Graph": "xc_names/src/graph/Graph",
        "xc_marks/src/Marks": "xc_names/src/marks/Marks",
        "xc_marks/src/marks_of": "xc_names/src/marks/marks_of",
        "xc_marks/src/marks_of_statement": "xc_names/src/marks/marks_of_statement",
        "xc_copy": "xc_flat",
        "xc_copy/src/copy": "xc_flat/src/program/copy",
        "xc_apart": "xc_disjoint",
        "xc_apart/src/code": "xc_disjoint/src/clashes",
        "xc_apart/src/first_clash": "xc_disjoint/src/clashes/first_clash",
        "xc_apart/proofs/Firsts": "xc_disjoint/proofs/FirstSoFar",
        "xc_sides": "xc_disjoint",
        "xc_sides/src/code": "xc_disjoint/src/channel_uses",
        "xc_sides/src/first_without_sides": "xc_disjoint/src/judge/first_without_sides",
        "xc_sides/src/tables": "xc_disjoint/src/use_tables",
        "xc_sides/specs/Rules": "xc_disjoint/specs/SideRules",
        "xc_sides/specs/Tables": "xc_disjoint/specs/UseTables",
        "xc_sides/proofs/Entries": "xc_disjoint/proofs/UseEntries",
        "xc_sides/proofs/Settled": "xc_disjoint/proofs/WholeUses",
        "xc_sides/proofs/UseSteps": "xc_disjoint/proofs/ChannelSteps",
        "xr_lines": "xr_stim",
        "xr_lines/src/first_line": "xr_stim/src/lines/first_line",
        "xr_lines/src/is_skipped": "xr_stim/src/lines/is_skipped",
        "xr_lines/src/number": "xr_stim/src/numbers/number",
        "xr_lines/src/first_word": "xr_stim/src/words/first_word",
    },
    {
        "xc_names/src/lib.rt": """\
//! From a tree to its names: each name's declaration, or the first rule of names that the program breaks. What the tree has of names,
//! scopes and calls stands in marks, in the order of its text, and its functions come in the order of their calls.
#![tactic(auto)]

mod call_graph;
mod calls;
mod components;
mod graph;
mod latest;
mod laws;
mod main_function;
mod marks;
mod meanings;
mod names;
mod ports;
mod recursion;
mod resolution;
mod scopes;
mod taken;
mod uses;

pub use components::{Components, components_of};
pub use graph::{Edge, Graph};
pub use laws::at_most_one_naming;
pub use marks::{Marks, marks_of, marks_of_statement};
pub use resolution::{NameErr, resolve};
""",
        "xc_flat/src/lib.rt": """\
//! From a typed program to its kernel: its roots, by the instances' numbers, and its ports; or the rule of size that it breaks.
#![tactic(auto)]

mod flattening;
mod program;

pub use flattening::{FlatErr, flatten};
""",
        "xc_disjoint/src/lib.rt": """\
//! Whether the branches of a program keep apart, and what it needs of the device: threads, channel ends, timers, words, cores
//! that are there, and ports on their own cores. A kernel whose branches do, and that needs no more than there is, comes back
//! as one that is checked.
//!
//! Branches keep apart where none uses what another one uses that they may not share, a variable that one of them changes, a port or a timer
//! (clashes), and where the two sides of each channel are two branches, those of the innermost `par` that holds all its uses (judge).
#![tactic(auto)]

mod channel_uses;
mod checked;
mod clashes;
mod disjointness;
mod ends;
mod expressions;
mod footprint;
mod judge;
mod needs;
mod places;
mod ports;
mod side;
mod tables;
mod threads;
mod use_tables;
mod uses;

pub use checked::Checked;
pub use disjointness::{DisErr, disjoint};
pub use needs::thread_count;
""",
        "xr_stim/src/lib.rt": """\
//! Stimuli: exactly what a text says, or the first line that breaks a rule. Lines, words and numbers are read without memory, and are for other
//! texts too that are read by lines.
#![tactic(auto)]

mod form;
mod laws;
mod lines;
mod numbers;
mod reader;
mod rules;
mod words;

pub use laws::one_stimulus_or_one_broken_line;
pub use lines::{first_line, is_skipped};
pub use numbers::number;
pub use reader::{StimErr, read_stim};
pub use words::first_word;
""",
    },
)

TODAY = Step(
    "today",
    "xl_image: have the law of kernels that are built today",
    """\
Which programs are built today is a question to tokens and tree alone, so
xc_today stands on xc_tree; that their kernels are built stands beside
the definition of such kernels.""",
    {
        "xc_today/src/law": "xl_image/src/law",
        "xc_today/src/kernels_are_built": "xl_image/src/kernels_are_built",
        "xc_today/src/ports_go_out": "xl_image/src/ports_go_out",
        "xc_today/specs/Laws": "xl_image/specs/TodayLaws",
        "xc_today/proofs/Built": "xl_image/proofs/TodayBuilt",
        "xc_today/proofs/Copied": "xl_image/proofs/TodayCopied",
        "xc_today/proofs/Early": "xl_image/proofs/TodayEarly",
        "xc_today/proofs/Ports": "xl_image/proofs/TodayPorts",
        "xc_today/proofs/Rules": "xl_image/proofs/TodayRules",
    },
    {
        "xc_today/src/lib.rt": """\
//! The programs that are built today: which texts hold nothing of a later form.
#![tactic(auto)]

mod stamps;
mod today;
mod tokens;

pub use today::is_built_today;
""",
        "xl_image/src/lib.rt": """\
//! Images: `image` gives the image of a checked kernel whose roots' code is built. In specs/ stands what it means that an image's
//! code is the pieces of a kernel's statements, in order.
#![tactic(auto)]

mod channels;
mod cores;
mod law;
mod needs;
mod roots;

pub use cores::image;
pub use law::{kernels_are_built, ports_go_out};
""",
    },
    ("xc_today", "xl_image"),
)

DRIVER = Step(
    "driver",
    "xr_front: part the way from a text to its kernel from the driver",
    """\
The driver will stand on windows and boards, and the way through the front
on neither: so its proofs are no part of the longest chain.""",
    {
        "xr_driver/src/front": "xr_front/src/front",
        "xr_driver/src/law": "xr_front/src/law",
        "xr_driver/src/at_most_one_answer": "xr_front/src/at_most_one_answer",
        "xr_driver/specs/Reads": "xr_front/specs/Reads",
        "xr_driver/specs/Rules": "xr_front/specs/Rules",
        "xr_driver/proofs/Firsts": "xr_front/proofs/Firsts",
        "xr_driver/proofs/Meanings": "xr_front/proofs/Meanings",
        "xr_driver/proofs/OneAnswer": "xr_front/proofs/OneAnswer",
        "xr_driver/proofs/Order": "xr_front/proofs/Order",
        "xr_driver/proofs/Reading": "xr_front/proofs/Reading",
    },
    {
        "xr_front/src/lib.rt": """\
//! The whole front: from a text to the kernel of the program that it means, or the first rule that it breaks.
#![tactic(auto)]

mod front;
mod law;

pub use front::read_text;
pub use law::at_most_one_answer;
""",
        "xr_driver/src/lib.rt": """\
//! The commands: what the words of a command line mean, what is answered to them, and what is written. The program only has its words,
//! files and streams besides.
#![tactic(auto)]

mod decide;
mod deliver;
mod run;
mod top;
mod unthreaded;
mod words;

pub use top::xcsim;
pub use unthreaded::still;
""",
    },
    ("xr_front", "xr_driver"),
)

STEPS = (FRONT, LOWERING, JOINS, TESTS, MERGES, TODAY, DRIVER)

# The crates by role, in the order of the passes.
ORDER = {
    "Base": "xw_words xw_io",
    "Front: from a text to its checked kernel": "xc_tree xc_lexer xc_nonterminals xc_parser xc_today xc_names xc_types xc_kernel xc_size xc_inline"
    " xc_flat xc_disjoint",
    "Meaning: what programs mean, and what is so of their kernels": "xc_meaning xc_wellformed xc_invariants",
    "Lowering: from a checked kernel to an image": "xl_expr xl_flow xl_port xl_chan xl_par xl_ends xl_statements xl_plan xl_image",
    "Machine": "xs_instr xs_state xs_pool xs_chanend xs_port xs_event xs_core xs_fabric",
    "What joins them: implementing, channels, simulation, texts, stimuli, windows, boards, the driver": "xr_match xr_channels xr_simulation xr_text"
    " xr_stim xr_windows xr_board xf_time xr_front xr_driver xcsim",
    "Tests and examples": "xt_rows xt_meaning xt_cases xt_front xt_texts xt_front_tests xr_listed xt_code xt_programs xt_core xt_machine xt_parts"
    " xt_calls",
}


def name_now(name: str) -> str:
    """What a crate or a place in one is called behind all steps."""
    for step in STEPS:
        name = path_now(name, step.moves)
    return name
