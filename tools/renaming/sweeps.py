"""The tables of words, by groups, the lowest crates first."""

from __future__ import annotations

from .words import Local, Page, Sweep, Word

ADDING, MAP, PROOFS = "docs/adding.md", "docs/architecture.md", "docs/proofs.md"

DID, ROWS, CORE = "xs_instr/specs/Did", "xs_instr/specs/Rows", "xs_core/specs/Own"

MACHINE = Sweep(
    "machine",
    "xs_instr, xs_core: name rows, registers and results of slots",
    """\
`told`, `held` and `meant` had several senses each, and `Own` and `Turn`
said nothing of what they are. A step in registers, memory or flow is
local, a register's word is `reg`, and what a slot decides its result.""",
    (
        Word(DID, "told", "map_did"),
        Word(ROWS, "held", "reg"),
        Word(ROWS, "Own", "Local"),
        Word(ROWS, "own_row", "local_row"),
        Word(ROWS, "own_of", "local_of"),
        Word(ROWS, "put_own", "put_local"),
        Word("xs_core/specs/Turns", "meant", "denote"),
        Word(CORE, "own_after", "local_after"),
        Word(CORE, "own_did", "local_did"),
        Word(CORE, "own_in", "local_in"),
        Word(CORE, "with_own", "with_local"),
        Word(CORE, "is_own", "is_local"),
        Word(CORE, "OwnFits", "LocalFits"),
        Word("xs_core/src/turn", "Turn::Own", "Local"),
        Word("xs_core/src/turn", "Turn", "SlotResult"),
    ),
    (
        Local("xs_state/src/ram.rt", "place", "word_index", True),
        Local("xs_port/src/ports.rt", "fresh", "booted_port", True),
        Local("xs_core", "OwnStep", "LocalStep", True),
        Local("xs_core", "own_rows", "local_rows", True),
        Local("xs_core", "is_own", "is_local", True),
        Local("xs_core", "is_own_of", "is_local_of", True),
        Local("xs_core", "own_step", "local_step", True),
        Local("xs_core/proofs/slots/take_any", "in-Own", "in-Local", True),
    ),
    {
        "xs_core/src/turn": "xs_core/src/slot_result",
        "xs_core/src/turn/Turn": "xs_core/src/slot_result/SlotResult",
        "xs_core/src/slots/own_step": "xs_core/src/slots/local_step",
        "xs_core/src/own_rows": "xs_core/src/local_rows",
        "xs_core/src/own_rows/OwnStep": "xs_core/src/local_rows/LocalStep",
        "xs_core/specs/Own": "xs_core/specs/Local",
        "xs_core/specs/Turns": "xs_core/specs/SlotResults",
    },
    (
        Page(ADDING, '`Rows.antt`, `own_row` for', '`Rows.antt`, `local_row` for'),
        Page(ADDING, '(it gives a `Turn`)', '(it gives a `SlotResult`)'),
        Page(ADDING, 'in `specs/Own`, `Pool`', 'in `specs/Local`, `Pool`'),
        Page(ADDING, 'in `is_own` (`own_rows.rt`)', 'in `is_local` (`local_rows.rt`)'),
        Page(MAP, 'stand in `own_row`;', 'stand in `local_row`;'),
        Page(MAP, 'comes of the turn as a `Turn`:', 'comes of the turn as a `SlotResult`:'),
        Page(MAP, 'file (`own_rows`, ', 'file (`local_rows`, '),
        Page(MAP, 'is `meant` (`specs/Turns.antt`): what a `Turn` means', 'is `denote` (`specs/SlotResults.antt`): what a `SlotResult` means'),
        Page(PROOFS, '(`meant`, ', '(`denote`, '),
        Page("docs/machine.md", '\n`own_row`, the others', '\n`local_row`, the others'),
        Page("docs/cost.md", 'in `own_rows::step`', 'in `local_rows::step`'),
    ),
)

OPERATORS, TODAY = "xc_kernel/src/operators", "xc_today/specs/Today"
SHAPE, LAWFUL = "xc_tree/specs/Shapes/Around", "xc_invariants/specs/Lawful"
GOALS = ("xl_expr/proofs/expression/+expression/Answers.antt", "xc_inline/proofs/eval/with_second/Answers.antt")

FRONT = Sweep(
    "front",
    "xc_*: name spelling, denotation, operators and the walk of types",
    """\
`Stands`, `Fresh` and `turn` had a sense each in several crates, the
operators had names of their own beside those of the field, and what is
built so far was told by a date.""",
    (
        Word("xc_tree/specs/Bytes", "Stands", "HasBytesAt"),
        Word("xc_wellformed/specs/Standing", "Stands", "Denotes"),
        Word("xc_kernel/specs/Flow", "turn", "iteration"),
        *(
            Word(OPERATORS, f"Operator::{old}", new)
            for old, new in (
                ("NotTrue", "Not"),
                ("Flip", "BitNot"),
                ("Both", "And"),
                ("Either", "Or"),
                ("Choose", "Cond"),
                ("Differs", "Ne"),
                ("BelowLength", "BoundsCheck"),
            )
        ),
        Word(TODAY, "IsBuiltToday", "IsSupported"),
        Word(TODAY, "IsOfToday", "KindIsSupported"),
        Word(TODAY, "AreOfToday", "TokensAreSupported"),
        Word(SHAPE, "Around", "Enclosing"),
        Word(LAWFUL, "Fresh", "BlocksAreDistinct"),
        Word(LAWFUL, "FreshHolds", "BlocksAreDistinctHolds"),
        Word("xc_invariants/specs/Placed", "IsFresh", "IsDistinct"),
        Word("xc_wellformed/specs/Stacks", "IsFresh", "IsUndeclared"),
    ),
    (
        *(Local(at, old, new, True) for at in GOALS for old, new in (("in-Both", "in-And"), ("in-Either", "in-Or"), ("not-Both", "not-And"))),
        *(Local(at, old, new, True) for at in GOALS for old, new in (("not-Either", "not-Or"),)),
        *(
            Local(crate, old, new, True)
            for crate in ("xc_today", "xr_front")
            for old, new in (("is_built_today", "is_supported"), ("are_of_today", "are_supported"), ("is_of_today", "is_kind_supported"))
        ),
        Local("xc_types", "Findings", "Checker", True),
        Local("xc_types", "Tally", "Counter", True),
        Local("xc_types", "Around", "Enclosing", True),
        Local("xc_size", "beside", "parallel", True),
        Local("xc_size/src/measure.rt", "place", "placement"),
        Local("xc_size/proofs/measure", "place", "placement", True),
        Local("xc_lexer", "fresh", "at_line_start", True),
    ),
    {
        "xc_types/src/findings": "xc_types/src/checker",
        "xc_types/src/findings/Findings": "xc_types/src/checker/Checker",
        "xc_types/src/tally": "xc_types/src/counter",
        "xc_types/src/tally/Tally": "xc_types/src/counter/Counter",
        "xc_types/src/around": "xc_types/src/enclosing",
        "xc_types/src/around/Around": "xc_types/src/enclosing/Enclosing",
        "xc_types/specs/Findings": "xc_types/specs/Checker",
        "xc_types/specs/Around": "xc_types/specs/Enclosing",
        "xc_tree/specs/Shapes/Around": "xc_tree/specs/Shapes/Enclosing",
        "xc_wellformed/specs/Standing": "xc_wellformed/specs/Denotes",
        "xc_today/src/today/is_built_today": "xc_today/src/today/is_supported",
        "xc_today/src/tokens/are_of_today": "xc_today/src/tokens/are_supported",
        "xc_today/src/tokens/is_of_today": "xc_today/src/tokens/is_kind_supported",
    },
    (
        Page(ADDING, 'in `specs/Findings`, a word', 'in `specs/Checker`, a word'),
        Page(MAP, 'one state, `Findings`:', 'one state, `Checker`:'),
        Page(MAP, 'is an `Around` on the stack', 'is an `Enclosing` on the stack'),
        Page(MAP, '`Standing.antt` and `Sources.antt`', '`Denotes.antt` and `Sources.antt`'),
        Page(PROOFS, '`Findings.antt` beside it', '`Checker.antt` beside it'),
        Page("docs/meaning.md", '`Standing.antt`, `Sources.antt`;', '`Denotes.antt`, `Sources.antt`;'),
        Page("docs/decisions/018-memory-alone.md", '(`Tally`)', '(`Counter`)'),
        Page("docs/decisions/076-built-today-by-tokens.md", '`IsBuiltToday`', '`IsSupported`'),
        Page("docs/promises.md", '| `is_built_today` |', '| `is_supported` |'),
        Page("docs/crates.md", '| `is_built_today` |', '| `is_supported` |'),
    ),
)

HANDS = "xl_par/specs/Hands"

LOWERING = Sweep(
    "lowering",
    "xl_*: name a loop's code, what is acquired, states of resources",
    """\
`Turns` were a loop's code here and other things elsewhere; a hand is no
word of the field, and a part of a resource was its state.""",
    (
        Word("xl_statements/specs/Emits", "Turns", "LoopCode"),
        Word(HANDS, "Hand", "Acquired"),
        Word(HANDS, "empty_hand", "nothing_acquired"),
        Word(HANDS, "KeptHand", "KeepsAcquired"),
        Word(HANDS, "HandStep", "AcquiringStep"),
        Word(HANDS, "WithinHand", "WithinAcquiring"),
        Word("xr_simulation/specs/Roles", "HandFits", "AcquiredFits"),
        Word("xl_expr/specs/ResourceParts", "Part", "ResourceState"),
        Word("xl_expr/specs/ResourceParts", "part_of", "resource_state"),
    ),
    tuple(Local(crate, "strangers", "no_more_enabled", True) for crate in ("xl_expr", "xl_port", "xr_simulation")),
    {"xl_par/specs/Hands": "xl_par/specs/Acquired"},
    (
        Page(MAP, 'xl_par: `specs/Hands`', 'xl_par: `specs/Acquired`'),
        Page("docs/decisions/044-got-for-a-par.md", '(`Hand` of xl_par)', '(`Acquired` of xl_par)'),
    ),
)

PHASES, FRESH, WIRES = "xr_channels/specs/Phases", "xr_channels/specs/Fresh", "xr_channels/specs/Wires"
SOURCES, RELATION = "xr_match/specs/Sources", "xr_simulation/specs/Standing"

JOINS = Sweep(
    "joins",
    "xr_*: name the relations of channels, threads and states",
    """\
The simulation relation is `MatchStates`, a thread's part of it
`ThreadRel` and a channel's `ChannelRel`; what a channel consists of has
plain words, and a thread's next own step is called that.""",
    (
        Word(SOURCES, "Told", "Counted"),
        Word(SOURCES, "told_start", "counted_start"),
        Word(SOURCES, "told_after", "counted_after"),
        Word(SOURCES, "told_of", "counted_of"),
        Word(PHASES, "turns", "switches_mode"),
        Word(PHASES, "Spot", "SideState"),
        Word(PHASES, "spot", "side_state"),
        Word(PHASES, "Line", "Direction"),
        Word(PHASES, "Way", "Transit"),
        Word(PHASES, "Talk", "TransitRel"),
        Word(FRESH, "IsFresh", "QuestionHasArrived"),
        Word(FRESH, "Fresh", "QuestionsArrived"),
        Word(FRESH, "Stands", "ChannelRel"),
        Word(WIRES, "place", "end_of_side"),
        Word(WIRES, "start_spot", "start_side_state"),
        Word(WIRES, "line", "direction_to"),
        Word(WIRES, "TalkAt", "ChannelRelAt"),
        Word(WIRES, "Wires", "Channels"),
        Word("xr_simulation/specs/Runners", "Block", "Activation"),
        Word("xr_simulation/specs/Wired", "Stance", "SideIs"),
        Word("xr_simulation/specs/Wired", "in_piece", "in_transfer"),
        Word("xr_simulation/specs/Wired", "at_rest", "idle"),
        Word("xr_simulation/specs/Turns", "Turn", "NextStep"),
        Word("xr_simulation/specs/Turns", "Turns", "StableNextStep"),
        Word("xr_simulation/specs/Turns", "StandsAt", "IsPlacedAt"),
        Word("xr_board/specs/CellState", "fresh", "new_cell"),
        Word(RELATION, "Standing", "MatchStates"),
        Word(RELATION, "Stands", "ThreadRel"),
        Word(RELATION, "Stand", "RunsBranch"),
        Word(RELATION, "StandsBy", "ProgressBy"),
        Word(RELATION, "StandsWith", "ProgressWith"),
    ),
    (
        Local("xr_channels", "spots", "side_states", True),
        Local("xr_simulation", "spots", "side_states", True),
        Local("xr_windows/src", "told", "merged_run", True),
        Local("xr_windows/proofs/merge", "told", "merged_run", True),
        Local("xr_board/src", "told", "merged_run", True),
        Local("xr_board/proofs/cells", "told", "merged_run", True),
    ),
    {
        "xr_channels/specs/Fresh": "xr_channels/specs/ChannelRel",
        "xr_channels/specs/Wires": "xr_channels/specs/Channels",
        "xr_simulation/specs/Turns": "xr_simulation/specs/NextStep",
        "xr_simulation/specs/Standing": "xr_simulation/specs/MatchStates",
        "xr_windows/src/merge/told": "xr_windows/src/merge/merged_run",
    },
    (
        Page(ADDING, '`StandsInSides` (`Turns`)', '`StandsInSides` (`NextStep`)'),
        Page(ADDING, '`first_hand` (`Turns`)', '`first_hand` (`NextStep`)'),
        Page(ADDING, 'else `StandsAt` (`Turns`)', 'else `IsPlacedAt` (`NextStep`)'),
        Page(ADDING, '6 clauses (`Turns`)', '6 clauses (`NextStep`)'),
        Page(ADDING, 'a case of `Turn`, of', 'a case of `NextStep`, of'),
        Page(MAP, 'xr_channels: `specs/Phases`, `Wires`', 'xr_channels: `specs/Phases`, `Channels`'),
        Page(MAP, 'xr_simulation: `specs/Standing`', 'xr_simulation: `specs/MatchStates`'),
        Page(PROOFS, 'A direction is a `Line`:', 'A way is a `Direction`:'),
        Page(PROOFS, '\n`Spot`: a phase', '\n`SideState`: a phase'),
        Page(PROOFS, '`Talk` is what', '`TransitRel` is what'),
        Page(PROOFS, '`Fresh` adds', '`QuestionsArrived` adds'),
        Page(PROOFS, '`Wires` says both of each channel', '`Channels` says both of each channel, as `ChannelRel`'),
        Page(PROOFS, 'The relation, `Standing`,', 'The relation, `MatchStates`,'),
        Page(PROOFS, '\n  `StandsAt`).', '\n  `IsPlacedAt`).'),
        Page(PROOFS, '- **Turns** (`specs/Turns.antt`)', '- **Next steps** (`specs/NextStep.antt`)'),
        Page(PROOFS, 'One field of `Standing` says', 'One field of `MatchStates` says'),
        Page(PROOFS, 'or at rest (`Stance`)', 'or idle (`SideIs`)'),
        Page(PROOFS, '(`specs/Standing.antt`)', '(`specs/MatchStates.antt`)'),
        Page("docs/promises.md", '`pending`; `told`;', '`pending`; `merged_run`;'),
        Page("docs/crates.md", '`told`', '`merged_run`'),
        Page("docs/decisions/029-one-refinement.md", '(`told_of`)', '(`counted_of`)'),
        Page("docs/decisions/067-parts-are-lists.md", '(`told`)', '(`merged_run`)'),
    ),
)

TESTS = Sweep(
    "tests",
    "xt_*: call results results",
    "`told` was a word for what comes of tests, and for other things besides.",
    (),
    (
        Local("xt_parts/src/boards.rt", "Told", "Results", True),
        Local("xt_parts/src/boards.rt", "told", "results", True),
        Local("xt_parts/src/texts.rt", "told", "results", True),
        Local("xt_parts/src/meetings.rt", "told", "results", True),
        Local("xt_front_tests/src/rows.rt", "told", "results", True),
        Local("xt_front_tests/src/deepest.rt", "told", "results", True),
        Local("xl_ends/src/tests.rt", "told", "results", True),
    ),
)

SWEEPS = (MACHINE, FRONT, LOWERING, JOINS, TESTS)
