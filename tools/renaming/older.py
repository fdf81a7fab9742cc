"""What definitions and modules were called before the steps of the tables, and the text of a file in the names that those steps find."""

from __future__ import annotations

import re

TREE, KERNEL, MEANING = "Rattle.xc_tree.specs", "Rattle.xc_kernel.specs", "Rattle.xc_meaning.specs"
WORDS, INSTR, DISJOINT = "Rattle.xw_words.specs", "Rattle.xs_instr.specs", "Rattle.xc_disjoint.specs"
PARSER, PHRASES = "Rattle.xc_parser.proofs", "Rattle.xc_phrases.proofs"

# What a definition was called and where it stood, and what it is called and where it stands.
NAMES = {
    (f"{MEANING}.States.Worlds", "Move"): (f"{MEANING}.States.Worlds", "Action"),
    (f"{MEANING}.Moves.Step", "Step"): (f"{MEANING}.Settings.Setting", "Setting"),
    (f"{MEANING}.Runs", "moves"): (f"{MEANING}.Runs", "acts"),
    (f"{MEANING}.Runs", "moves_all"): (f"{MEANING}.Runs", "acts_all"),
    (f"{MEANING}.Moves.Time", "pinseq"): (f"{TREE}.Words", "pinseq_word"),
    (f"{MEANING}.Moves.Time", "pinsneq"): (f"{TREE}.Words", "pinsneq_word"),
    ("Rattle.xc_built.specs.Steps", "Move"): ("Rattle.xc_built.specs.Steps", "Action"),
    ("Rattle.xc_built.specs.Steps", "moves"): ("Rattle.xc_built.specs.Steps", "acts"),
    ("Rattle.xc_built.specs.Program", "port_count"): (f"{WORDS}.Ports", "port_count"),
    (f"{DISJOINT}.Accepted", "IsAccepted"): (f"{DISJOINT}.Checked", "IsChecked"),
    (f"{DISJOINT}.Sides", "Seen"): (f"{DISJOINT}.Sides", "RootUse"),
    (f"{DISJOINT}.Programs", "IsOfProgram"): (f"{KERNEL}.Sound", "IsOfProgram"),
    ("Rattle.xs_port.specs.Seen", "Seen"): ("Rattle.xs_port.specs.State", "PortsState"),
    (f"{TREE}.Tables", "place_in"): (f"{WORDS}.Tables", "place_in"),
    (f"{TREE}.Tables", "place_from"): (f"{WORDS}.Tables", "place_from"),
    (f"{TREE}.Names.Ports", "identifiers"): (f"{WORDS}.Ports", "identifiers"),
    (f"{TREE}.Types.Rules", "timerafter"): (f"{TREE}.Words", "timerafter_word"),
    (f"{KERNEL}.Identifiers", "identifiers"): (f"{WORDS}.Ports", "identifiers"),
    (f"{TREE}.Names.Ports", "core_of"): (f"{TREE}.Names.Ports", "core_of_port"),
    ("Rattle.xc_types.specs.declared.seen.Seen", "Seen"): ("Rattle.xc_types.specs.declared.findings.Findings", "Findings"),
    (f"{INSTR}.Ports", "width_of"): (f"{WORDS}.Ports", "width_of"),
    (f"{INSTR}.Texts", "port_text"): (f"{WORDS}.Ports", "port_text"),
} | {(f"{KERNEL}.Operators", name): (f"{TREE}.Symbols", name) for name in ("bracket", "equals", "question")}

# What modules were called, and what they are called.
MODULES = {
    f"{MEANING}.Moves.Step": f"{MEANING}.Settings.Setting",
    f"{MEANING}.Moves": f"{MEANING}.Settings",
    f"{DISJOINT}.Accepted": f"{DISJOINT}.Checked",
    "Rattle.xs_port.specs.Seen": "Rattle.xs_port.specs.State",
    "Rattle.xc_types.specs.Seen": "Rattle.xc_types.specs.Findings",
    "Rattle.xc_names.specs.Starts": "Rattle.xc_marks.specs.Starts",
    "Rattle.xr_text.specs.Ranges": f"{INSTR}.Words",
    "Rattle.xc_form.specs.Words": f"{WORDS}.Tables",
}

FOLDERS = {
    "Derivations": "Inverse Lists Counts Depths Heights Statures Forth Firsts Covers Cuts Reaches Single TokenReads TokenSets Columns",
    "Rests": "Rests Opening Narrows Alternatives Spreads Beginnings Behinds Overs Heads Advances Moves Choices Aheads Unfinished",
    "Reading": "Paths Loops Rows Rounds Runs RowReads RowSteps Exits Insides InsideRows Listed Items Whole Lasts Tests Stated",
    "Declaring": "Params ParamRows Declarators DeclaredRows Cores ItemHeads PortParts",
    "Valued": "Operators Levels Chains Climbing Atoms Choosing RightSides",
    "Stating": "Elses Ifs Conditionals Braces Simples Tails Targets Marks Transferring Counting Branches CaseLists CaseEnds CaseItems"
    " CaseSteps Guards",
    "Meeting": "Meetings Differing LevelsMeet NamesEnd CallsMeet CasesMeet StatementsMeet Openers Sole",
}
MODULES |= {f"Rattle.xc_names.proofs.{file}": f"Rattle.xc_marks.proofs.{file}" for file in ("Bodies", "Lists", "Starts", "Steps")}
MODULES |= {f"{PARSER}.{file}": f"{PHRASES}.{folder}.{file}" for folder, files in FOLDERS.items() for file in files.split()}

IMPORT = re.compile(r"(\s*(?:ghost )?use )([\w.]+)\.\{([^}]*)\}(;?)")
ALIAS = re.compile(r"\s*(?:ghost )?use ([\w.]+) as (\w+);?")


def module_now(module: str) -> str:
    """A module's name before the steps: by the longest name of a module, its own or one around it, that has changed."""
    parts = module.split(".")
    for count in range(len(parts), 0, -1):
        before = ".".join(parts[:count])
        after = MODULES.get(before)
        if after and not module.startswith(f"{after}.") and module != after:
            return after + module[len(before) :]
    return module


def import_now(line: str, renamed: dict[str, str]) -> list[str]:
    """The lines that stand for an import, and with it which names the file has to change."""
    match = IMPORT.fullmatch(line)
    if not match:
        return [line]
    start, module, items, end = match.groups()
    now: dict[str, list[str]] = {}
    for item in items.split(","):
        name, _, other = item.strip().partition(" as ")
        place, new = NAMES.get((module, name), (module_now(module), name))
        if new != name and not other:
            renamed[name] = new
        now.setdefault(place, []).append(f"{new} as {other}" if other else new)
    return [f"{start}{place}.{{{', '.join(names)}}}{end}" for place, names in now.items()]


def older_now(text: str) -> str:
    """The text of a .rt or .antt file in the names that the first step finds."""
    renamed: dict[str, str] = {}
    lines: list[str] = []
    aliases: list[tuple[str, str, str]] = []
    for line in text.split("\n"):
        match = ALIAS.fullmatch(line)
        if match:
            aliases += [(match[2], name, new) for (module, name), (_, new) in NAMES.items() if module == match[1]]
        lines += import_now(line, renamed)
    changes = [(rf"(?<![\w.]){name}(?!\w)", new) for name, new in renamed.items()]
    changes += [(rf"(?<![\w.]){alias}\.{name}(?!\w)", f"{alias}.{new}") for alias, name, new in aliases]
    for at, line in enumerate(lines):
        if not IMPORT.fullmatch(line):
            for before, after in changes:
                line = re.sub(before, after, line)
            lines[at] = line
    body = "\n".join(lines)
    return re.sub(r"Rattle\.\w+\.(?:specs|proofs)[\w.]*\w", lambda it: module_now(it[0]), body)
