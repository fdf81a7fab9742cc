"""The rules, the errors of runs and the other lines of xcsim, as tools/rules.txt has them."""

from __future__ import annotations

import os
import re
from dataclasses import dataclass

from .words import HERE

HEAD = re.compile(r"(rule [0-9]{3,4}|trap [a-z]+|line .+)")
FIELD = re.compile(r"(broken|example|says|help): (.+)")


@dataclass(frozen=True)
class Rule:
    """A rule, an error of a run, or another line: where it is broken, a least example, what is told at the place (with `{}` for
    what stands there), and what to do."""

    name: str
    broken: str
    example: str
    says: str
    help: str = ""

    @property
    def row(self) -> str:
        """Its row in the tables of docs/."""
        kind, _, name = self.name.partition(" ")
        cells = [self.example, self.broken, f"`{name}`"] if kind == "line" else [name, self.broken, self.example]
        return f"| {' | '.join(cells)} |"


def read_rules(path: str = os.path.join(HERE, "rules.txt")) -> dict[str, Rule]:
    """All of them by their names, which are `rule N`, `trap KIND` and `line TEXT`."""
    found: dict[str, dict[str, str]] = {}
    with open(path, encoding="utf-8") as file:
        for line in (it.rstrip("\n") for it in file if it.strip() and not it.startswith("#")):
            if match := HEAD.fullmatch(line):
                fields = found.setdefault(match[1], {})
            elif match := FIELD.fullmatch(line):
                fields[match[1]] = match[2]
            else:
                raise ValueError(f"{path}: {line}")
    return {name: Rule(name, **fields) for name, fields in found.items()}
