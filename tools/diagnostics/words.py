"""The words of the language, as tools/words.txt lists them."""

from __future__ import annotations

import os
import re

HERE = os.path.dirname(os.path.dirname(os.path.realpath(__file__)))
GROUP = re.compile(r"^([a-z]+): (.+)$", re.MULTILINE)


def read_words(path: str = os.path.join(HERE, "words.txt")) -> dict[str, list[str]]:
    """The words by the names of their groups."""
    with open(path, encoding="ascii") as file:
        found = GROUP.findall("".join(line for line in file if not line.startswith("#")))
    return {group: words.split() for group, words in found}


def names_of_words(groups: dict[str, list[str]]) -> set[str]:
    """The words that no name may be."""
    return {word for group in ("control", "types", "places", "conditions", "kept") for word in groups[group]}
