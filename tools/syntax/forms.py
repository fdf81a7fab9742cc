"""The forms that the files of all editors have in common, as regular expressions that Vim and Oniguruma read alike."""

from __future__ import annotations

from diagnostics.words import read_words
from traces.listing import LETTERS

WORDS = read_words()
DIRECTIVES = "|".join(it.partition(".")[0] for it in WORDS["headers"])  # the names of the headers
PORTS = "|".join(f"{width}[{letters[0]}-{letters[-1]}]" if len(letters) > 1 else f"{width}{letters}" for width, letters in LETTERS.items())
TRANSFERS = ["<:", ":>", "@"]
GROUPS = ("control", "types", "places", "conditions")


def operators() -> list[str]:
    """The symbols that compute, compare, assign or choose, the longest first."""
    others = {*"(){}[];,", *TRANSFERS}
    return sorted((it for it in WORDS["symbols"] if it not in others), key=lambda it: (-len(it), it))
