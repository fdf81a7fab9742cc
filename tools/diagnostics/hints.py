"""What may have been meant where the grammar is broken or a form isn't built: worked out from the tokens in front, and only likely."""

from __future__ import annotations

import os
import re
from dataclasses import dataclass
from typing import Callable, Optional

from .source import Source, Token
from .words import HERE, names_of_words, read_words

GROUPS = read_words()
WORDS = names_of_words(GROUPS)
CLOSES = {")": "(", "]": "[", "}": "{"}
COMPARES = {"==", "!=", "<=", ">="}
CHANGES = {"=", "++", "--", *(it for it in GROUPS["symbols"] if len(it) > 1 and it.endswith("=") and it not in COMPARES)}
OPERATORS = {"+", "-", "*", "/", "%", "&", "|", "^", "<", ">", "?", "&&", "||", "<<", ">>", *COMPARES}
DECLARES = {*GROUPS["types"]} - {"void"}
UNBUILT = re.compile(r"\bone of the words `([a-z ]+)`")
NOTHING = Token("", 0, 0)


@dataclass(frozen=True)
class Spot:
    """A place of a text: what stands there, its line, whether the text ends there, and the tokens in front; of these the indices of
    the brackets that aren't closed, from the outermost on, and the index of the one that was closed last, or -1."""

    here: str
    line: int
    is_end: bool
    tokens: list[Token]
    opened: list[int]
    closed: int

    def back(self, count: int) -> Token:
        """The token so many in front."""
        return self.tokens[-count] if count <= len(self.tokens) else NOTHING

    @property
    def inner(self) -> Token:
        """The innermost bracket that isn't closed."""
        return self.tokens[self.opened[-1]] if self.opened else NOTHING

    @property
    def head(self) -> str:
        """What stands in front of the innermost bracket that isn't closed."""
        return self.tokens[self.opened[-1] - 1].text if self.opened and self.opened[-1] else ""

    @property
    def begin(self) -> str:
        """The first token of the statement at hand."""
        begins = [index + 1 for index, token in enumerate(self.tokens) if token.text in (";", "{", "}")]
        return self.tokens[begins[-1]].text if begins and begins[-1] < len(self.tokens) else ""


def spot(source: Source, line: int, column: int) -> Spot:
    tokens = source.tokens_before(line, column)
    opened: list[int] = []
    closed = -1
    for index, token in enumerate(tokens):
        if token.text in CLOSES.values():
            opened.append(index)
        elif opened and CLOSES.get(token.text) == tokens[opened[-1]].text:
            closed = opened.pop()
    return Spot(source.at(line, column), line, source.is_end(line, column), tokens, opened, closed)


def of_end(it: Spot) -> str:
    return unclosed(it) if it.is_end and it.opened else ""


def of_kept_word(it: Spot) -> str:
    return f"`{it.here}` is kept for later: no form has it yet, and no name may be it." if it.here in GROUPS["kept"] else ""


def of_word_as_name(it: Spot) -> str:
    is_name_wanted = it.back(1).text in DECLARES - {"unsigned"}
    return f"`{it.here}` is a word of the language, so nothing can have it as its name." if it.here in WORDS and is_name_wanted else ""


def of_global_variable(it: Spot) -> str:
    is_declared = is_name(it.back(1).text) and it.back(2).text in DECLARES and it.here in ("=", ";", ",", "[")
    text = "Ports are all that is declared outside of functions: declare it in main, and hand it on as an argument."
    return text if is_declared and not it.opened else ""


def of_values_of_array(it: Spot) -> str:
    text = "Arrays have no initial values: they are 0 at first, and their elements are assigned one by one."
    return text if it.here == "=" and it.back(1).text == "]" and it.begin in DECLARES else ""


def of_change_inside(it: Spot) -> str:
    is_changed = it.here in CHANGES and (is_name(it.back(1).text) or it.back(1).text == "]")
    text = "Nothing is changed inside an expression: change it in a statement in front, and compare with `==`."
    return text if is_changed and it.opened else ""


def of_call_inside(it: Spot) -> str:
    is_called = it.here == "(" and is_name(it.back(1).text) and bool(it.opened)
    was_called = it.here in OPERATORS and it.back(1).text == ")" and it.closed > 0 and is_name(it.tokens[it.closed - 1].text)
    text = "A call stands by itself, or right behind `=` or `return`: store its value in a variable first."
    return text if is_called or was_called else ""


def of_second_dimension(it: Spot) -> str:
    return "Arrays have one dimension: use `a[i * WIDTH + j]`." if it.here == "[" and it.back(1).text == "]" else ""


def of_case(it: Spot) -> str:
    is_in_case = it.head == "select" and it.inner.text == "{" and it.back(1) != it.inner
    return "Each case of a `select` ends with `break;`." if is_in_case and it.here in ("case", "default", "}") else ""


def of_bracket(it: Spot) -> str:
    return unclosed(it) if it.here in (";", "{", "}") and it.inner.text in ("(", "[") and it.head != "for" else ""


def of_semicolon(it: Spot) -> str:
    last = it.back(1)
    ends = last.text[:1].isalnum() or last.text[:1] == "_" or last.text in (")", "]", "++", "--")
    is_behind = last.line < it.line or it.here == "}"
    return f"Perhaps a `;` is missing behind the `{last.text}` of {place(last)}." if ends and is_behind else ""


HINTS: tuple[Callable[[Spot], str], ...] = (
    of_end,
    of_kept_word,
    of_word_as_name,
    of_global_variable,
    of_values_of_array,
    of_change_inside,
    of_call_inside,
    of_second_dimension,
    of_case,
    of_bracket,
    of_semicolon,
)


def hint_of_grammar(source: Source, line: int, column: int) -> str:
    """What may be meant where the grammar is broken: the first hint that fits, or nothing."""
    it = spot(source, line, column)
    return next(filter(None, (hint(it) for hint in HINTS)), "")


def is_name(text: str) -> bool:
    return text.isidentifier() and text not in WORDS


def unclosed(it: Spot) -> str:
    return f"The `{it.inner.text}` of {place(it.inner)} isn't closed."


def place(token: Token) -> str:
    return f"line {token.line}, column {token.column}"


def unbuilt_words(page: str = os.path.join(os.path.dirname(HERE), "docs", "language.md")) -> set[str]:
    """The words that tell a form which isn't built yet, as docs/language.md lists them; none where it doesn't."""
    try:
        with open(page, encoding="utf-8") as file:
            match = UNBUILT.search(file.read())
    except OSError:
        match = None
    return set(match[1].split()) if match else set()


def first_unbuilt(source: Source, unbuilt: set[str]) -> Optional[Token]:
    """The first token of a text that is such a word."""
    return next((it for it in source.tokens_before(len(source.lines) + 1, 1) if it.text in unbuilt), None)
