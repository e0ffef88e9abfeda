"""The dialects: the grammars by which a text may be read."""

from __future__ import annotations

from typing import Dict, FrozenSet, Literal, NamedTuple

from weedle.grammar import KEYWORDS, NUMBERS, READ_BEHIND, TODAY_KEYWORDS, TODAY_READ_BEHIND

#: A grammar by which a text is read: weedle2's rules, or those of today's WebIDL.
Dialect = Literal["weedle2", "today"]


class Grammar(NamedTuple):
    """What differs between dialects."""

    name: Dialect
    #: The number that the library has for it, as `enum weedle_dialect` of include/weedle.h.
    number: int
    #: The rules of a whole text, of what a text is divided into, and of a definition.
    whole: int
    item: int
    definition: int
    #: The words that have the letters of a name, and which of them are read behind which word.
    keywords: FrozenSet[str]
    read_behind: Dict[str, FrozenSet[str]]


WEEDLE2 = Grammar(
    "weedle2", 0, NUMBERS["definitions"], NUMBERS["definition"], NUMBERS["definition"],
    KEYWORDS, READ_BEHIND,
)
TODAY = Grammar(
    "today", 1, NUMBERS["today_definitions"], NUMBERS["today_piece"], NUMBERS["today_definition"],
    TODAY_KEYWORDS, TODAY_READ_BEHIND,
)
GRAMMARS: Dict[str, Grammar] = {it.name: it for it in (WEEDLE2, TODAY)}
# Today's rules are behind those of weedle2's, of which that of a whole text is the last.
FIRST_OF_TODAY = WEEDLE2.whole + 1


def grammar_of(dialect: str) -> Grammar:
    """The grammar of a dialect; ValueError where none has the name."""
    if dialect not in GRAMMARS:
        raise ValueError(f"no dialect has the name {dialect!r}: they are {' and '.join(GRAMMARS)}")
    return GRAMMARS[dialect]


def dialect_of_rule(rule: int) -> Grammar:
    """The grammar that a rule is of, by its number; what both have is weedle2's."""
    return TODAY if rule >= FIRST_OF_TODAY else WEEDLE2
