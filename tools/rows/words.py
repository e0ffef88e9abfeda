"""Says why a text is refused, by the rows of the grammar alone: the furthest place, and in words what is missing there.

It is what docs/GRAMMAR.md says under "What is tried", read by ends.py. The words are those of USING and of
the docs of `Expected`; nothing is taken from the port. Which rules begin a type, a value or a name it learns
from the rows: they are those that fail where such a rule reads the empty text. By which rules a text is read a
dialect says (dialects.py).
"""

from functools import cache

from rows.dialects import WEEDLE2

# What begins a blank or a comment isn't said, since both may stand nearly everywhere.
UNSAID = ("BYTES_LF", "BYTES_SLASH_SLASH", "BYTES_SLASH_STAR", "ONE_OF_BLANK")
NAMED = {
    "NOT_NEXT_NAME": "the end of the word", "NOT_NEXT_SLASH": "no docstring here", "NOT_NEXT_ANY": "the end of the text",
    "PAST_STAR_SLASH": "the end of the comment", "PAST_LF": "the end of the line",
}
CLASSES = {
    "Digit": "a digit", "OneToNine": "a digit from 1 to 9", "Octal": "an octal digit", "Hex": "a hex digit", "Letter": "a letter",
    "Name": "a letter, a digit, `_` or `-`", "Slash": "`/`", "XLetter": "`x` or `X`", "ELetter": "`e` or `E`", "Sign": "a sign",
    "NotQuote": 'a character but `"`', "NotLineFeed": "a character of the line", "Any": "a character",
}
# How many words are said at most.
SHOWN = 6


def starts(rule, dialect=WEEDLE2):
    """The rules without parts by which what the rule reads begins."""
    return starts_by(dialect.ends, rule)


@cache
def starts_by(ends, rule):
    ends.end_of(b"", rule)
    return {it for it in ends.unmet()[1] if it not in UNSAID}


def word(rule, unmet, dialect=WEEDLE2):
    """The word for a rule that is unmet beside others."""
    for kind, reader in dialect.kinds:
        if rule in starts(reader, dialect) and starts(reader, dialect) <= unmet:
            return kind
    kind, what = dialect.ends.rows[rule]
    if rule in NAMED:
        return NAMED[rule]
    return f"`{what}`" if kind == "Bytes" else CLASSES[what]


def words(unmet, dialect=WEEDLE2):
    """The words for rules that are unmet, each once, in the order of the rules."""
    return list(dict.fromkeys(word(rule, set(unmet), dialect) for rule in unmet if rule not in UNSAID))


def sentence(said):
    """``expected `}` or `,` ``: six words at most, and how many more there are."""
    if len(said) > SHOWN:
        return f"expected {', '.join(said[:SHOWN])} or {len(said) - SHOWN} more"
    return "expected " + " or ".join([", ".join(said[:-1]), said[-1]] if said[1:] else said)


def position(text, place):
    """The line and the column of a byte, both from 1; columns are counted in characters."""
    before = text.encode()[:place].decode()
    return before.count("\n") + 1, len(before) - before.rfind("\n")


def refusal(text, rest, dialect=WEEDLE2):
    """Of a text whose rest from this byte on is refused: the furthest byte, and the sentence."""
    dialect.end_of(text.encode()[rest:])
    place, unmet = dialect.ends.unmet()
    return rest + place, sentence(words(unmet, dialect))
