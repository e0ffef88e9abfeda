"""Rules of a grammar, each with a row, and what makes them.

A rule is found by its name (BY_NAME) or by what it reads and gives (BY_CONTENT): two places that
write the same part, the same row and the same shape, share one rule.
"""

import re
import sys

from description.names import upper


def parts_of(row):
    kind = row[0]
    if kind in ("Seq", "First"):
        return list(row[1])
    if kind in ("Opt", "Many"):
        return [row[1]]
    if kind in ("List", "List1", "Tail"):
        return [row[1], row[2]]
    if kind == "If":
        return list(row[1]) + [row[3]]
    return []


class Rule:
    def __init__(self, name, row, shape, doc):
        self.name, self.row, self.shape, self.doc = name, row, shape, doc


class Section:
    def __init__(self, name, module, about):
        self.name, self.module, self.about, self.rules = name, module, about, []


SECTIONS = []
BY_NAME = {}
BY_CONTENT = {}


def section(name, about):
    module = re.sub(r"(?<=[a-z])(?=[A-Z])", "_", name).lower()
    SECTIONS.append(Section(name, module, about))


def rule(name, row, shape="Plain", doc=None):
    """Adds a rule, or finds the one that has this row and shape."""
    content = (row, shape)
    if content in BY_CONTENT:
        return BY_CONTENT[content]
    if name in BY_NAME:
        sys.exit(f"two rules of the name {name}")
    BY_NAME[name] = Rule(name, row, shape, doc)
    BY_CONTENT[content] = name
    SECTIONS[-1].rules.append(BY_NAME[name])
    return name


# The kinds of row.
SPELLED = {
    "//": "SLASH_SLASH", "/*": "SLASH_STAR", "*/": "STAR_SLASH", "///": "THREE_SLASHES", "\n": "LF",
    "_": "UNDERSCORE", "-": "MINUS", "0": "ZERO", ".": "DOT", '"': "QUOTE",
}


def text_bytes(text, name=None):
    return rule("BYTES_" + (name or SPELLED[text]), ("Bytes", text), "Silent")


def one_of(klass):
    return rule("ONE_OF_" + upper(klass), ("OneOf", klass), "Silent")


def not_next(klass):
    return rule("NOT_NEXT_" + upper(klass), ("NotNext", klass), "Silent")


def run(klass):
    return rule("RUN_" + upper(klass), ("Run", klass), "Silent")


def past(text):
    return rule("PAST_" + SPELLED[text], ("Past", text), "Silent")


def seq(name, *parts, shape="Plain", doc=None):
    return rule(name, ("Seq", parts), shape, doc)


def first(name, *parts, shape="Plain", doc=None):
    return rule(name, ("First", parts), shape, doc)


def opt(x, shape="Plain"):
    return rule("OPT_" + x, ("Opt", x), shape)


def many(name, x, shape="Plain", doc=None):
    return rule(name, ("Many", x), shape, doc)


def punctuated(x, s, name=None, doc=None):
    tail = rule(f"TAIL_{x}_{s}", ("Tail", x, s))
    return rule(name or f"LIST_{x}_{s}", ("List", x, tail), doc=doc)


BRACKETS = {
    "PARENTHESIZED": ("OPEN_PAREN", "CLOSE_PAREN"), "BRACKETED": ("OPEN_BRACKET", "CLOSE_BRACKET"),
    "BRACED": ("OPEN_BRACE", "CLOSE_BRACE"), "GENERICS": ("LESS_THAN", "GREATER_THAN"),
}


def bracketed(kind, x, name=None, doc=None):
    opening, closing = BRACKETS[kind]
    return seq(name or f"{kind}_{x}", opening, x, closing, doc=doc)


def may_be_null(x):
    return seq(f"MAY_BE_NULL_{x}", x, opt("Q_MARK"))
