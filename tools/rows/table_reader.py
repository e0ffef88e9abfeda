"""Reads WebIDL by the rows of the grammar, as docs/GRAMMAR.md says them, and gives what `Debug` would show.

The rows are those of tools/description/webidl.py, or these as weedle2 has them: the rules of ends.CHANGED
stand there as they were before they were changed. The names of types, fields and variants are taken from the
declarations in crates/*/src: a rule's type has its name, its fields stand in the order of the
rule's parts, its variants in that of the alternatives. ends.py says where rules end, nodes.py what they read.
"""

from functools import cache

from description import webidl as grammar
from description.names import upper
from description.readings import IDL, LEAVES, TYPES, Declared
from rows.ends import CHANGED, ROWS, Ends
from rows.nodes import parts_of
from shared.crates import TOP
from shared.tree_json import Held, Struct, Unit

BRACKETS = {
    ("OPEN_PAREN", "CLOSE_PAREN"): ("Parenthesized", ("open_paren", "body", "close_paren")),
    ("OPEN_BRACKET", "CLOSE_BRACKET"): ("Bracketed", ("open_bracket", "body", "close_bracket")),
    ("OPEN_BRACE", "CLOSE_BRACE"): ("Braced", ("open_brace", "body", "close_brace")),
    ("LESS_THAN", "GREATER_THAN"): ("Generics", ("open_angle", "body", "close_angle")),
}
# What a rule gives that gives nothing.
NOTHING = object()


def declarations():
    """The name of each type that isn't a terminal, and of its fields or variants, by the name of its rule."""
    found = Declared.of(TOP, [*LEAVES[1:], TYPES, *IDL]).types
    return {upper(name): (name, [part.name for part in it.parts]) for name, it in found.items()}


def marks():
    """The names of terminals, by their rules."""
    names = [name for name, _ in grammar.SYMBOLS] + [*grammar.KEYWORDS, *grammar.CAPITALIZED, "NegInfinity"]
    return {upper(name): name for name in names}


@cache
def ends_of(older):
    """The ends of rules by the rows as they stand, but for those of CHANGED that are named."""
    return Ends(ROWS | dict(CHANGED[what] for what in older))


class Table:
    """The rows, of which some may be weedle2's."""

    TYPES, MARKS = declarations(), marks()
    SHAPES = {rule.name: rule.shape for rule in grammar.RULES}

    def __init__(self, older=()):
        self.ends = ends_of(tuple(older))

    def read(self, text):
        """The byte up to which definitions are read, and their values."""
        return self.ends.end_of(text.encode()), self.value("DEFINITIONS", 0)

    def text(self, start, end):
        return self.ends.text[start:end].decode()

    def value(self, rule, place):
        """The value of a rule that is read at a place."""
        shape, number = (self.SHAPES.get(rule, "Silent").split() + [None])[:2]
        if shape == "Silent":
            return NOTHING
        if shape == "Marked":
            return Unit(self.MARKS[rule])
        parts = parts_of(self.ends, rule, place)
        if shape == "Kept":
            part, start = parts[int(number)]
            return Held(self.TYPES[rule][0], [self.text(start, self.ends.at[part](start))])
        if shape == "Line":
            return self.text(parts[2][1], self.ends.at[rule](place) - 1)
        values = [self.value(*part) for part in parts]
        if shape == "Joined":
            return Held("Docstring", ["\n".join([values[0], *values[1]])])
        return values[0] if shape == "Inner" else self.plain(rule, parts, values)

    def plain(self, rule, parts, values):
        """The value of a rule of a struct, an enum, a list or what may be absent, by those of its parts."""
        kind, *row = self.ends.rows[rule]
        if kind == "Opt":
            return Held("Some", values) if values else None
        if kind in ("Many", "Tail"):
            return values if kind == "Many" else values[1::2]
        if kind in ("List", "List1"):
            separator = Unit(self.MARKS[self.ends.rows[row[1]][2]])
            items = [values[0], *values[1]] if values else []
            name = "Punctuated" if kind == "List" else "PunctuatedNonEmpty"
            return Struct(name, {"list": items, "separator": separator})
        if kind == "First":
            return self.variant(rule, row[0].index(parts[0][0]), values[0])
        absent = [None] * (kind == "If" and len(parts) == len(row[0]))
        return self.struct(rule, row[0], [it for it in values if it is not NOTHING] + absent)

    def variant(self, rule, number, value):
        if rule == "BOOLEAN_LIT":
            return Held("BooleanLit", [number == 0])
        return Held(self.TYPES[rule][1][number], [value])

    def struct(self, rule, parts, values):
        name, fields = self.named(rule, parts)
        if fields and not fields[0].isdigit():
            return Struct(name, dict(zip(fields, values, strict=True)))
        return Held(name, values)

    def named(self, rule, parts):
        """The name and the fields of what a rule of these parts gives; a tuple has no fields, or no name either."""
        if rule in self.TYPES:
            return self.TYPES[rule]
        if rule.startswith("MAY_BE_NULL_"):
            return "MayBeNull", ("type_", "q_mark")
        return BRACKETS.get((parts[0], parts[-1]), (None, None))
