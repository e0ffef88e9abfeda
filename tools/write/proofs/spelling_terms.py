"""The definitions and the proofs that tools/write/spellings.py writes of a type.

`known` are the names of the spellings that are stated so far: a type whose spelling stands behind is
spelt by its fields.
"""

from description.docs import about
from description.imports import home_of, use
from description.webidl import BY_NAME
from write.proofs.idl_parts import DECLARED
from write.proofs.spelt import (
    BRACKETS, FORMERS, HELPERS, LISTS, bare, base_of, fact, form, function, is_box, is_made, name_of_fact,
    named_in, terminal,
)

BOXES = {"type": "a type in a box: the type", "return_type": "the type of a result in a box: that type"}
# The facts of structs whose first and last fields are brackets.
OPENING = {"OpenParen": "parenthesized"}
# The list that a whole text is: it is one of the logic, since no struct holds it.
WHOLE = "Definitions"


class Item:
    """A type, with what is written of it."""

    def __init__(self, type_):
        self.type, self.whole = type_, DECLARED.expanded(type_)
        self.rule, self.name = DECLARED.rule_of(type_), function(type_)
        self.base, self.fact = base_of(self.rule), name_of_fact(self.rule)
        self.row = BY_NAME[self.rule].row
        self.is_made, self.is_box = is_made(type_), is_box(type_)
        self.has_law = not self.is_box and self.rule not in HELPERS
        self.declaration = None if self.is_made or self.is_box else DECLARED.types[self.whole.name]
        self.is_enum = self.declaration is not None and self.declaration.is_enum

    @property
    def parts(self):
        if self.declaration:
            return DECLARED.parts_of(self.type)
        return [(str(number), it) for number, it in enumerate(self.whole.arguments)]

    @property
    def doc(self):
        return (self.declaration or DECLARED.aliases[self.type.name]).doc

    @property
    def about(self):
        """What a comment calls it."""
        if self.is_box:
            return BOXES[self.base]
        if self.rule in HELPERS:
            return HELPERS[self.rule]
        said = about(self.doc)
        if self.row[0] == "If":
            names = [name for name, _ in self.parts]
            return f"{said}; its {names[-1]} is there only where `{names[self.row[2]]}` is"
        if self.whole.name in LISTS:
            return f"{said.split(',')[0]}, with `{terminal(self.whole.arguments[1])[1]}` between them"
        return said

    def pattern(self, variant):
        return f"({self.whole.name}-{variant} v)"

    @property
    def variants(self):
        """The line that brings the variants of an enum in."""
        names = [f"{name} as {self.whole.name}-{name}" for name, _ in self.parts]
        return use(f"{home_of(self.declaration)}.TheVariants", names)

    def tree(self, stated):
        """The tree of its values, by its own name where that is stated."""
        name = f"{self.base}_tree"
        if name in stated:
            return name
        return f"({FORMERS[self.whole.name]}_tree {base_of(DECLARED.rule_of(self.whole.arguments[0]))}_tree)"

    def needs(self):
        """The types whose spellings its own uses."""
        return [it for _, part in self.parts for it in named_in(part)]


def is_behind(type_, known):
    """Whether a type is declared whose spelling isn't known yet."""
    return not (is_made(type_) or is_box(type_) or terminal(type_)) and function(type_) not in known


def form_in(type_, value, known):
    """A form; of a type whose spelling stands behind, that of its fields."""
    if not is_behind(type_, known):
        return form(type_, value)
    fields = [form_in(part, f"{value}.{name}", known) for name, part in DECLARED.parts_of(type_)]
    return f"({' then '.join(fields)})"


def sequence(parts, known):
    """The forms of a value's parts, one after another."""
    first, *more = [form_in(part, f"v.{name}", known) for name, part in parts]
    return [first, *(f"then {it}" for it in more)]


def fields(it, known):
    """The pieces of a struct's spelling."""
    if it.row[0] != "If":
        return sequence(it.parts, known)
    *parts, (last, _) = it.parts
    condition = it.parts[it.row[2]][0]
    first, *more, end = sequence(parts, known)
    return [f"({first}", *more, f"{end})", f"then {last}_where_{condition} v.{condition} v.{last}"]


def definition(it, known):
    """The clauses of the definition of a type's spelling, each its pattern and the pieces of its value."""
    if it.is_box:
        return [("b", [form(it.whole.arguments[0], "b.value")])]
    if it.is_enum:
        return [(it.pattern(name), [form_in(part, "v", known)]) for name, part in it.parts]
    if it.type.name == WHOLE:
        return [(WHOLE.lower(), [f"each {function(it.parts[0][1])} {WHOLE.lower()}"])]
    if it.whole.name == "Vec":
        return [("v", [f"each {function(it.parts[0][1])} v.items"])]
    if it.is_made and it.whole.name != "()":
        return [("", [bare(function(it.type, True))])]
    return [("v", fields(it, known))]


def fact_in(type_, value, known):
    """A fact; of a type whose facts stand behind, that of its fields."""
    if not is_behind(type_, known):
        return fact(type_, value)
    parts = [(f"{value}.{name}", part) for name, part in DECLARED.parts_of(type_)]
    return " ".join(["node refl refl", *node(parts, known)])


def node(values, known):
    """The pieces of a proof that a rule takes these values, one after another."""
    facts = [fact_in(part, value, known) for value, part in values]
    return [*(f"(part ({it})" for it in facts[:-1]), f"(last ({facts[-1]})" + ")" * len(facts)]


def proof_of_fields(it, known):
    values = [(f"v.{name}", part) for name, part in it.parts]
    if it.row[0] == "If":
        *values, (last, _) = values
        both = f"{values[it.row[2]][0]} {last}"
        name = last.removeprefix("v.")
        cases = [f"({name}_absent {both})", f"({name}_present {both})"]
        return ["if_spelt refl refl", *node(values, known), *cases, "refl refl"]
    first = DECLARED.expanded(it.parts[0][1]).name
    if first in OPENING:
        return [f"{OPENING[first]} ({fact(it.parts[1][1], 'v.body')}) refl refl"]
    return ["node refl refl", *node(values, known)]


def proof(it, known):
    """The clauses of the proof that what the rule takes is so spelt."""
    if it.is_enum:
        return [
            (it.pattern(name), [f"alternative {number} refl refl refl ({fact_in(part, 'v', known)})"])
            for number, (name, part) in enumerate(it.parts)
        ]
    if it.whole.name == "Vec":
        value, items = ("vs", "vs") if it.type.name == WHOLE else ("v", "v.items")
        each = f"all_spelt {fact(it.parts[0][1], '')} {items}"
        return [(value, [f"many_spelt refl refl refl {items} ({each})"])]
    if it.is_made and it.whole.name != "()":
        value = "v" if it.whole.name in BRACKETS else ""
        return [(value, fact(it.type, value, True).split())]
    return [("v", proof_of_fields(it, known))]
