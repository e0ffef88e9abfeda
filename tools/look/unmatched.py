"""Finds where the declared types and the grammar's rows differ.

    python3 tools/look/unmatched.py

The types are those of the crates that read (tools/description/readings.py), the rows those of
tools/description/webidl.py. A struct has to have the parts of its rule's row as its fields, an
enum the alternatives as its variants, in their order; what may be absent has to be an `Option`,
and only that. A rule that keeps a text is that of a struct with one text, and the rule of a
terminal that of a struct with nothing. A `type` is read by the rule that has its name, where one
has. A rule with a doc line has a type, but for parts of leaves. The name of a keyword's or a
symbol's field is that of the terminal, and each word in a variant's name is one of its rule's.

Docs are held against the rows where they give productions: at the front of the doc of a variant or
a field, as in "`[extended attributes] type name;`, also without `[extended attributes]`." A field's
doc has to say where it stands if it may be absent; a struct's doc, whether a docstring may stand
before it and whether it may lack a name.

It prints a line `CRATE: TYPE.PART: ..` for each difference that EXCEPTIONS doesn't name, and one
for each exception that there is no more. The status is 0 where it prints nothing, or else 1.
"""

import re
import sys
from itertools import zip_longest
from pathlib import Path

if not __package__:
    sys.path[0] = str(Path(__file__).resolve().parent.parent)

from description.docs import NUMBERS
from description.names import upper
from description.productions import said_of_all, unlike
from description.readings import Declared, Unread
from description.webidl import BY_NAME
from shared.command_line import take_none, told
from shared.crates import TOP

# What may differ, and why.
EXCEPTIONS = {
    "weedle_parts: BooleanLit": "it holds which of the two words was read, and no terminal",
    "weedle_parts: Generics": "weedle2 has these names for the brackets",
    "weedle_statements: ImplementsDefinition.includes": "weedle2 has this name for it",
    "weedle_types: UnionMemberType.Single": "weedle2 has this name, for a type that is no union",
}
TEXTS = ("String", "&")
# What a struct's doc says of a part that may be absent.
SAID = {"OPT_DOCSTRING": "a docstring may precede it", "OPT_IDENTIFIER": "may lack a name"}
# What an enum's doc says of how many variants it has.
KINDS = re.compile(r"\bfirst of the (\w+) kinds\b")
# The shapes of what is a part of a leaf: no type is read by such a rule.
PARTIAL = ("Silent", "Line")


def parts_of(row):
    """The parts of a rule that a type has to have, in their order."""
    if row[0] == "If":
        return row[1] + (row[3],)
    return row[1] if row[0] in ("Seq", "First") else ()


def read_by(declared, type_):
    """The rule of a part's type, or why none reads it."""
    try:
        return declared.rule_of(type_), None
    except Unread as why:
        return None, why


def unmatched_parts(declared, declaration, rule):
    """Where fields or variants aren't the parts of the row, one by one."""
    if declaration.is_enum != (rule.row[0] == "First"):
        yield "", f"{rule.name} is a {rule.row[0]}, and it is a {declaration.kind}"
        return
    for part, wanted in zip_longest(declaration.parts, parts_of(rule.row)):
        if not part:
            yield "", f"lacks {wanted}, which {rule.name} reads"
            continue
        found, why = read_by(declared, part.type)
        if why or found != wanted:
            has = f"{rule.name} has {wanted or 'no more parts'}"
            yield part.name, f"{why or 'is read by ' + found}, and {has}"
        else:
            yield from ((part.name, text) for text in unmatched_names(declaration, part, found))


def unmatched_always(declared, declaration):
    """What is so of a type with parameters whatever it is given: of the parts without them."""
    for part in declaration.parts:
        found, why = read_by(declared, part.type)
        if not why:
            yield from ((part.name, text) for text in unmatched_names(declaration, part, found))


def letters(name):
    return name.replace("_", "").lower()


def unmatched_names(declaration, part, name):
    """Where a name isn't that of what stands there, or the doc says otherwise what does."""
    rule = BY_NAME[name]
    held = BY_NAME[rule.row[1]] if rule.row[0] == "Opt" else rule
    if declaration.is_enum:
        if not set(upper(part.name).strip("_").split("_")) <= set(name.split("_")):
            yield f"the name isn't of {name}"
        yield from unlike(part.doc, name, said_of_all(declaration.doc))
    elif not part.name.isdigit():
        if held.shape == "Marked" and letters(part.name) != letters(held.name):
            yield f"the name isn't that of {held.name}"
        if ("where" in part.doc.split(".")[0].split()) != (held is not rule):
            yield f"the doc says otherwise whether it may be absent: {part.doc}"
        yield from unlike(part.doc, held.name)


def unmatched_doc(declaration, parts):
    """What a struct's doc says of its parts that isn't so, or an enum's of how many there are."""
    if (said := KINDS.search(declaration.doc)) and said[1] != NUMBERS[len(parts) - 1]:
        yield "", f"the doc says that it is the {said[0]}, and there are {len(parts)}"
    for part, said in SAID.items() if not declaration.is_enum else ():
        if (part in parts) != (said in declaration.doc.lower()):
            yield "", f"the doc says otherwise whether it has {part}: {said}"


def unmatched_in(declared, declaration):
    """The parts of a declaration that differ from its rule, and how they do."""
    rule = BY_NAME.get(upper(declaration.name))
    if declaration.kind == "type":
        found, why = read_by(declared, declaration.parts[0].type)
        if rule and found != rule.name:
            yield "", f"{why or 'is read by ' + found}, and not by {rule.name}"
    elif declaration.parameters:
        yield from unmatched_always(declared, declaration)
    elif not rule:
        yield "", f"no rule has the name {upper(declaration.name)}"
    elif rule.shape == "Marked":
        if declaration.parts:
            yield "", f"{rule.name} is a terminal's, and it has parts"
    elif rule.shape != "Plain":
        if [part.type.name in TEXTS for part in declaration.parts] != [True]:
            yield "", f"{rule.name} keeps one text, and it holds something else"
    else:
        yield from unmatched_parts(declared, declaration, rule)
        yield from unmatched_doc(declaration, parts_of(rule.row))


def unmatched(declared):
    """A line for each difference, with the type and the part that it is of."""
    for declaration in [*declared.types.values(), *declared.aliases.values()]:
        for part, text in unmatched_in(declared, declaration):
            type_ = f"{declaration.crate}: {declaration.name}"
            place = type_ + f".{part}" * bool(part)
            yield {type_, place}, f"{place}: {text}"


def typeless(declared):
    """A line for each rule with a doc line and a tree of its own that no type has."""
    names = {upper(name) for name in [*declared.types, *declared.aliases]}
    for rule in BY_NAME.values():
        if rule.doc and rule.shape not in PARTIAL and rule.name not in names:
            yield {rule.name}, f"weedle_grammar: {rule.name}: no type has the name of this rule"


def found_in(declared, exceptions):
    """The lines to print: differences that are no exceptions, and exceptions that aren't needed."""
    rows = [*unmatched(declared), *typeless(declared)]
    yield from (row for places, row in rows if not places & set(exceptions))
    needed = set().union(*(places for places, _ in rows))
    for place in exceptions:
        if place not in needed:
            yield f"{place}: no exception is needed any more"


if __name__ == "__main__":
    take_none(__doc__)
    sys.exit(told(found_in(Declared.of(TOP), EXCEPTIONS)))
