"""How values of a type are spelt in the logic, and by which fact of `weedle_spell` what its rule takes is so.

A type is spelt by a definition of its own where it is declared, where a `type` names it, or where
HELPERS does; else as what it is made of.
"""

from description.readings import TERMINALS
from description.webidl import BY_NAME
from write.proofs.idl_parts import DECLARED

# Types that are made of others, each with the name of its spelling, its fact and its tree.
FORMERS = {
    "Braced": "braced", "Bracketed": "bracketed", "Generics": "generics", "Parenthesized": "parenthesized",
    "Punctuated": "punctuated", "PunctuatedNonEmpty": "punctuated_non_empty",
    "Option": "option", "Vec": "members", "()": "tuple",
}
BRACKETS = ("Braced", "Bracketed", "Generics", "Parenthesized")
# How many equations the fact of a list stands on, behind that of the separator.
LISTS = {"Punctuated": 4, "PunctuatedNonEmpty": 7}
# The rules whose definitions have other names than theirs.
NAMES = {
    "PARENTHESIZED_ARGUMENT_LIST": "arguments",
    "OPT_EXTENDED_ATTRIBUTE_LIST": "attributes",
    "KEY_AND_VALUE_TYPES": "key_and_value",
    "STRING_LIT": "string",
}
# What is spelt by a definition of its own, though it isn't declared, and what is said of it.
HELPERS = {
    "OPT_EXTENDED_ATTRIBUTE_LIST": "extended attributes, or none",
    "KEY_AND_VALUE_TYPES": "the types of keys and values",
    "ASYNC_ITERABLE": "the words `async iterable`",
}


def base_of(rule):
    """The name of a rule's definitions, without what stands behind it."""
    return NAMES.get(rule, rule.lower())


def is_made(type_):
    """Whether a type is made of others by one of FORMERS."""
    return DECLARED.expanded(type_).name in FORMERS


NAMED = {DECLARED.rule_of(it.parts[0].type) for it in DECLARED.aliases.values() if is_made(it.parts[0].type)}
NAMED |= set(HELPERS)


def is_named(type_):
    """Whether values of a type are spelt by a definition of its own."""
    return not is_made(type_) or DECLARED.rule_of(type_) in NAMED


def terminal(type_):
    """The kind of a terminal, `keyword` or `symbol`, and its text; or None."""
    name = DECLARED.expanded(type_).name
    if name not in DECLARED.types or DECLARED.types[name].home != TERMINALS:
        return None
    parts = BY_NAME[DECLARED.rule_of(type_)].row[1]
    [text] = [BY_NAME[part].row[1] for part in parts if BY_NAME[part].row[0] == "Bytes"]
    return ("keyword" if len(parts) == 4 else "symbol"), text


def bare(term):
    """A term without the brackets around it."""
    return term[1:-1] if term.startswith("(") else term


def is_box(type_):
    return DECLARED.expanded(type_).name == "Box"


def function(type_, is_whole=False):
    """The spelling of values of a type; `is_whole` says that it is asked for its definition's sake."""
    whole, word = DECLARED.expanded(type_), terminal(type_)
    if is_box(type_):
        return f"boxed_{base_of(DECLARED.rule_of(type_))}_spelling"
    if word:
        return f'(terminal (codes "{word[1]}"))'
    if is_named(type_) and not is_whole:
        return f"{base_of(DECLARED.rule_of(type_))}_spelling"
    item = function(whole.arguments[0])
    if whole.name == "Option":
        return f"(optional {item})"
    if whole.name in LISTS:
        return f'({FORMERS[whole.name]}_spelling {item} (word (codes "{terminal(whole.arguments[1])[1]}")))'
    return f"({FORMERS[whole.name]}_spelling {item})"


def form(type_, value):
    """How this value is spelt."""
    if is_box(type_):
        return form(*DECLARED.expanded(type_).arguments, f"{value}.value")
    return f"{bare(function(type_))} {value}"


def name_of_fact(rule):
    name = base_of(rule)
    return "type_" if name == "type" else name


def fact(type_, value, is_whole=False):
    """That what the rule takes spells this value; without a value, that it spells any."""
    whole, word = DECLARED.expanded(type_), terminal(type_)
    if is_box(type_):
        return fact(*whole.arguments, f"{value}.value")
    if word:
        return f"{word[0]} refl refl refl"
    if is_named(type_) and not is_whole:
        return f"{name_of_fact(DECLARED.rule_of(type_))} {value}".strip()
    item = whole.arguments[0]
    if whole.name == "Option":
        return f"option_spelt refl refl refl {fact_of_any(item)} {value}".strip()
    if whole.name in LISTS:
        of_item = f"{base_of(DECLARED.rule_of(item))}_tree {function(item)} {fact_of_any(item)}"
        separator = f"refl ({terminal(whole.arguments[1])[0]}_always refl refl)"
        return f"{FORMERS[whole.name]} {of_item} {separator}{' refl' * LISTS[whole.name]} {value}".strip()
    return f"{FORMERS[whole.name]} ({fact(item, f'{value}.body')}) refl refl"


def fact_of_any(type_):
    """The fact of all values of a type, as a term that another is applied to."""
    return fact(type_, "") if is_named(type_) and not terminal(type_) else f"(λ w. {fact(type_, 'w')})"


def type_text(type_):
    """A type in the words of the logic, tuples too."""
    whole = DECLARED.expanded(type_)
    if whole.name == "()":
        return " × ".join(map(DECLARED.logic_type, whole.arguments))
    return DECLARED.logic_text(type_)


def named_in(type_, is_whole=False):
    """The types whose definitions the spelling of a type uses."""
    whole = DECLARED.expanded(type_)
    if is_named(type_) and not is_whole and not is_box(type_):
        yield type_
    else:
        for item in whole.arguments:
            yield from named_in(item)
