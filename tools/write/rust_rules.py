"""The module of the Rust package that has the grammar's rules, as tools/write/rust_types.py writes it.

It has the numbers and names of the rules, and functions that say which rule reads what is made of
others, as an option of what another rule reads, or such a thing between parentheses.
"""

import re

from description import today
from description.names import upper
from description.webidl import BY_NAME, NUMBER, RULES

# The generic types with brackets, by the rules of these.
BRACKETS = {
    ("OPEN_PAREN", "CLOSE_PAREN"): "Parenthesized", ("OPEN_BRACKET", "CLOSE_BRACKET"): "Bracketed",
    ("OPEN_BRACE", "CLOSE_BRACE"): "Braced", ("LESS_THAN", "GREATER_THAN"): "Generics",
}
# What reads a part of these rules is asked for by name: the definitions, `true`, and a line of a docstring.
NAMED = ("DEFINITIONS", "TRUE", "PAST_LF")
# The whole of a text by today's rules, of which there are nodes and no types.
TODAY = "TODAY_DEFINITIONS"
# The names of what a function is given, by how many they are.
GIVEN = {1: ["item"], 2: ["first", "second"], 3: ["first", "second", "third"]}
# What each function says.
ABOUT = {
    "option": "The rule that reads what another one reads, or nothing.",
    "vec": "The rule that reads what another one reads, again and again.",
    "pair": "The rule that reads what two others read.",
    "triple": "The rule that reads what three others read.",
    "may_be_null": "The rule that reads what another one reads, and a `?` where one is.",
    "punctuated": "The rule that reads items of one rule with separators of another between them.",
    "punctuated_non_empty": "The same with one item at least, and perhaps a separator behind them.",
    "parenthesized": "The rule that reads what another one reads, between parentheses.",
    "bracketed": "The rule that reads what another one reads, between square brackets.",
    "braced": "The rule that reads what another one reads, between braces.",
    "generics": "The rule that reads what another one reads, between angle brackets.",
}

HEAD = """\
//! The rules of the grammar, and which of them read what is made of others.
//!
//! {written}

/// No rule of the grammar.
pub const NONE: u16 = u16::MAX;

/// How many rules there are.
pub const COUNT: u32 = {count};

/// The version of the library that has these rules: a byte each for its three numbers.
pub const VERSION: u32 = {version};
"""

LONG = """\

/// Whether a rule reads as much of a text as there is.
pub const fn is_long(rule: u16) -> bool {{
    matches!(
        rule,
        {rules}
    )
}}
"""

FUNCTION = """\

/// {about}
pub const fn {name}({parameters}) -> u16 {{
    match {given} {{
{arms}        _ => NONE,
    }}
}}
"""


def tables():
    """For each function the rules that it answers, by those that it is given."""
    found = {name: {} for name in ABOUT}
    for rule in RULES:
        for name, given in ways(rule):
            found[name][given] = rule.name
    return found


def ways(rule):
    """The functions that answer a rule, each with what it is given."""
    kind, *parts = rule.row
    if kind == "List":
        yield "punctuated", (parts[0], BY_NAME[parts[1]].row[2])
    elif kind == "Seq" and rule.shape == "Inner":
        first = BY_NAME[parts[0][0]].row
        yield "punctuated_non_empty", (first[1], BY_NAME[first[2]].row[2])
    elif rule.shape == "Plain" and kind in ("Opt", "Many"):
        yield {"Opt": "option", "Many": "vec"}[kind], (parts[0],)
    elif rule.shape == "Plain" and kind == "Seq":
        yield from ways_of_sequence(tuple(parts[0]))


def ways_of_sequence(parts):
    """The same of a rule that reads these, one behind the other."""
    if len(parts) == 2:
        yield ("may_be_null", parts[:1]) if parts[1] == "OPT_Q_MARK" else ("pair", parts)
    if len(parts) == 3:
        yield "triple", parts
        if (parts[0], parts[2]) in BRACKETS:
            yield BRACKETS[parts[0], parts[2]].lower(), parts[1:2]


def function_text(name, table):
    """A function that looks up a rule."""
    size = len(next(iter(table)))
    given = GIVEN[size]
    arms = "".join(f"        {tuple_of(parts)} => {rule},\n" for parts, rule in table.items())
    parameters = ", ".join(f"{it}: u16" for it in given)
    return FUNCTION.format(
        about=ABOUT[name], name=name, parameters=parameters, given=tuple_of(given), arms=arms
    )


def tuple_of(words):
    """Words as a tuple, or the one that there is."""
    return words[0] if len(words) == 1 else f"({', '.join(words)})"


def rules_text(written, version, named):
    """The module, with a constant for each rule that it names, or that is named elsewhere."""
    functions = "".join(function_text(name, table) for name, table in tables().items())
    many = [it.name for it in RULES if it.row[0] == "Many" and it.shape == "Plain"] + [TODAY]
    functions = LONG.format(rules="\n            | ".join(many)) + functions
    used = {*named, *NAMED, *re.findall(r"\b[A-Z][A-Z0-9_]+\b", functions)} & {*NUMBER, TODAY}
    constants = "".join(
        f"pub const {it.name}: u16 = {today.NUMBER[it.name]};\n" for it in today.RULES if it.name in used
    )
    names = "".join(f'    "{it.name.lower()}",\n' for it in today.RULES)
    head = HEAD.format(written=written, count=len(today.RULES), version=version)
    about = "/// The names of the rules, by their numbers."
    listed = f"\n{about}\npub const NAMES: [&str; {len(today.RULES)}] = [\n{names}];\n"
    return f"{head}\n{constants}{functions}{listed}"


def function_of(name):
    """The function that answers the rules of a generic type."""
    return upper(name).lower()
