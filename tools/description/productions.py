"""What a doc line says that is read, held against the rule that reads it.

A doc line gives productions at its front: "`[extended attributes] type name;`, also without
`[extended attributes]`." or "The word `getter`." Where a rule has a word of its own below, that
stands for what it reads.
"""

import re
from itertools import product

from description.webidl import BY_NAME

# Rules that have words of their own in docs.
WORDS = {
    "docstring": "DOCSTRING",
    "[extended attributes]": "EXTENDED_ATTRIBUTE_LIST",
    "name": "IDENTIFIER",
    "names": "IDENTIFIER_LIST",
    "arguments": "ARGUMENT_LIST",
    "type": (
        "TYPE RETURN_TYPE ATTRIBUTED_TYPE NON_ANY_TYPE CONST_TYPE RECORD_KEY_TYPE UNION_MEMBER_TYPE"
    ),
    "value": "CONST_VALUE DEFAULT_VALUE",
    "members": "INTERFACE_MEMBERS MIXIN_MEMBERS NAMESPACE_MEMBERS DICTIONARY_MEMBERS",
    ": parent": "INHERITANCE",
    '"text"': "STRING_LIT",
    '"value", "value"': "ENUM_VALUE_LIST",
}
WORD_OF = {rule: word for word, rules in WORDS.items() for rule in rules.split()}

QUOTED = re.compile(r"`([^`]+)`")
# What stands before the first production of a doc line, and between two.
FRONT = re.compile(r"(?:The (?:words? )?)?(?=`)")
MORE = re.compile(r"(?:, or |, | or )(?=`)")
AND = re.compile(r" and (?=`)")
TOKEN = re.compile(r'\[extended attributes\]|"\w+"|\.\.\.|-?\w+|\S')
# What is said to be optional: by an enum's doc of all its variants, and by a variant's of itself.
MAY_BE_ABSENT = re.compile(r"Of what its variants read, (.*?) may be absent")
WITHOUT = re.compile(r"\bwithout (.*?)(?:, where|[.:]|$)")
NAMED = re.compile(r"`([^`]+)`|\bthe (name)\b")


def tokens(text):
    return tuple(TOKEN.findall(text))


def forms(rule, is_whole=False):
    """All that a rule reads, each as its tokens; of one that may be repeated, one or two of it."""
    if not is_whole and rule in WORD_OF:
        return {tokens(WORD_OF[rule])}
    it = BY_NAME[rule]
    kind, *parts = it.row
    if it.shape == "Marked":
        texts = [BY_NAME[name].row for name in parts[0]]
        return {tokens(row[1]) for row in texts if row[0] == "Bytes"}
    if kind == "Opt":
        return {(), *forms(parts[0])}
    if kind == "First":
        return set().union(*map(forms, parts[0]))
    if kind in ("List", "List1"):
        items, separators = forms(parts[0]), forms(BY_NAME[parts[1]].row[2])
        return items | {a + b + c for a, b, c in product(items, separators, items)}
    names = parts[0] + (parts[2],) if kind == "If" else parts[0]
    found = {()}
    for name in names if kind in ("Seq", "If") else ():
        found = {before + after for before in found for after in forms(name)}
    return found


def optional_in(rule, is_whole=False):
    """The rules that may be absent in what a rule reads, each with its forms."""
    it = BY_NAME[rule]
    kind, *parts = it.row
    if it.shape == "Marked" or rule in WORD_OF and not is_whole:
        return {}
    if kind == "Opt":
        return {parts[0]: forms(parts[0])}
    names = parts[0] if kind in ("Seq", "First", "If") else ()
    names += (parts[2],) if kind == "If" else ()
    return {name: told for part in names for name, told in optional_in(part).items()}


def productions(doc):
    """The productions at the front of a doc line, and what follows them."""
    begin, found, is_joined = FRONT.match(doc), [], False
    place = begin.end() if begin else None
    while place is not None:
        one = QUOTED.match(doc, place)
        found = [*found[:-1], f"{found[-1]} {one[1]}"] if is_joined else [*found, one[1]]
        more, is_joined = MORE.match(doc, one.end()), bool(AND.match(doc, one.end()))
        more = more or AND.match(doc, one.end())
        place, rest = more and more.end(), one.end()
    return found, doc[rest:] if found else doc


def named_in(text):
    """The tokens of each part that a text names, as `readonly` or the name."""
    return {tokens(quoted or word) for quoted, word in NAMED.findall(text)}


def unlike(doc, rule, said=""):
    """How a variant's doc and what is `said` of all variants differ from the rule that reads it."""
    found, rest = productions(doc)
    if not found:
        return
    whole, optional = forms(rule, True), optional_in(rule, True)
    given = [tokens(production) for production in found]
    for production, one in zip(found, given):
        if one not in whole:
            yield f"`{production}` isn't what {rule} reads"
    named = named_in(said) | named_in(rest)
    for name, told in optional.items():
        is_shown = [any(holds(one, form) for form in told if form) for one in given]
        if not named & told and not (any(is_shown) and not all(is_shown)):
            yield f"{name} may be absent, and the doc doesn't say so"
    may_be = set().union(*optional.values())
    for part in set().union(*map(named_in, WITHOUT.findall(rest))) - may_be:
        yield f"`{' '.join(part)}` isn't absent in any reading of {rule}"


def holds(tokens_, form):
    return any(tokens_[k:k + len(form)] == form for k in range(len(tokens_)))


def said_of_all(doc):
    """What an enum's doc says that may be absent in its variants."""
    found = MAY_BE_ABSENT.search(doc)
    return found[1] if found else ""
