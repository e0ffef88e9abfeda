"""A parser of WebIDL: the proved parser of this repository, with the typed tree of weedle2.

>>> import weedle
>>> for definition in weedle.parse("interface Window { readonly attribute long x; };"):
...     if isinstance(definition, weedle.Definition.Interface):
...         print(definition.value.identifier.value, definition.value.identifier.span)
Window Span(start=10, end=16)

`parse` gives the definitions of a text, each with its parts as fields; `syntax` gives the nodes,
rule by rule; `format` lays a text out. What isn't WebIDL is `Refused`, with line, column and what was
expected there; `recover` gives all that can be read of it, and all its errors.

All of them read by weedle2's rules, or with `dialect="today"` by those of today's WebIDL, whose tree has
classes of its own in `weedle.today`.
"""

from __future__ import annotations

from typing import Any, Literal, Union, overload

from weedle import (
    _hints, _readers, argument, attribute, common, dictionary, interface, literal, mixin, namespace,
    term, today, types,
)
from weedle._dialect import Dialect, grammar_of
from weedle._formatting import format as format  # given by this name, though not by `import *`
from weedle._listing import listing
from weedle._making import MAKE
from weedle._reading import tree_of
from weedle._text import Position, Span
from weedle._values import Choice, Terminal, Value
from weedle import definitions
from weedle.definitions import *  # noqa: F403  (each kind of definition)
from weedle.definitions import Definition, Definitions
from weedle.edits import Edits
from weedle.errors import Hint, Refused
from weedle.index import REFERENCES, Entry, Index, Member, kind_of, members_of, name_of
from weedle.names import Name, Role
from weedle.nodes import Node, syntax
from weedle import recovery
from weedle.recovery import Part, Recovered, recover

__version__ = "0.11.0"
# `format` isn't here: `from weedle import *` leaves Python's own as it is.
__all__ = [
    "Choice", "Dialect", "Edits", "Entry", "Hint", "Index", "Member", "Name", "Node", "Part",
    "Position", "REFERENCES", "Recovered", "Refused", "Role", "Span", "Terminal", "Value", "argument",
    "attribute", "common", "dictionary", "interface", "kind_of", "literal", "members_of", "mixin",
    "name_of", "namespace", "parse", "recover", "syntax", "term", "today", "types",
    *definitions.__all__,
]


@overload
def parse(
    text: Union[str, bytes], *, recover: bool = False, dialect: Literal["weedle2"] = "weedle2"
) -> Definitions: ...
@overload
def parse(
    text: Union[str, bytes], *, recover: bool = False, dialect: Literal["today"]
) -> today.Definitions: ...
@overload
def parse(
    text: Union[str, bytes], *, recover: bool = False, dialect: Dialect
) -> Union[Definitions, today.Definitions]: ...


def parse(
    text: Union[str, bytes], *, recover: bool = False, dialect: Dialect = "weedle2"
) -> Union[Definitions, today.Definitions]:
    """The definitions of a text.

    >>> parse("Request includes Body;")[0].value.lhs_identifier.value
    'Request'

    Parts are made when they are asked for. It raises `Refused` where the grammar doesn't read the
    whole text, UnicodeDecodeError or UnicodeEncodeError of what is no UTF-8, MemoryError, and
    ValueError of more than 4 GB. With `recover=True` it never raises `Refused`: it gives the
    definitions that are read, whatever is between them, and `errors` of the list says why each
    other part is unread.

    With `dialect="today"` the rules are those of today's WebIDL, and the definitions those of
    `weedle.today`. It raises ValueError of another dialect, and with `recover=True` RecursionError of a
    text with errors that nests too deep for today's rules.
    """
    grammar = grammar_of(dialect)
    kind: Any = Definitions if grammar.name == "weedle2" else today.Definitions
    if recover:
        return _recovered(kind, recovery.recover(text, dialect=dialect))
    tree = tree_of(text, None, grammar)
    make, rules = MAKE[grammar.definition], tree.rules
    # a definition is a piece, or right below one
    below = int(grammar.item != grammar.definition)
    nodes = (it + below for it in tree.children(0))
    items = [make(tree, it) for it in nodes if rules[it] == grammar.definition]
    found: Union[Definitions, today.Definitions] = listing(kind, tree, items)
    return found


def _recovered(kind: Any, found: Recovered) -> Union[Definitions, today.Definitions]:
    """The definitions among the parts of a text."""
    items = [it.value for it in found.definitions]
    made: Union[Definitions, today.Definitions] = listing(kind, found._tree, items)
    made.errors = found.errors
    return made
