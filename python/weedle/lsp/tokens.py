"""What each word of a text is, for an editor that colours it: semantic tokens."""

from __future__ import annotations

import re
from typing import Dict, List, NamedTuple, Optional

from weedle._dialect import GRAMMARS
from weedle._text import Span
from weedle.grammar import NUMBERS, RULES
from weedle.lsp.positions import Lines, Place
from weedle.lsp.protocol import Check, Json, nothing
from weedle.lsp.scanning import PATTERN
from weedle.lsp.sources import Source
from weedle.names import FIRST_ROLES, LATER_ROLES, Role

TYPES = (
    "namespace", "type", "class", "enum", "interface", "struct", "parameter", "variable",
    "property", "function", "method", "keyword", "comment", "string", "number", "decorator",
)
MODIFIERS = ("declaration", "readonly", "documentation", "defaultLibrary")
DECLARATION, READONLY, DOCUMENTATION, LIBRARY = (1 << at for at in range(len(MODIFIERS)))
LEGEND: Json = {"tokenTypes": TYPES, "tokenModifiers": MODIFIERS}


class Look(NamedTuple):
    """What a token is: its type, and its modifiers as bits."""

    type: int
    modifiers: int = 0


def look(name: str, modifiers: int = 0) -> Look:
    """The number of a type, with modifiers."""
    return Look(TYPES.index(name), modifiers)


ROLES: Dict[Role, Look] = {
    **dict.fromkeys(Role, look("type")),
    Role.INTERFACE: look("interface", DECLARATION),
    Role.CALLBACK_INTERFACE: look("interface", DECLARATION),
    Role.MIXIN: look("class", DECLARATION), Role.NAMESPACE: look("namespace", DECLARATION),
    Role.DICTIONARY: look("struct", DECLARATION), Role.ENUM: look("enum", DECLARATION),
    Role.TYPEDEF: look("type", DECLARATION), Role.CALLBACK: look("function", DECLARATION),
    Role.PARTIAL_INTERFACE: look("interface"), Role.PARTIAL_MIXIN: look("class"),
    Role.PARTIAL_DICTIONARY: look("struct"), Role.PARTIAL_NAMESPACE: look("namespace"),
    Role.INCLUDER: look("interface"), Role.INCLUDED: look("class"),
    Role.IMPLEMENTER: look("interface"), Role.IMPLEMENTED: look("interface"),
    Role.CONST: look("variable", DECLARATION | READONLY),
    Role.ATTRIBUTE: look("property", DECLARATION), Role.OPERATION: look("method", DECLARATION),
    Role.DICTIONARY_MEMBER: look("property", DECLARATION),
    Role.ARGUMENT: look("parameter", DECLARATION), Role.EXTENDED_ATTRIBUTE: look("decorator"),
}
KINDS: Dict[str, Look] = {
    "comment": look("comment"), "doc": look("comment", DOCUMENTATION), "string": look("string"),
    "number": look("number"),
}
UNREAD_NAME = look("type")
# The words of the grammar that are types, and what else they are.
TYPE_WORDS = frozenset("""
    any boolean byte octet short long float double unsigned unrestricted undefined object symbol
    bigint DOMString USVString ByteString sequence record Promise FrozenArray Error ArrayBuffer
    ArrayBufferView BufferSource DataView Int8Array Int16Array Int32Array Uint8Array Uint16Array
    Uint32Array Uint8ClampedArray Float32Array Float64Array Float16Array BigInt64Array
    BigUint64Array SharedArrayBuffer ObservableArray async_sequence
""".split())
# What the words of each dialect are.
WORDS: Dict[str, Dict[bytes, Look]] = {
    dialect: {
        it.encode(): look("type", LIBRARY) if it in TYPE_WORDS else look("keyword")
        for it in grammar.keywords
    }
    for dialect, grammar in GRAMMARS.items()
}
IDENTIFIER = NUMBERS["identifier"]
# Behind so many tokens it is asked whether the answer is wanted yet.
OFTEN = 500
# The low byte of that number, by which a name is searched for: numbers of rules have two.
LOW = bytes([IDENTIFIER & 0xFF])
assert len(RULES) < 1 << 16
# Tokens except for signs, which have no colour.
TOKEN = re.compile(PATTERN, re.VERBOSE)


class Encoder:
    """Numbers tokens as the protocol does: each by its place behind the one before."""

    def __init__(self, lines: Lines, place: int) -> None:
        self.data: List[int] = []
        self._lines = lines
        self._last = Place(0, 0)
        # the line that was reached, where it begins and where the next one does
        self._line = lines.line_of(place)
        self._start, self._behind = lines.starts[self._line], lines.start_behind(self._line)

    def put(self, start: int, end: int, kind: Look) -> None:
        """Takes a token behind all others."""
        while start >= self._behind:
            self._line, self._start = self._line + 1, self._behind
            self._behind = self._lines.start_behind(self._line)
        first = self._lines.units(self._start, start)
        if end < self._behind or self._lines.end_of(self._line) >= end:
            self._put(first, self._lines.units(start, end), kind)
            return
        stop = self._lines.end_of(self._line)
        if stop > start:
            self._put(first, self._lines.units(start, stop), kind)
        if end > self._behind:
            self.put(self._behind, end, kind)

    def _put(self, character: int, count: int, kind: Look) -> None:
        line, before = self._last
        first = character - before if self._line == line else character
        self.data += (self._line - line, first, count, *kind)
        self._last = Place(self._line, character)


def roles(source: Source, start: int, end: int) -> Dict[int, Look]:
    """What the names in a part of a text are, by the places of their letters."""
    found = {it.name.span.start: ROLES[it.name.role] for it in source.reading.broken}
    tree = source.tree
    rules, starts, ends = tree.rules, tree.starts, tree.ends
    low = bytes(tree._numbers.cast("B")[0::tree._numbers.itemsize * 4])
    reader, node = -1, low.find(LOW)
    while node >= 0 and starts[node] <= end:
        if rules[node] == IDENTIFIER and start <= ends[node] and tree.depths[node]:
            above = tree.above(node)
            table = LATER_ROLES if above == reader else FIRST_ROLES
            reader = above
            # below it is whitespace in front, mostly none, and then the letters
            found[ends[node + 1]] = ROLES[table[rules[above]]]
        node = low.find(LOW, node + 1)
    return found


def tokens(source: Source, span: Optional[Span] = None, check: Check = nothing) -> Json:
    """The tokens of a text, or of the lines that a part of it is in, numbered."""
    data, lines = source.data, source.lines
    start, end = span or Span(0, len(data))
    start, end = lines.starts[lines.line_of(start)], lines.end_of(lines.line_of(end))
    names, words = roles(source, start, end), WORDS[source.dialect]
    encoder = Encoder(lines, start)
    for number, it in enumerate(TOKEN.finditer(data, start, end)):
        kind = it.lastgroup or ""
        place, behind = it.span()
        found = KINDS.get(kind) or names.get(place) or words.get(it[0])
        if not number % OFTEN:
            check()
        if found or source.is_unread(place):
            encoder.put(place, behind, found or UNREAD_NAME)
    return {"data": encoder.data}
