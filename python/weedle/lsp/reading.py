"""What is read of a text, and what isn't: its definitions, parts of others, and its syntax errors.

This is the one place that asks the parser for them.
"""

from __future__ import annotations

import re
from functools import cached_property
from itertools import groupby
from typing import Iterator, List, NamedTuple, Optional, Sequence

from weedle import parse
from weedle._comments import comments_before, said
from weedle._dialect import Dialect
from weedle._formatting import is_blank
from weedle._listing import listing
from weedle._text import Span
from weedle.edits import AnyDefinitions
from weedle.errors import Refused
from weedle.names import Name, Role
from weedle.recovery import Part, recover

# A hint has its line and its column in front.
HINT = re.compile(r"\d+:\d+: (.*)", re.DOTALL)
# The words that a definition with a name begins with, and what the name stands for behind them.
HEADS = {
    "callback": Role.CALLBACK, "callback interface": Role.CALLBACK_INTERFACE,
    "interface": Role.INTERFACE, "interface mixin": Role.MIXIN, "namespace": Role.NAMESPACE,
    "dictionary": Role.DICTIONARY, "partial interface": Role.PARTIAL_INTERFACE,
    "partial interface mixin": Role.PARTIAL_MIXIN, "partial dictionary": Role.PARTIAL_DICTIONARY,
    "partial namespace": Role.PARTIAL_NAMESPACE, "enum": Role.ENUM, "typedef": Role.TYPEDEF,
}
WORDS = frozenset(word for head in HEADS for word in head.split())
IDENTIFIER, OPEN_BRACE = "identifier", "open_brace"
DOCSTRINGS = frozenset(["opt_docstring", "today_docs"])
DOC_LINE = re.compile(r"^\s*/// ?", re.MULTILINE)


class Hint(NamedTuple):
    """What would fix a text, or what it lacks: a place in bytes, and what is said of it."""

    place: int
    message: str


class Problem:
    """A syntax error. What is said of it is found when it is asked for."""

    def __init__(self, unread: Span, refused: Refused) -> None:
        #: The bytes that aren't read because of it; none where a sign is missing.
        self.unread = unread
        self._refused = refused

    @property
    def place(self) -> int:
        """The furthest byte to which the reading comes."""
        return self._refused.place

    @property
    def expected(self) -> str:
        """What would have been read there, as "`,` or `}`"; empty where memory ran out for it."""
        return self._refused.expected

    @property
    def is_read_today(self) -> bool:
        """Whether today's rules read the whole text, which weedle2's refuse."""
        return self._refused.is_read_today

    @property
    def hint(self) -> Optional[Hint]:
        """What would fix the text, or what it lacks."""
        found, span = HINT.match(self._refused.hint or ""), self._refused.hint_span
        return Hint(span.start, found[1]) if found and span else None


class Broken(NamedTuple):
    """A definition that isn't read whole, except for its name."""

    #: What it is, as "partial interface".
    kind: str
    name: Name
    #: All of it, its words up to its body, as far as they are read, and what its comments say.
    span: Span
    head: Span
    doc: str


class Reading:
    """A text as far as it is read. What is in it is found when it is asked for."""

    def __init__(
        self, definitions: AnyDefinitions, problems: List[Problem], parts: Sequence[Part],
    ) -> None:
        self.definitions, self.problems = definitions, problems
        self._parts = parts

    @property
    def is_whole(self) -> bool:
        """Whether all of it is read."""
        return not self.problems

    @cached_property
    def broken(self) -> List[Broken]:
        """What is read of other definitions."""
        return list(broken_in(self._parts))

    @cached_property
    def roots(self) -> List[int]:
        """The nodes of the parts that are read, in the order of the text.

        They are definitions, and of others the members and whatever else has names, except for the name
        itself.
        """
        if self.is_whole:
            return [self._content(it) for it in self.definitions._tree.children(0)]
        return [
            self._content(it._node) for it in self._parts
            if it._node is not None and it.rule != IDENTIFIER and it.span.end > it.span.start
        ]

    def _content(self, node: int) -> int:
        """What is in a piece of a text of today's grammar, as a definition; else the node itself."""
        tree = self.definitions._tree
        grammar = tree.grammar
        return node + (tree.rules[node] == grammar.item != grammar.definition)


def read(data: bytes, dialect: Dialect = "weedle2") -> Reading:
    """The definitions of a text, what is read of others, and each syntax error.

    A text of whitespace and comments alone has no definitions, and is no error.
    """
    try:
        definitions = parse(b"" if is_blank(data) else data, dialect=dialect)
    except Refused as refused:
        return recovered(data, refused, dialect)
    return Reading(definitions, [], [])


def recovered(data: bytes, first: Refused, dialect: Dialect = "weedle2") -> Reading:
    """What is read of a text that is refused. Its first error is said as of the whole text."""
    try:
        found = recover(data, dialect=dialect)
    except RecursionError:
        return front_of(data, first, dialect)
    empty = parse(b"", dialect=dialect)
    values = [it.value for it in found.definitions]
    definitions: AnyDefinitions = listing(type(empty), found._tree, values)
    problems = [Problem(it.span, it.refusal) for it in found.parts if it.refusal]
    problems[:1] = [Problem(problems[0].unread, first)]
    return Reading(definitions, problems, found.parts)


def front_of(data: bytes, first: Refused, dialect: Dialect) -> Reading:
    """What is read in front of an error, of a text that nests too deep for more."""
    try:
        definitions = parse(data[:first.start], dialect=dialect)
    except Refused:
        definitions = parse(b"", dialect=dialect)
    found = Reading(definitions, [Problem(Span(first.start, len(data)), first)], [])
    tree = definitions._tree
    found.roots = [found._content(it) for it in tree.children(0)]
    return found


def broken_in(parts: Sequence[Part]) -> Iterator[Broken]:
    """The definitions that aren't read whole, except for their names."""
    for _, of_one in groupby(parts, key=lambda it: it.definition):
        found = broken_of(list(of_one))
        if found:
            yield found


def broken_of(parts: List[Part]) -> Optional[Broken]:
    """The definition that some parts are of, where its name is read."""
    words: List[Part] = []
    for at, part in enumerate(parts):
        if part.is_read and part.rule in WORDS:
            words.append(part)
        elif part.is_read and part.rule == IDENTIFIER and words:
            kind = " ".join(it.rule for it in words)
            if kind not in HEADS:
                return None
            name = Name(HEADS[kind], part.value)
            first = next(it for it in parts if it.is_read and it.span.end > it.span.start)
            span = Span(start_of(first), parts[-1].span.end)
            head = Span(start_of(words[0]), head_end(parts[at:]))
            return Broken(kind, name, span, head, doc_of(parts, span.start))
    return None


def start_of(part: Part) -> int:
    """Where the words of a part begin that is read, behind whitespace and comments."""
    assert part._node is not None
    return part._tree.span(part._node).start


def doc_of(parts: List[Part], start: int) -> str:
    """The docstring among some parts, or else what the comments in front of a place say."""
    docstring = next((it.text for it in parts if it.is_read and it.rule in DOCSTRINGS), "")
    comments = comments_before(parts[0]._tree, start)
    lines = [line for it in comments for line in said(it)]
    return DOC_LINE.sub("", docstring).strip("\n") or "\n".join(lines).strip("\n")


def head_end(parts: List[Part]) -> int:
    """Where the words of a definition end, from its name on, in front of its body."""
    end = parts[0].span.end
    for part in parts[1:]:
        if not part.is_read or part.rule == OPEN_BRACE:
            break
        end = part.span.end
    return end
