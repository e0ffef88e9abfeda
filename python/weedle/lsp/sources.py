"""A text of a file, with what the features of the server ask of it."""

from __future__ import annotations

import re
from bisect import bisect_left, bisect_right
from functools import cached_property
from typing import Any, Dict, Iterator, List, Optional, Set

from weedle._dialect import Dialect
from weedle._text import Span
from weedle._tree import Tree
from weedle.edits import RENAMED, AnyDefinitions
from weedle.index import name_of
from weedle.lsp.positions import USUAL, Lines, Place
from weedle.lsp.protocol import Json
from weedle.lsp.reading import Broken, Reading, read
from weedle.names import Name, Role, names_in

# A half of a pair of UTF-16 that is alone has no UTF-8.
LONE = re.compile("[\ud800-\udfff]")
WORD = re.compile(rb"[A-Za-z0-9_-]*")
WORD_BEFORE = re.compile(rb"[A-Za-z0-9_-]*\Z")


def bytes_of(text: str) -> bytes:
    """The bytes of a text of a message; what has none is replaced, and takes one unit as before."""
    return LONE.sub("\ufffd", text).encode()


class Source:
    """A text, and what is read of it. It never changes: what is worked out is kept."""

    def __init__(
        self, uri: str, data: bytes, encoding: str = USUAL, dialect: Dialect = "weedle2",
    ) -> None:
        self.uri, self.data, self.encoding = uri, data, encoding
        #: The dialect that it is read by.
        self.dialect: Dialect = dialect
        #: Its symbols with their places, where they were asked for.
        self.symbols: Optional[List[Json]] = None

    @cached_property
    def lines(self) -> Lines:
        """Where its lines begin."""
        return Lines(self.data, self.encoding)

    @cached_property
    def reading(self) -> Reading:
        """What is read of it, and its syntax errors."""
        return read(self.data, self.dialect)

    @property
    def definitions(self) -> AnyDefinitions:
        """The definitions that are read."""
        return self.reading.definitions

    @property
    def tree(self) -> Tree:
        """The nodes of what is read."""
        return self.definitions._tree

    @cached_property
    def starts(self) -> List[int]:
        """Where the parts begin that are read."""
        return [self.tree.starts[it] for it in self.reading.roots]

    @cached_property
    def names(self) -> Dict[str, List[Name]]:
        """Its names that speak of definitions, by their letters."""
        found: Dict[str, List[Name]] = {}
        for it in self.all_names():
            if it.role in RENAMED:
                found.setdefault(it.text, []).append(it)
        return found

    def all_names(self) -> List[Name]:
        """All names of what is read, in the order of the text."""
        heads = [it.name for it in self.reading.broken]
        found = [name for root in self.reading.roots for name in names_in(self.tree, root)]
        return sorted(heads + found, key=lambda it: it.value._node) if heads else found

    @cached_property
    def by_name(self) -> Dict[str, List[Any]]:
        """Its definitions, by their names: parts and statements too."""
        found: Dict[str, List[Any]] = {}
        for it in self.definitions:
            found.setdefault(name_of(it).value, []).append(it)
        return found

    @cached_property
    def attributes(self) -> Dict[str, Set[str]]:
        """Its extended attributes, each with what follows their `=`."""
        found: Dict[str, Set[str]] = {}
        last: Set[str] = set()
        if b"[" not in self.data:
            return found
        for it in self.all_names():
            if it.role is Role.EXTENDED_ATTRIBUTE:
                last = found.setdefault(it.text, set())
            elif it.role is Role.EXTENDED_ATTRIBUTE_VALUE:
                last.add(it.text)
        return found

    def attribute_names(self, text: str) -> List[Name]:
        """Where an extended attribute of this name is."""
        return [
            it for it in (self.all_names() if text in self.attributes else ())
            if it.role is Role.EXTENDED_ATTRIBUTE and it.text == text
        ]

    def names_of(self, text: str) -> List[Name]:
        """Where a definition of this name is defined or spoken of."""
        # most files of a folder don't have the word at all
        return self.names.get(text, []) if text.encode() in self.data else []

    def broken(self, text: str) -> List[Broken]:
        """The definitions of a name that aren't read whole."""
        return [it for it in self.reading.broken if it.name.text == text]

    def broken_at(self, place: int) -> Optional[Broken]:
        """The definition that isn't read whole that a place is in, or right behind."""
        found = [it for it in self.reading.broken if it.span.start <= place <= it.span.end]
        return found[-1] if found else None

    def owner_at(self, place: int) -> str:
        """The name of the definition that a place is in; empty where it isn't known."""
        whole, broken = self.definition_at(place), self.broken_at(place)
        return name_of(whole).value if whole else broken.name.text if broken else ""

    def bodies(self, text: str) -> Iterator[int]:
        """The nodes of the definitions of a name, and of those not read whole what is read."""
        yield from (it._node for it in self.defined(text))
        for broken in self.broken(text):
            first = bisect_left(self.starts, broken.span.start)
            for root in self.reading.roots[first:]:
                if self.tree.starts[root] >= broken.span.end:
                    break
                yield root

    def defined(self, text: str) -> List[Any]:
        """The definitions of a name, its parts and its statements."""
        return self.by_name.get(text, []) if text.encode() in self.data else []

    def root_at(self, place: int) -> Optional[int]:
        """The node of the part that a place is in, or right behind; None where it isn't read."""
        at = bisect_right(self.starts, place) - 1
        if at < 0:
            return None
        found = self.reading.roots[at]
        return found if place <= self.tree.ends[found] else None

    def begun_before(self, place: int) -> int:
        """Where the last definition begins in front of a place, be it read whole or not."""
        at = bisect_right(self._begun, place) - 1
        return self._begun[at] if at >= 0 else 0

    @cached_property
    def _begun(self) -> List[int]:
        whole = [self.tree.starts[it._node] for it in self.definitions]
        return sorted([*whole, *(it.span.start for it in self.reading.broken)])

    def is_unread(self, place: int) -> bool:
        """Whether a place is in what isn't read."""
        problems = self.reading.problems
        at = bisect_right(self._unread, place) - 1
        return at >= 0 and place < problems[at].unread.end

    @cached_property
    def _unread(self) -> List[int]:
        return [it.unread.start for it in self.reading.problems]

    def definition_at(self, place: int) -> Optional[Any]:
        """The definition that a place is in, or in the comments in front of it."""
        root = self.root_at(place)
        for it in self.definitions:
            if it._node == root:
                return it
        return None

    def name_at(self, place: int) -> Optional[Name]:
        """The name that a place is in, or right behind."""
        root, starts, ends = self.root_at(place), self.tree.starts, self.tree.ends
        found = list(names_in(self.tree, root)) if root is not None else []
        for it in [*found, *(it.name for it in self.reading.broken)]:
            node = it.value._node
            if starts[node] <= place <= ends[node] and it.span.start <= place <= it.span.end:
                return it
        return None

    def word_at(self, place: int) -> Span:
        """The letters of a name around a place, which may be none."""
        line = self.data.rfind(b"\n", 0, place) + 1
        before, behind = WORD_BEFORE.search(self.data[line:place]), WORD.match(self.data, place)
        assert before and behind  # both may be empty
        return Span(line + before.start(), behind.end())

    def text(self, span: Span) -> str:
        """A part of the text."""
        return self.data[span[0]:span[1]].decode()

    def range(self, span: Span) -> Json:
        """A part of the text, as messages have it."""
        return self.lines.range(span)

    def location(self, span: Span) -> Json:
        """The same with the file."""
        return {"uri": self.uri, "range": self.range(span)}

    def place(self, given: Json) -> int:
        """The place in bytes of a position of a message."""
        return self.lines.place(Place(int(given["line"]), int(given["character"])))

    def changed(self, changes: List[Json]) -> Source:
        """The text with changes of a message, one behind another."""
        source = self
        for it in changes:
            data = bytes_of(it["text"])
            if it.get("range"):
                start, end = source.lines.span(it["range"])
                data = b"%b%b%b" % (source.data[:start], data, source.data[end:])
            source = self.of(data)
        return source

    def of(self, data: bytes, dialect: Optional[Dialect] = None) -> Source:
        """Another text in its place, or the same of another dialect."""
        return Source(self.uri, data, self.encoding, dialect or self.dialect)
