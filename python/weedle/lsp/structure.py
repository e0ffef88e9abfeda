"""The parts of a text that an editor folds, and those that it selects one around another."""

from __future__ import annotations

import re
from typing import Dict, Iterator, List, Set, Tuple

from weedle._text import Span
from weedle._tree import Tree
from weedle.lsp.protocol import Json
from weedle.lsp.sources import Source


# What a fold can begin or end with, and what hides such signs.
TOKEN = re.compile(
    rb"""(?P<comment>//[^\n]*|/\*(?s:.*?)(?:\*/|\Z)) | "[^"\n]*"? | (?P<sign>[{}()\[\]])""",
    re.VERBOSE,
)
#: The signs that open something, each with the one that closes it.
PAIRS = {b"{": b"}", b"(": b")", b"[": b"]"}


class Folds:
    """The parts of a text that an editor folds."""

    def __init__(self, source: Source) -> None:
        self._lines = source.lines
        self.found: Dict[int, Json] = {}
        # what is open, the signs with their places, and the lines of comments one below another
        self._open: List[Tuple[bytes, int]] = []
        self._first, self._last = -1, -2
        for it in TOKEN.finditer(source.data):
            if it.lastgroup == "sign":
                self._take_sign(it[0], it.start())
            elif it.lastgroup == "comment" and is_alone(source, it.start()):
                self._take_comment(*it.span())
        self._end_comments()

    def _take_sign(self, sign: bytes, place: int) -> None:
        """What is between two signs is folded, and the line of the closing one stays."""
        if sign in PAIRS:
            self._open.append((sign, place))
        elif self._open and PAIRS[self._open[-1][0]] == sign:
            first = self._lines.line_of(self._open.pop()[1])
            last = self._lines.line_of(place) - 1
            if last > first:
                self.found[first] = {"startLine": first, "endLine": last}
        elif sign == b"}":
            self._open.clear()  # what it closes was left open

    def _take_comment(self, start: int, end: int) -> None:
        first, last = self._lines.line_of(start), self._lines.line_of(end - 1)
        if first != self._last + 1:
            self._end_comments()
            self._first = first
        self._last = last

    def _end_comments(self) -> None:
        if self._last > self._first:
            fold = {"startLine": self._first, "endLine": self._last, "kind": "comment"}
            self.found.setdefault(self._first, fold)


def folds(source: Source) -> List[Json]:
    """The bodies and lists of more than two lines, and the comments of more than one."""
    found = Folds(source).found
    return [found[line] for line in sorted(found)]


def is_alone(source: Source, place: int) -> bool:
    """Whether nothing but whitespace is in front on the line."""
    start = source.lines.starts[source.lines.line_of(place)]
    return not source.data[start:place].strip()


def selections(source: Source, places: List[int]) -> List[Json]:
    """For each place what is around it, each with what is around that."""
    return [selection(source, place) for place in places]


def selection(source: Source, place: int) -> Json:
    """What is around a place: its word, what has it, and so on, up to the text."""
    found: Json = {"range": source.range(Span(0, len(source.data)))}
    for span in around(source, place):
        found = {"range": source.range(span), "parent": found}
    return found


def around(source: Source, place: int) -> Iterator[Span]:
    """The parts of the text around a place, each within the one before."""
    seen: Set[Span] = {Span(0, len(source.data))}
    tree, node = source.tree, source.root_at(place)
    while node is not None:
        span = tree.span(node)
        if span not in seen and span.start <= place <= span.end and span.end > span.start:
            seen.add(span)
            yield span
        node = next((it for it in tree.children(node) if is_in(tree, it, place)), None)
    word = source.word_at(place)
    if len(seen) == 1 and word.end > word.start:
        yield word


def is_in(tree: Tree, node: int, place: int) -> bool:
    """Whether a place is in a node, or right behind its last word."""
    if tree.starts[node] <= place < tree.ends[node]:
        return True
    return tree.starts[node] < place == tree.span(node).end
