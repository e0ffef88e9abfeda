"""The nodes of a text: an array of numbers in preorder, and the ways about in it."""

from __future__ import annotations

import re
from bisect import bisect_left
from functools import cache, cached_property
from typing import Any, Iterator, List, Optional, Tuple

from weedle._dialect import WEEDLE2, Grammar, dialect_of_rule
from weedle._library import FIELDS
from weedle._text import Span, Text
from weedle.grammar import NUMBERS, VERSION

TRIVIA = NUMBERS["trivia"]
# The rules that read comments. A docstring is none.
COMMENTS = frozenset(NUMBERS[name] for name in ("line_comment", "block_comment"))
# A docstring's line: whitespace, `///` and what follows it up to an LF.
DOC_LINE, DOC_TEXT = NUMBERS["doc_line"], NUMBERS["past_lf"]
# After so many nodes the end of a subtree is searched for by its place in the text.
NEAR = 16


@cache
def at_most(depth: int) -> re.Pattern[bytes]:
    """What finds a byte of at most this depth."""
    return re.compile(b"[\\x00-\\x%02x]" % depth)


class Tree:
    """A text that was read, with the rule, the start, the end and the depth of each node."""

    def __init__(
        self, text: Text, numbers: memoryview, rule: Optional[int] = None,
        grammar: Grammar = WEEDLE2,
    ) -> None:
        self.text, self._numbers, self._rule = text, numbers, rule
        #: The grammar by which it was read: of one rule that which has the rule.
        self.grammar = grammar if rule is None or grammar != WEEDLE2 else dialect_of_rule(rule)
        columns = {name: numbers[at::len(FIELDS)] for at, name in enumerate(FIELDS)}
        self.rules, self.depths = columns["rule"], columns["depth"]
        self.starts, self.ends = columns["start"], columns["end"]
        self.count = len(self.rules)

    @cached_property
    def levels(self) -> Optional[bytes]:
        """The depths, a byte each, or None where one needs more."""
        size, raw = self._numbers.itemsize, self._numbers.cast("B")
        low = FIELDS.index("depth") * size
        # Depths grow one by one: so where all have less than two bytes, the second of each is 0.
        if bytes(raw[low + 1::size * len(FIELDS)]).count(0) < self.count:
            return None
        return bytes(raw[low::size * len(FIELDS)])

    def behind(self, node: int) -> int:
        """The first node behind a node and all below it."""
        if self.levels is None:
            return self._behind_deep(node)
        found = at_most(self.levels[node]).search(self.levels, node + 1)
        return found.start() if found else self.count

    def _behind_deep(self, node: int) -> int:
        """The same of a tree of any depth."""
        depths, depth, other = self.depths, self.depths[node], node + 1
        near = min(self.count, node + NEAR)
        while other < near:
            if depths[other] <= depth:
                return other
            other += 1
        # Starts never fall, and only nodes that take no byte begin where the node ends.
        other = bisect_left(self.starts, self.ends[node], other, self.count)
        while other < self.count and depths[other] > depth:
            other += 1
        return other

    def children(self, node: int) -> list[int]:
        """The nodes right below a node."""
        levels = self.levels
        if levels is None:
            return self._children_deep(node)
        found: List[int] = []
        child, behind = node + 1, self.behind(node)
        if child == behind:
            return found
        below = levels[child]
        while child >= 0:
            found.append(child)
            child = levels.find(below, child + 1, behind)
        return found

    def _children_deep(self, node: int) -> list[int]:
        """The same in a tree of any depth."""
        found: List[int] = []
        child, count = node + 1, self.count
        depths, below = self.depths, self.depths[node] + 1
        while child < count and depths[child] == below:
            found.append(child)
            child = self._behind_deep(child)
        return found

    def whole_span(self, node: int) -> Span:
        """All that a node takes, whitespace and comments included."""
        return Span(self.starts[node], self.ends[node])

    def span(self, node: int) -> Span:
        """What a node takes without whitespace and comments before and behind it."""
        start, end = self.starts[node], self.ends[node]
        if start == end:
            return Span(start, end)
        behind = self.behind(node)
        return Span(self._start(node, behind), self._end(node, behind))

    def _start(self, node: int, behind: int) -> int:
        """Where the first word of a node begins."""
        start = self.starts[node]
        for other in range(node, behind):
            if self.starts[other] > start:
                break
            if self.rules[other] == TRIVIA:
                return self.ends[other]
            if self.rules[other] == DOC_LINE:
                return self.ends[other + 1]
        return start

    def _end(self, node: int, behind: int) -> int:
        """Where the last word of a node ends."""
        end = self.ends[node]
        for other in range(behind - 1, node, -1):
            if self.rules[other] == TRIVIA:
                return self.starts[other] if self.ends[other] == end else end
            if self.rules[other] == DOC_TEXT:
                return end - 1
        return end

    def child(self, node: int, number: int) -> int:
        """The node right below a node that has this number."""
        levels, child = self.levels, node + 1
        if levels is None:
            return self._children_deep(node)[number]
        below = levels[child]
        for _ in range(number):
            child = levels.find(below, child + 1)
        return child

    def slice_of(self, node: int) -> str:
        """All of the text that a node takes."""
        return self.text.data[self.starts[node]:self.ends[node]].decode()

    def above(self, node: int) -> int:
        """The node that a node is in, or -1."""
        if self.depths[node] == 0:
            return -1
        if self.levels is not None:
            return self.levels.rfind(self.levels[node] - 1, 0, node)
        depths, above = self.depths, node - 1
        while above >= 0 and depths[above] >= depths[node]:
            above -= 1
        return above

    @cached_property
    def comments(self) -> List[Span]:
        """The comments of the text; a line comment has its LF."""
        return [self.whole_span(node) for node, rule in enumerate(self.rules) if rule in COMMENTS]

    @cached_property
    def comment_starts(self) -> List[int]:
        """Where they begin."""
        return [it.start for it in self.comments]

    def __reduce__(self) -> Tuple[Any, ...]:
        # the text says all: what it was read as is read again
        from weedle._reading import tree_again

        return tree_again, (self.text.data, VERSION, self._rule, self.grammar.name)

    def __deepcopy__(self, memo: Any) -> Tree:
        return self

    def roots(self) -> Iterator[int]:
        """The nodes in no other."""
        node = 0
        while node < self.count:
            yield node
            node = self.behind(node)

    def walk(self, node: int) -> Iterator[int]:
        """A node and all below it, in preorder."""
        return iter(range(node, self.behind(node)))


class Forest(Tree):
    """The trees of all parts of a text that are read, one behind another."""

    def __reduce__(self) -> Tuple[Any, ...]:
        from weedle._reading import forest_again

        return forest_again, (self.text.data, VERSION, self.grammar.name)
