"""The syntax tree: each rule that was read, with its place."""

from __future__ import annotations

from typing import Any, Iterator, List, Optional, Union

from weedle._dialect import Dialect, grammar_of
from weedle._making import MAKE
from weedle._reading import tree_of
from weedle._text import Position, Span
from weedle._tree import COMMENTS, Tree
from weedle.grammar import NUMBERS, RULES


class Node:
    """A rule that was read, and the part of the text that it took."""

    __slots__ = ("_tree", "_node")

    def __init__(self, tree: Tree, node: int) -> None:
        self._tree, self._node = tree, node

    @property
    def rule(self) -> int:
        """The number of the rule, as include/weedle.h has it."""
        return self._tree.rules[self._node]

    @property
    def name(self) -> str:
        """The name of the rule, as `interface_definition`."""
        return RULES[self.rule]

    @property
    def depth(self) -> int:
        """How many nodes it is in."""
        return self._tree.depths[self._node]

    @property
    def span(self) -> Span:
        """All bytes that were read, whitespace and comments around words included."""
        return self._tree.whole_span(self._node)

    @property
    def char_span(self) -> Span:
        """The same in characters, for a slice of a `str`."""
        return self._tree.text.in_characters(self.span)

    @property
    def position(self) -> Position:
        """The line and the column at which it begins; both begin at 1."""
        return self._tree.text.position(self.span.start)

    @property
    def text(self) -> str:
        """The part of the text at `span`."""
        return self._tree.text.slice(self.span)

    @property
    def value(self) -> Any:
        """The value of the typed tree that it has, a list of such or None."""
        make = MAKE[self.rule]
        return make(self._tree, self._node) if make else None

    @property
    def children(self) -> List[Node]:
        """The nodes right below it. Where there are some, they take all its text in turn."""
        return [Node(self._tree, it) for it in self._tree.children(self._node)]

    def walk(self) -> Iterator[Node]:
        """The node and all below it, each before those below it."""
        return (Node(self._tree, it) for it in self._tree.walk(self._node))

    def find(self, name: str) -> Iterator[Node]:
        """The nodes of `walk` whose rule has this name; ValueError where none has."""
        if name not in NUMBERS:
            raise ValueError(f"no rule has the name {name!r}")
        return self._of_rules(frozenset([NUMBERS[name]]))

    @property
    def comments(self) -> List[Node]:
        """The comments in it, line comments with their LF. Docstrings, from `///` on, are none."""
        return list(self._of_rules(COMMENTS))

    def _of_rules(self, wanted: frozenset[int]) -> Iterator[Node]:
        tree, rules = self._tree, self._tree.rules
        return (Node(tree, it) for it in tree.walk(self._node) if rules[it] in wanted)

    def __repr__(self) -> str:
        start, end = self.span
        return f"<{self.name} {start}..{end}>"

    def __eq__(self, other: object) -> bool:
        if not isinstance(other, Node):
            return NotImplemented
        return (self._tree, self._node) == (other._tree, other._node)

    def __hash__(self) -> int:
        return hash((id(self._tree), self._node))


def syntax(
    text: Union[str, bytes], rule: Optional[str] = None, *, dialect: Dialect = "weedle2"
) -> Node:
    """The node of a whole text, whose children are its definitions.

    >>> [node.text for node in syntax("Request includes Body;").find("identifier_text")]
    ['Request', 'Body']

    With the name of a rule, as "type", it is the node of that rule at the front of the text, whatever
    follows: of "long? x" the node of `long? `. With `dialect="today"` the whole text is read by the
    rules of today's WebIDL, whose names begin with `today_`; a rule with a name is the same in both.
    It raises what `weedle.parse` raises, and ValueError where no rule has that name.
    """
    grammar = grammar_of(dialect)
    if rule is not None and rule not in NUMBERS:
        raise ValueError(f"no rule has the name {rule!r}")
    return Node(tree_of(text, None if rule is None else NUMBERS[rule], grammar), 0)
