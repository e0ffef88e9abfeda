"""Error recovery: the parts of a text, each read or unread."""

from __future__ import annotations

from functools import cached_property
from typing import Any, List, Optional, Union

from weedle._dialect import Dialect, grammar_of
from weedle._library import Part as Numbers
from weedle._reading import forest_of
from weedle._text import Position, Span
from weedle._tree import Forest
from weedle.errors import PartRefused, Refused
from weedle.grammar import RULES
from weedle.nodes import Node

__all__ = ["Part", "Recovered", "recover"]


class Part:
    """A part of a text: a rule that is read, or an unread stretch."""

    def __init__(self, tree: Forest, numbers: Numbers, node: Optional[int]) -> None:
        self._tree, self._numbers, self._node = tree, numbers, node

    @property
    def rule(self) -> str:
        """The name of the rule that is read; of an unread part that of the one that fails where it begins."""
        return RULES[self._numbers.rule]

    @property
    def is_read(self) -> bool:
        """Whether it is read."""
        return self._node is not None

    @property
    def is_piece(self) -> bool:
        """Whether its rule is what a text is a list of: a definition, or of today's grammar a piece."""
        return self._numbers.rule == self._tree.grammar.item or self.is_definition

    @property
    def is_definition(self) -> bool:
        """Whether it is a whole definition."""
        definition, node = self._tree.grammar.definition, self._node
        if self._numbers.rule == definition or node is None:
            return self.is_read and self._numbers.rule == definition
        is_above = self._numbers.rule == self._tree.grammar.item
        return is_above and self._tree.rules[node + 1] == definition

    @property
    def span(self) -> Span:
        """All its bytes, whitespace and comments included; none where something is missing."""
        return Span(self._numbers.start, self._numbers.end)

    @property
    def definition(self) -> int:
        """The byte at which the definition begins that it belongs to: parts of one definition have the same."""
        return self._numbers.definition

    @property
    def position(self) -> Position:
        """The line and the column at which it begins; both begin at 1."""
        return self._tree.text.position(self.span.start)

    @property
    def text(self) -> str:
        """The part of the text at `span`."""
        return self._tree.text.slice(self.span)

    @property
    def node(self) -> Optional[Node]:
        """The node of the rule, of depth 0; None of an unread part."""
        return None if self._node is None else Node(self._tree, self._node)

    @property
    def value(self) -> Any:
        """The value of the typed tree, as `weedle.parse` gives it; None where there is none."""
        return self.node.value if self.node else None

    @cached_property
    def refusal(self) -> Optional[Refused]:
        """Why it is unread, this part alone; None where it is read."""
        if self.is_read:
            return None
        return PartRefused(self._tree.text, self._numbers, self._tree.grammar.name)

    def __repr__(self) -> str:
        start, end = self.span
        return f"<{'' if self.is_read else 'no '}{self.rule} {start}..{end}>"


class Recovered:
    """The parts of a text, one behind another: together they are the text."""

    def __init__(self, parts: List[Numbers], tree: Forest) -> None:
        self._tree = tree
        roots = tree.roots()
        #: The parts.
        self.parts = [Part(tree, it, next(roots) if it.is_read else None) for it in parts]

    @property
    def text(self) -> str:
        """The whole text."""
        return self._tree.text.data.decode()

    @property
    def errors(self) -> List[Refused]:
        """Why each unread part is so, in the order of the text."""
        return [it.refusal for it in self.parts if it.refusal]

    @property
    def definitions(self) -> List[Part]:
        """The parts that are whole definitions."""
        return [it for it in self.parts if it.is_definition]

    def __repr__(self) -> str:
        unread = sum(not it.is_read for it in self.parts)
        return f"<{len(self.parts)} parts, {unread} unread>"


def recover(text: Union[str, bytes], *, dialect: Dialect = "weedle2") -> Recovered:
    """The parts of a text, read or unread, whatever errors it has.

    >>> for it in recover("typedef long; enum E { 'a' };").errors:
    ...     print(it.line, it.column, it.expected)
    1 13 `?`, `long` or a name
    1 24 `"`

    Of a text that is read whole each part is a definition. It raises what `weedle.parse` raises, but
    never `Refused`. Why a part is unread is found when it is asked for.

    With `dialect="today"` the rules are those of today's WebIDL. Of a text that is read whole each part
    is then a definition, or a docstring, a comment or whitespace that none follows. It raises
    RecursionError of a text with errors that nests too deep.
    """
    return Recovered(*forest_of(text, grammar_of(dialect)))
