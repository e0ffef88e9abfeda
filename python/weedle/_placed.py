"""What is at a place of a text."""

from __future__ import annotations

from typing import Any

from weedle._text import Position, Span
from weedle._tree import Tree


class Unplaced:
    """In place of the tree of a value that was built: such a value is in no text."""

    def __getattr__(self, name: str) -> Any:
        if name.startswith("__"):
            raise AttributeError(name)
        raise ValueError("a value that was built stands in no text")


#: The tree of all values that were built.
UNPLACED: Any = Unplaced()


class Placed:
    """What is at a place of a text: the node of a tree, without whitespace and comments around it."""

    __slots__ = ()

    _tree: Tree
    _node: int

    @property
    def span(self) -> Span:
        """The bytes of the text that were read, without whitespace and comments around them."""
        return self._tree.span(self._node)

    @property
    def char_span(self) -> Span:
        """The same in characters, for a slice of a `str`."""
        return self._tree.text.in_characters(self.span)

    @property
    def position(self) -> Position:
        """The line and the column at which it begins; both begin at 1."""
        return self._tree.text.position(self.span.start)

    @property
    def text(self) -> str:
        """The part of the text at `span`."""
        return self._tree.text.slice(self.span)
