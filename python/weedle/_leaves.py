"""Values that are a part of the text which is kept: names, literals, docstrings."""

from __future__ import annotations

from typing import Any, ClassVar, Iterator, Tuple

from weedle._placed import UNPLACED
from weedle._text import Span
from weedle._tree import Tree
from weedle._values import Value, keep, part, value_class
from weedle.grammar import RULES


@value_class
class Leaf(Value):
    """A part of the text that is kept, as a name. `value` is what it says."""

    __match_args__ = ("value",)

    value: str = part("What it says.")
    # The part that is kept.
    _kept: ClassVar[int] = 0

    def __init__(self, value: str) -> None:
        self._hold(value)

    def __eq__(self, other: object) -> bool:
        if type(other) is not type(self):
            return NotImplemented
        assert isinstance(other, Leaf)
        return self.value == other.value

    def __hash__(self) -> int:
        return hash((type(self), self.value))

    @classmethod
    def _read(cls, tree: Tree, node: int) -> Any:
        """What the value of a node says."""
        return tree.slice_of(tree.child(node, cls._kept))

    def _fill(self) -> None:
        keep(self, "value", self._read(self._tree, self._node))

    def _put(self, writer: Any) -> Iterator[Any]:
        writer.put_leaf(self.value)
        return iter(())

    def _written_parts(self, style: Any) -> Iterator[Tuple[bool, Any]]:
        yield True, style.leaf(type(self).__name__, lambda tree, node: self.value)(UNPLACED, -1)

    @classmethod
    def _entry(cls, style: Any, rule: int) -> Any:
        return style.leaf(cls.__name__, cls._read)


class Name(Leaf):
    """A name. Its place is that of `value`: an underscore that leads it is before that."""

    @property
    def span(self) -> Span:
        """The bytes of the name."""
        return self._tree.whole_span(self._tree.child(self._node, self._kept))

    def _put(self, writer: Any) -> Iterator[Any]:
        writer.put_name(self.value)
        return iter(())


class Lines(Leaf):
    """The lines of a docstring, without their `///`, joined by LF."""

    @classmethod
    def _read(cls, tree: Tree, node: int) -> str:
        first, others = tree.children(node)
        texts = [tree.children(line)[-1] for line in [first, *tree.children(others)]]
        return "\n".join(tree.text.slice(tree.whole_span(it))[:-1] for it in texts)

    def _put(self, writer: Any) -> Iterator[Any]:
        writer.put_lines(self.value)
        return iter(())


class LastLine(Leaf):
    """A docstring's line, without its `///`, that the text ends in."""

    _kept: ClassVar[int] = 2

    def _put(self, writer: Any) -> Iterator[Any]:
        writer.put_lines(self.value)
        return iter(())


class Quoted(Leaf):
    """A text in quotes."""

    def _put(self, writer: Any) -> Iterator[Any]:
        writer.put_string(self.value)
        return iter(())


class Whole(Leaf):
    """A whole number, in the base of its kind."""

    _base: ClassVar[int] = 10

    @property
    def number(self) -> int:
        """The number, as -31 of `-0x1F`."""
        return int(self.value, self._base)


class Decimal(Leaf):
    """A number with a point or an exponent."""

    @property
    def number(self) -> float:
        """The number nearest to it, as 0.5 of `.5`."""
        return float(self.value)


@value_class
class Truth(Leaf):
    """`true` or `false`."""

    value: bool = part("Whether it is `true`.")  # type: ignore[assignment]

    def __init__(self, value: bool) -> None:
        self._hold(value)

    @classmethod
    def _read(cls, tree: Tree, node: int) -> bool:
        return RULES[tree.rules[node + 1]] == "true"
