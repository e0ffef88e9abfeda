"""Parts that are anywhere in the grammar: brackets, lists, names and docstrings.

Written by tools/write/python_types.py, and not edited by hand.
"""

from __future__ import annotations

from typing import Generic, TYPE_CHECKING

from weedle._leaves import Lines, Name
from weedle._values import Listed, S, T, Value, part, value_class, word

if TYPE_CHECKING:
    from weedle import term
    from weedle.literal import DefaultValue

__all__ = [
    "Braced",
    "Bracketed",
    "Default",
    "Docstring",
    "Generics",
    "Identifier",
    "Parenthesized",
    "Punctuated",
    "PunctuatedNonEmpty",
]


@value_class
class Parenthesized(Value, Generic[T]):
    """A body in parentheses, as `(a, b)`."""

    open_paren: term.OpenParen = word("The `(`.")
    body: T = part("What is between the parentheses.")
    close_paren: term.CloseParen = word("The `)`.")

    def __init__(self, *, body: T) -> None:
        self._hold(body)


@value_class
class Bracketed(Value, Generic[T]):
    """A body in square brackets, as `[Exposed]`."""

    open_bracket: term.OpenBracket = word("The `[`.")
    body: T = part("What is between the square brackets.")
    close_bracket: term.CloseBracket = word("The `]`.")

    def __init__(self, *, body: T) -> None:
        self._hold(body)


@value_class
class Braced(Value, Generic[T]):
    """A body in braces, as `{ .. }`."""

    open_brace: term.OpenBrace = word("The `{`.")
    body: T = part("What is between the braces.")
    close_brace: term.CloseBrace = word("The `}`.")

    def __init__(self, *, body: T) -> None:
        self._hold(body)


@value_class
class Generics(Value, Generic[T]):
    """A body in angle brackets, as `<long>`."""

    open_angle: term.LessThan = word("The `<`.")
    body: T = part("What is between the angle brackets.")
    close_angle: term.GreaterThan = word("The `>`.")

    def __init__(self, *, body: T) -> None:
        self._hold(body)


class Docstring(Lines):
    """The text of a docstring."""


class Identifier(Name):
    """A name, as `Window`, kept without the underscore that may be before it, as in
    `_interface`.
    """

    _kept = 2


class Punctuated(Listed[T, S]):
    """Items with a separator between each two, as `a, b`; none included."""


class PunctuatedNonEmpty(Listed[T, S]):
    """Items with a separator between each two, one item at least, and one further separator
    where present, as `a, b,`.
    """

    _fronts = ("", None)

    def _listing(self) -> int:
        return self._tree.children(self._node)[0]


@value_class
class Default(Value):
    """A default, as `= 5` behind an argument's name."""

    assign: term.Assign = word("The `=`.")
    value: DefaultValue.Variants = part("The value, as `5`.")

    def __init__(self, *, value: DefaultValue.Variants) -> None:
        self._hold(value)
