"""Arguments.

Written by tools/write/python_types.py, and not edited by hand.
"""

from __future__ import annotations

from typing import Optional, TYPE_CHECKING

from weedle._values import Choice, Value, part, value_class, word
from weedle.common import Punctuated

if TYPE_CHECKING:
    import typing

    from typing_extensions import TypeAlias

    from weedle import term
    from weedle.attribute import ExtendedAttributeList
    from weedle.common import Default, Identifier
    from weedle.types import AttributedType, Type

__all__ = [
    "Argument",
    "ArgumentList",
    "SingleArgument",
    "VariadicArgument",
]


class Argument(Choice):
    """An argument, as `long x`, or `long... xs` for any number of them."""

    if TYPE_CHECKING:
        Single: TypeAlias = "Argument_Single"
        Variadic: TypeAlias = "Argument_Variadic"
        Variants: TypeAlias = (
            "typing.Union[Argument_Single, Argument_Variadic]"
        )


class Argument_Single(Argument, variant="Single"):
    """`[extended attributes] type name` or `[extended attributes] optional type name =
    value`, the latter also without `= value`.
    """

    value: SingleArgument

    def __init__(self, value: SingleArgument) -> None:
        self._hold(value)


class Argument_Variadic(Argument, variant="Variadic"):
    """`[extended attributes] type... name`."""

    value: VariadicArgument

    def __init__(self, value: VariadicArgument) -> None:
        self._hold(value)


@value_class
class SingleArgument(Value):
    """An argument, as `optional long x = 5`."""

    attributes: Optional[ExtendedAttributeList] = part(
        "The extended attributes in brackets, as `[Exposed=Window]`, where present."
    )
    optional: Optional[term.Optional] = part("The word `optional`, where present.")
    type_: AttributedType = part(
        "Its type, as `long`, with extended attributes of its own, as in `optional [Clamp] "
        "long x`."
    )
    identifier: Identifier = part("Its name.")
    default: Optional[Default] = part("Its default, as `= 5`, where present behind `optional`.")
    _is_whole = False

    def __init__(
        self, *, attributes: Optional[ExtendedAttributeList] = None,
        optional: Optional[term.Optional] = None, type_: AttributedType, identifier: Identifier,
        default: Optional[Default] = None,
    ) -> None:
        self._hold(attributes, optional, type_, identifier, default)


@value_class
class VariadicArgument(Value):
    """Any number of arguments, as `long... xs`."""

    attributes: Optional[ExtendedAttributeList] = part(
        "The extended attributes in brackets, as `[Exposed=Window]`, where present."
    )
    type_: Type.Variants = part(
        "Their type, as `long`, with no extended attributes of its own."
    )
    ellipsis: term.Ellipsis = word("The `...`.")
    identifier: Identifier = part("Their name.")

    def __init__(
        self, *, attributes: Optional[ExtendedAttributeList] = None, type_: Type.Variants,
        identifier: Identifier,
    ) -> None:
        self._hold(attributes, type_, identifier)


#: Arguments, as `long x, long y`, none included.
ArgumentList = Punctuated["Argument.Variants", "term.Comma"]
