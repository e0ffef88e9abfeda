"""Literals.

Written by tools/write/python_types.py, and not edited by hand.
"""

from __future__ import annotations

from typing import TYPE_CHECKING

from weedle._leaves import Decimal, Quoted, Truth, Whole
from weedle._values import Choice, DecimalChoice, Value, WholeChoice, value_class, word

if TYPE_CHECKING:
    import typing

    from typing_extensions import TypeAlias

    from weedle import term

__all__ = [
    "BooleanLit",
    "ConstValue",
    "DecLit",
    "DefaultValue",
    "EmptyArrayLit",
    "EmptyDictionaryLit",
    "FloatLit",
    "FloatValueLit",
    "HexLit",
    "IntegerLit",
    "OctLit",
    "StringLit",
]


class BooleanLit(Truth):
    """The word `true` or `false`."""


@value_class
class EmptyArrayLit(Value):
    """An empty list, as `[ ]`."""

    open_bracket: term.OpenBracket = word("The `[`.")
    close_bracket: term.CloseBracket = word("The `]`.")

    def __init__(self) -> None:
        self._hold()


@value_class
class EmptyDictionaryLit(Value):
    """An empty dictionary, as `{ }`."""

    open_brace: term.OpenBrace = word("The `{`.")
    close_brace: term.CloseBrace = word("The `}`.")

    def __init__(self) -> None:
        self._hold()


class FloatValueLit(Decimal):
    """A number with a point or an exponent, as `-.5E+3`, `5.` or `1e3`."""

    _kept = 1


class FloatLit(DecimalChoice):
    """A float, as `-.5E+3` or `-Infinity`."""

    if TYPE_CHECKING:
        Value: TypeAlias = "FloatLit_Value"
        NegInfinity: TypeAlias = "FloatLit_NegInfinity"
        Infinity: TypeAlias = "FloatLit_Infinity"
        NaN: TypeAlias = "FloatLit_NaN"
        Variants: TypeAlias = (
            "typing.Union[FloatLit_Value, FloatLit_NegInfinity, FloatLit_Infinity, "
            "FloatLit_NaN]"
        )


class FloatLit_Value(FloatLit, variant="Value"):
    """A number with a point or an exponent, as `1.5`."""

    value: FloatValueLit

    def __init__(self, value: FloatValueLit) -> None:
        self._hold(value)


class FloatLit_NegInfinity(FloatLit, variant="NegInfinity"):
    """The word `-Infinity`."""

    value: term.NegInfinity

    def __init__(self, value: term.NegInfinity) -> None:
        self._hold(value)


class FloatLit_Infinity(FloatLit, variant="Infinity"):
    """The word `Infinity`."""

    value: term.Infinity

    def __init__(self, value: term.Infinity) -> None:
        self._hold(value)


class FloatLit_NaN(FloatLit, variant="NaN"):
    """The word `NaN`."""

    value: term.NaN

    def __init__(self, value: term.NaN) -> None:
        self._hold(value)


class DecLit(Whole):
    """A decimal number, as `-12`."""

    _kept = 1


class HexLit(Whole):
    """A hexadecimal number, as `-0x1F`."""

    _kept = 1
    _base = 16


class OctLit(Whole):
    """An octal number, as `-017` or `0`."""

    _kept = 1
    _base = 8


class IntegerLit(WholeChoice):
    """A whole number, as `-12`, `0x1F` or `017`."""

    if TYPE_CHECKING:
        Dec: TypeAlias = "IntegerLit_Dec"
        Hex: TypeAlias = "IntegerLit_Hex"
        Oct: TypeAlias = "IntegerLit_Oct"
        Variants: TypeAlias = (
            "typing.Union[IntegerLit_Dec, IntegerLit_Hex, IntegerLit_Oct]"
        )


class IntegerLit_Dec(IntegerLit, variant="Dec"):
    """A decimal number, as `-12`."""

    value: DecLit

    def __init__(self, value: DecLit) -> None:
        self._hold(value)


class IntegerLit_Hex(IntegerLit, variant="Hex"):
    """A hexadecimal number, as `0x1F`."""

    value: HexLit

    def __init__(self, value: HexLit) -> None:
        self._hold(value)


class IntegerLit_Oct(IntegerLit, variant="Oct"):
    """An octal number, as `017`."""

    value: OctLit

    def __init__(self, value: OctLit) -> None:
        self._hold(value)


class StringLit(Quoted):
    """A text in quotes, as `"blob"`."""

    _kept = 2


class DefaultValue(Choice):
    """The value of a default, as `"blob"` or `[]`."""

    if TYPE_CHECKING:
        Boolean: TypeAlias = "DefaultValue_Boolean"
        EmptyArray: TypeAlias = "DefaultValue_EmptyArray"
        EmptyDictionary: TypeAlias = "DefaultValue_EmptyDictionary"
        Float: TypeAlias = "DefaultValue_Float"
        Integer: TypeAlias = "DefaultValue_Integer"
        Null: TypeAlias = "DefaultValue_Null"
        String: TypeAlias = "DefaultValue_String"
        Variants: TypeAlias = (
            "typing.Union[DefaultValue_Boolean, DefaultValue_EmptyArray, "
            "DefaultValue_EmptyDictionary, DefaultValue_Float, DefaultValue_Integer, "
            "DefaultValue_Null, DefaultValue_String]"
        )


class DefaultValue_Boolean(DefaultValue, variant="Boolean"):
    """A boolean, as `true`."""

    value: BooleanLit

    def __init__(self, value: BooleanLit) -> None:
        self._hold(value)


class DefaultValue_EmptyArray(DefaultValue, variant="EmptyArray"):
    """An empty list, as `[]`."""

    value: EmptyArrayLit

    def __init__(self, value: EmptyArrayLit) -> None:
        self._hold(value)


class DefaultValue_EmptyDictionary(DefaultValue, variant="EmptyDictionary"):
    """An empty dictionary, as `{}`."""

    value: EmptyDictionaryLit

    def __init__(self, value: EmptyDictionaryLit) -> None:
        self._hold(value)


class DefaultValue_Float(DefaultValue, variant="Float"):
    """A float, as `1.5` or `NaN`."""

    value: FloatLit.Variants

    def __init__(self, value: FloatLit.Variants) -> None:
        self._hold(value)


class DefaultValue_Integer(DefaultValue, variant="Integer"):
    """A whole number, as `-12`."""

    value: IntegerLit.Variants

    def __init__(self, value: IntegerLit.Variants) -> None:
        self._hold(value)


class DefaultValue_Null(DefaultValue, variant="Null"):
    """The word `null`."""

    value: term.Null

    def __init__(self, value: term.Null) -> None:
        self._hold(value)


class DefaultValue_String(DefaultValue, variant="String"):
    """A text in quotes, as `"blob"`."""

    value: StringLit

    def __init__(self, value: StringLit) -> None:
        self._hold(value)


class ConstValue(Choice):
    """The value of a constant, as `1.5` or `null`."""

    if TYPE_CHECKING:
        Boolean: TypeAlias = "ConstValue_Boolean"
        Float: TypeAlias = "ConstValue_Float"
        Integer: TypeAlias = "ConstValue_Integer"
        Null: TypeAlias = "ConstValue_Null"
        Variants: TypeAlias = (
            "typing.Union[ConstValue_Boolean, ConstValue_Float, ConstValue_Integer, "
            "ConstValue_Null]"
        )


class ConstValue_Boolean(ConstValue, variant="Boolean"):
    """A boolean, as `true`."""

    value: BooleanLit

    def __init__(self, value: BooleanLit) -> None:
        self._hold(value)


class ConstValue_Float(ConstValue, variant="Float"):
    """A float, as `1.5` or `NaN`."""

    value: FloatLit.Variants

    def __init__(self, value: FloatLit.Variants) -> None:
        self._hold(value)


class ConstValue_Integer(ConstValue, variant="Integer"):
    """A whole number, as `-12`."""

    value: IntegerLit.Variants

    def __init__(self, value: IntegerLit.Variants) -> None:
        self._hold(value)


class ConstValue_Null(ConstValue, variant="Null"):
    """The word `null`."""

    value: term.Null

    def __init__(self, value: term.Null) -> None:
        self._hold(value)
