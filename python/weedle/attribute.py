"""Extended attributes.

Written by tools/write/python_types.py, and not edited by hand.
"""

from __future__ import annotations

from typing import TYPE_CHECKING

from weedle._values import Choice, Value, Wrapped, part, value_class, word
from weedle.common import Bracketed, Punctuated

if TYPE_CHECKING:
    import typing

    from typing_extensions import TypeAlias

    from weedle import term
    from weedle.argument import ArgumentList
    from weedle.common import Identifier, Parenthesized
    from weedle.literal import StringLit

__all__ = [
    "ExtendedAttribute",
    "ExtendedAttributeArgList",
    "ExtendedAttributeIdent",
    "ExtendedAttributeIdentList",
    "ExtendedAttributeList",
    "ExtendedAttributeNamedArgList",
    "ExtendedAttributeNoArgs",
    "IdentifierList",
    "IdentifierOrString",
]


class ExtendedAttribute(Choice):
    """An extended attribute, as `Exposed=Window` or `Constructor(long x)`."""

    if TYPE_CHECKING:
        ArgList: TypeAlias = "ExtendedAttribute_ArgList"
        NamedArgList: TypeAlias = "ExtendedAttribute_NamedArgList"
        IdentList: TypeAlias = "ExtendedAttribute_IdentList"
        Ident: TypeAlias = "ExtendedAttribute_Ident"
        NoArgs: TypeAlias = "ExtendedAttribute_NoArgs"
        Variants: TypeAlias = (
            "typing.Union[ExtendedAttribute_ArgList, ExtendedAttribute_NamedArgList, "
            "ExtendedAttribute_IdentList, ExtendedAttribute_Ident, ExtendedAttribute_NoArgs]"
        )


class ExtendedAttribute_ArgList(ExtendedAttribute, variant="ArgList"):
    """`name(arguments)`."""

    value: ExtendedAttributeArgList

    def __init__(self, value: ExtendedAttributeArgList) -> None:
        self._hold(value)


class ExtendedAttribute_NamedArgList(ExtendedAttribute, variant="NamedArgList"):
    """`name=name(arguments)`."""

    value: ExtendedAttributeNamedArgList

    def __init__(self, value: ExtendedAttributeNamedArgList) -> None:
        self._hold(value)


class ExtendedAttribute_IdentList(ExtendedAttribute, variant="IdentList"):
    """`name=(names)`."""

    value: ExtendedAttributeIdentList

    def __init__(self, value: ExtendedAttributeIdentList) -> None:
        self._hold(value)


class ExtendedAttribute_Ident(ExtendedAttribute, variant="Ident"):
    """`name=name` or `name="text"`."""

    value: ExtendedAttributeIdent

    def __init__(self, value: ExtendedAttributeIdent) -> None:
        self._hold(value)


class ExtendedAttribute_NoArgs(ExtendedAttribute, variant="NoArgs"):
    """`name`."""

    value: ExtendedAttributeNoArgs

    def __init__(self, value: ExtendedAttributeNoArgs) -> None:
        self._hold(value)


@value_class
class ExtendedAttributeArgList(Value):
    """An extended attribute with arguments, as `Constructor(long x)`."""

    identifier: Identifier = part("Its name.")
    args: Parenthesized[ArgumentList] = part("Its arguments, between parentheses.")

    def __init__(self, *, identifier: Identifier, args: Parenthesized[ArgumentList]) -> None:
        self._hold(identifier, args)


@value_class
class ExtendedAttributeNamedArgList(Value):
    """An extended attribute with a name and arguments, as `NamedConstructor=Image(long x)`."""

    lhs_identifier: Identifier = part("Its name, before the `=`.")
    assign: term.Assign = word("The `=`.")
    rhs_identifier: Identifier = part("The name behind the `=`.")
    args: Parenthesized[ArgumentList] = part("Its arguments, between parentheses.")

    def __init__(
        self, *, lhs_identifier: Identifier, rhs_identifier: Identifier,
        args: Parenthesized[ArgumentList],
    ) -> None:
        self._hold(lhs_identifier, rhs_identifier, args)


@value_class
class ExtendedAttributeIdentList(Value):
    """An extended attribute with names, as `Exposed=(Window, Worker)`."""

    identifier: Identifier = part("Its name.")
    assign: term.Assign = word("The `=`.")
    list: Parenthesized[IdentifierList] = part("The names behind the `=`, between parentheses.")

    def __init__(self, *, identifier: Identifier, list: Parenthesized[IdentifierList]) -> None:
        self._hold(identifier, list)


@value_class
class ExtendedAttributeIdent(Value):
    """An extended attribute with a name or a string, as `PutForwards=name`."""

    lhs_identifier: Identifier = part("Its name, before the `=`.")
    assign: term.Assign = word("The `=`.")
    rhs: IdentifierOrString.Variants = part("The name or the string behind the `=`.")

    def __init__(self, *, lhs_identifier: Identifier, rhs: IdentifierOrString.Variants) -> None:
        self._hold(lhs_identifier, rhs)


@value_class
class ExtendedAttributeNoArgs(Wrapped):
    """An extended attribute that is a name alone, as `Replaceable`."""

    value: Identifier = part("An extended attribute that is a name alone, as `Replaceable`.")

    def __init__(self, value: Identifier) -> None:
        self._hold(value)


class IdentifierOrString(Choice):
    """A name or a string, as `name` or `"name"`."""

    if TYPE_CHECKING:
        Identifier: TypeAlias = "IdentifierOrString_Identifier"
        String: TypeAlias = "IdentifierOrString_String"
        Variants: TypeAlias = (
            "typing.Union[IdentifierOrString_Identifier, IdentifierOrString_String]"
        )


class IdentifierOrString_Identifier(IdentifierOrString, variant="Identifier"):
    """A name, as `name`."""

    value: Identifier

    def __init__(self, value: Identifier) -> None:
        self._hold(value)


class IdentifierOrString_String(IdentifierOrString, variant="String"):
    """A text in quotes, as `"name"`."""

    value: StringLit

    def __init__(self, value: StringLit) -> None:
        self._hold(value)


#: Extended attributes in brackets, as `[Exposed=Window, SecureContext]`; `[]` too.
ExtendedAttributeList = Bracketed["Punctuated[ExtendedAttribute.Variants, term.Comma]"]


#: Names, as `Window, Worker`, none included.
IdentifierList = Punctuated["Identifier", "term.Comma"]
