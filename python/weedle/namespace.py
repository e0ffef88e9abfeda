"""Members of namespaces.

Written by tools/write/python_types.py, and not edited by hand.
"""

from __future__ import annotations

from typing import List, Optional, TYPE_CHECKING

from weedle._values import Choice, Value, part, value_class, word

if TYPE_CHECKING:
    import typing

    from typing_extensions import TypeAlias

    from weedle import term
    from weedle.argument import ArgumentList
    from weedle.attribute import ExtendedAttributeList
    from weedle.common import Docstring, Identifier, Parenthesized
    from weedle.types import AttributedType, ReturnType

__all__ = [
    "AttributeNamespaceMember",
    "NamespaceMember",
    "NamespaceMembers",
    "OperationNamespaceMember",
]


@value_class
class OperationNamespaceMember(Value):
    """An operation of a namespace, as `long f(long x);`."""

    docstring: Optional[Docstring] = part("The docstring in front, where present.")
    attributes: Optional[ExtendedAttributeList] = part(
        "The extended attributes in brackets, as `[Exposed=Window]`, where present."
    )
    return_type: ReturnType.Variants = part("The type of its result, as `undefined` or `long`.")
    identifier: Optional[Identifier] = part("Its name, where it has one.")
    args: Parenthesized[ArgumentList] = part("Its arguments, between parentheses.")
    semi_colon: term.SemiColon = word("The `;` at the end.")

    def __init__(
        self, *, docstring: Optional[Docstring] = None,
        attributes: Optional[ExtendedAttributeList] = None, return_type: ReturnType.Variants,
        identifier: Optional[Identifier] = None, args: Parenthesized[ArgumentList],
    ) -> None:
        self._hold(docstring, attributes, return_type, identifier, args)


@value_class
class AttributeNamespaceMember(Value):
    """An attribute of a namespace, as `readonly attribute long x;`, always `readonly`."""

    docstring: Optional[Docstring] = part("The docstring in front, where present.")
    attributes: Optional[ExtendedAttributeList] = part(
        "The extended attributes in brackets, as `[Exposed=Window]`, where present."
    )
    readonly: term.ReadOnly = word("The word `readonly`, which always is here.")
    attribute: term.Attribute = word("The word `attribute`.")
    type_: AttributedType = part("Its type, as `long`, with the extended attributes before it.")
    identifier: Identifier = part("Its name.")
    semi_colon: term.SemiColon = word("The `;` at the end.")

    def __init__(
        self, *, docstring: Optional[Docstring] = None,
        attributes: Optional[ExtendedAttributeList] = None, type_: AttributedType,
        identifier: Identifier,
    ) -> None:
        self._hold(docstring, attributes, type_, identifier)


class NamespaceMember(Choice):
    """A member of a namespace, as `long f(long x);`."""

    if TYPE_CHECKING:
        Operation: TypeAlias = "NamespaceMember_Operation"
        Attribute: TypeAlias = "NamespaceMember_Attribute"
        Variants: TypeAlias = (
            "typing.Union[NamespaceMember_Operation, NamespaceMember_Attribute]"
        )


class NamespaceMember_Operation(NamespaceMember, variant="Operation"):
    """`docstring [extended attributes] type name(arguments);`, also without the name."""

    value: OperationNamespaceMember

    def __init__(self, value: OperationNamespaceMember) -> None:
        self._hold(value)


class NamespaceMember_Attribute(NamespaceMember, variant="Attribute"):
    """`docstring [extended attributes] readonly attribute type name;`."""

    value: AttributeNamespaceMember

    def __init__(self, value: AttributeNamespaceMember) -> None:
        self._hold(value)


#: The members of a namespace, one after another, as `long f(); long g();`; none included.
NamespaceMembers = List["NamespaceMember.Variants"]
