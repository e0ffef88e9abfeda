"""Members of mixins.

Written by tools/write/python_types.py, and not edited by hand.
"""

from __future__ import annotations

from typing import List, Optional, TYPE_CHECKING

from weedle._values import Choice, Value, part, value_class, word

if TYPE_CHECKING:
    import typing

    from typing_extensions import TypeAlias

    from weedle import term
    from weedle.argument import ArgumentList
    from weedle.attribute import ExtendedAttributeList
    from weedle.common import Identifier, Parenthesized
    from weedle.interface import ConstMember, StringifierMember
    from weedle.types import AttributedType, ReturnType

__all__ = [
    "AttributeMixinMember",
    "MixinMember",
    "MixinMembers",
    "OperationMixinMember",
]


@value_class
class OperationMixinMember(Value):
    """An operation of a mixin, as `stringifier long f(long x);`."""

    attributes: Optional[ExtendedAttributeList] = part(
        "The extended attributes in brackets, as `[Exposed=Window]`, where present."
    )
    stringifier: Optional[term.Stringifier] = part("The word `stringifier`, where present.")
    return_type: ReturnType.Variants = part("The type of its result, as `undefined` or `long`.")
    identifier: Optional[Identifier] = part("Its name, where it has one.")
    args: Parenthesized[ArgumentList] = part("Its arguments, between parentheses.")
    semi_colon: term.SemiColon = word("The `;` at the end.")

    def __init__(
        self, *, attributes: Optional[ExtendedAttributeList] = None,
        stringifier: Optional[term.Stringifier] = None, return_type: ReturnType.Variants,
        identifier: Optional[Identifier] = None, args: Parenthesized[ArgumentList],
    ) -> None:
        self._hold(attributes, stringifier, return_type, identifier, args)


@value_class
class AttributeMixinMember(Value):
    """An attribute of a mixin, as `readonly attribute long x;`."""

    attributes: Optional[ExtendedAttributeList] = part(
        "The extended attributes in brackets, as `[Exposed=Window]`, where present."
    )
    stringifier: Optional[term.Stringifier] = part("The word `stringifier`, where present.")
    readonly: Optional[term.ReadOnly] = part("The word `readonly`, where present.")
    attribute: term.Attribute = word("The word `attribute`.")
    type_: AttributedType = part("Its type, as `long`, with the extended attributes before it.")
    identifier: Identifier = part("Its name.")
    semi_colon: term.SemiColon = word("The `;` at the end.")

    def __init__(
        self, *, attributes: Optional[ExtendedAttributeList] = None,
        stringifier: Optional[term.Stringifier] = None,
        readonly: Optional[term.ReadOnly] = None, type_: AttributedType, identifier: Identifier,
    ) -> None:
        self._hold(attributes, stringifier, readonly, type_, identifier)


class MixinMember(Choice):
    """A member of a mixin, as `readonly attribute long x;`."""

    if TYPE_CHECKING:
        Const: TypeAlias = "MixinMember_Const"
        Operation: TypeAlias = "MixinMember_Operation"
        Attribute: TypeAlias = "MixinMember_Attribute"
        Stringifier: TypeAlias = "MixinMember_Stringifier"
        Variants: TypeAlias = (
            "typing.Union[MixinMember_Const, MixinMember_Operation, MixinMember_Attribute, "
            "MixinMember_Stringifier]"
        )


class MixinMember_Const(MixinMember, variant="Const"):
    """`[extended attributes] const type name = value;`."""

    value: ConstMember

    def __init__(self, value: ConstMember) -> None:
        self._hold(value)


class MixinMember_Operation(MixinMember, variant="Operation"):
    """`[extended attributes] stringifier type name(arguments);`, also without `stringifier`
    or the name.
    """

    value: OperationMixinMember

    def __init__(self, value: OperationMixinMember) -> None:
        self._hold(value)


class MixinMember_Attribute(MixinMember, variant="Attribute"):
    """`[extended attributes] stringifier readonly attribute type name;`, also without
    `stringifier` or `readonly`.
    """

    value: AttributeMixinMember

    def __init__(self, value: AttributeMixinMember) -> None:
        self._hold(value)


class MixinMember_Stringifier(MixinMember, variant="Stringifier"):
    """`[extended attributes] stringifier;`."""

    value: StringifierMember

    def __init__(self, value: StringifierMember) -> None:
        self._hold(value)


#: The members of a mixin, one after another, as `long f(); long g();`; none included.
MixinMembers = List["MixinMember.Variants"]
