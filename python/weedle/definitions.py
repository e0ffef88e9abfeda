"""Definitions.

Written by tools/write/python_types.py, and not edited by hand.
"""

from __future__ import annotations

from typing import Optional, TYPE_CHECKING

from weedle._listing import Listing
from weedle._values import Choice, Value, part, value_class, word
from weedle.common import PunctuatedNonEmpty

if TYPE_CHECKING:
    import typing

    from typing_extensions import TypeAlias

    from weedle import term
    from weedle.argument import ArgumentList
    from weedle.attribute import ExtendedAttributeList
    from weedle.common import Braced, Docstring, Identifier, Parenthesized
    from weedle.dictionary import DictionaryMembers
    from weedle.interface import Inheritance, InterfaceMembers
    from weedle.literal import StringLit
    from weedle.mixin import MixinMembers
    from weedle.namespace import NamespaceMembers
    from weedle.types import AttributedType, ReturnType

__all__ = [
    "CallbackDefinition",
    "CallbackInterfaceDefinition",
    "Definition",
    "Definitions",
    "DictionaryDefinition",
    "EnumDefinition",
    "EnumValueList",
    "EnumVariant",
    "ImplementsDefinition",
    "IncludesStatementDefinition",
    "InterfaceDefinition",
    "InterfaceMixinDefinition",
    "NamespaceDefinition",
    "PartialDictionaryDefinition",
    "PartialInterfaceDefinition",
    "PartialInterfaceMixinDefinition",
    "PartialNamespaceDefinition",
    "TypedefDefinition",
]


@value_class
class CallbackInterfaceDefinition(Value):
    """A callback interface, as `callback interface A {};`."""

    docstring: Optional[Docstring] = part("The docstring in front, where present.")
    attributes: Optional[ExtendedAttributeList] = part(
        "The extended attributes in brackets, as `[Exposed=Window]`, where present."
    )
    callback: term.Callback = word("The word `callback`.")
    interface: term.Interface = word("The word `interface`.")
    identifier: Identifier = part("Its name.")
    inheritance: Optional[Inheritance] = part(
        "The interface that it inherits from, as `: EventTarget`, where one is named."
    )
    members: Braced[InterfaceMembers] = part("Its members, between braces.")
    semi_colon: term.SemiColon = word("The `;` at the end.")

    def __init__(
        self, *, docstring: Optional[Docstring] = None,
        attributes: Optional[ExtendedAttributeList] = None, identifier: Identifier,
        inheritance: Optional[Inheritance] = None, members: Braced[InterfaceMembers],
    ) -> None:
        self._hold(docstring, attributes, identifier, inheritance, members)


@value_class
class InterfaceDefinition(Value):
    """An interface, as `interface A : B { attribute long x; };`."""

    docstring: Optional[Docstring] = part("The docstring in front, where present.")
    attributes: Optional[ExtendedAttributeList] = part(
        "The extended attributes in brackets, as `[Exposed=Window]`, where present."
    )
    interface: term.Interface = word("The word `interface`.")
    identifier: Identifier = part("Its name.")
    inheritance: Optional[Inheritance] = part(
        "The interface that it inherits from, as `: EventTarget`, where one is named."
    )
    members: Braced[InterfaceMembers] = part("Its members, between braces.")
    semi_colon: term.SemiColon = word("The `;` at the end.")

    def __init__(
        self, *, docstring: Optional[Docstring] = None,
        attributes: Optional[ExtendedAttributeList] = None, identifier: Identifier,
        inheritance: Optional[Inheritance] = None, members: Braced[InterfaceMembers],
    ) -> None:
        self._hold(docstring, attributes, identifier, inheritance, members)


@value_class
class PartialInterfaceDefinition(Value):
    """A part of an interface, as `partial interface A {};`."""

    attributes: Optional[ExtendedAttributeList] = part(
        "The extended attributes in brackets, as `[Exposed=Window]`, where present."
    )
    partial: term.Partial = word("The word `partial`.")
    interface: term.Interface = word("The word `interface`.")
    identifier: Identifier = part("The name of the interface that it is a part of.")
    members: Braced[InterfaceMembers] = part("Its members, between braces.")
    semi_colon: term.SemiColon = word("The `;` at the end.")

    def __init__(
        self, *, attributes: Optional[ExtendedAttributeList] = None, identifier: Identifier,
        members: Braced[InterfaceMembers],
    ) -> None:
        self._hold(attributes, identifier, members)


@value_class
class InterfaceMixinDefinition(Value):
    """A mixin, as `interface mixin A {};`."""

    attributes: Optional[ExtendedAttributeList] = part(
        "The extended attributes in brackets, as `[Exposed=Window]`, where present."
    )
    interface: term.Interface = word("The word `interface`.")
    mixin: term.Mixin = word("The word `mixin`.")
    identifier: Identifier = part("Its name.")
    members: Braced[MixinMembers] = part("Its members, between braces.")
    semi_colon: term.SemiColon = word("The `;` at the end.")

    def __init__(
        self, *, attributes: Optional[ExtendedAttributeList] = None, identifier: Identifier,
        members: Braced[MixinMembers],
    ) -> None:
        self._hold(attributes, identifier, members)


@value_class
class PartialInterfaceMixinDefinition(Value):
    """A part of a mixin, as `partial interface mixin A {};`."""

    attributes: Optional[ExtendedAttributeList] = part(
        "The extended attributes in brackets, as `[Exposed=Window]`, where present."
    )
    partial: term.Partial = word("The word `partial`.")
    interface: term.Interface = word("The word `interface`.")
    mixin: term.Mixin = word("The word `mixin`.")
    identifier: Identifier = part("The name of the mixin that it is a part of.")
    members: Braced[MixinMembers] = part("Its members, between braces.")
    semi_colon: term.SemiColon = word("The `;` at the end.")

    def __init__(
        self, *, attributes: Optional[ExtendedAttributeList] = None, identifier: Identifier,
        members: Braced[MixinMembers],
    ) -> None:
        self._hold(attributes, identifier, members)


@value_class
class DictionaryDefinition(Value):
    """A dictionary, as `dictionary A : B { long x = 5; };`."""

    docstring: Optional[Docstring] = part("The docstring in front, where present.")
    attributes: Optional[ExtendedAttributeList] = part(
        "The extended attributes in brackets, as `[Exposed=Window]`, where present."
    )
    dictionary: term.Dictionary = word("The word `dictionary`.")
    identifier: Identifier = part("Its name.")
    inheritance: Optional[Inheritance] = part(
        "The dictionary that it inherits from, as `: EventInit`, where one is named."
    )
    members: Braced[DictionaryMembers] = part("Its members, between braces.")
    semi_colon: term.SemiColon = word("The `;` at the end.")

    def __init__(
        self, *, docstring: Optional[Docstring] = None,
        attributes: Optional[ExtendedAttributeList] = None, identifier: Identifier,
        inheritance: Optional[Inheritance] = None, members: Braced[DictionaryMembers],
    ) -> None:
        self._hold(docstring, attributes, identifier, inheritance, members)


@value_class
class PartialDictionaryDefinition(Value):
    """A part of a dictionary, as `partial dictionary A {};`."""

    attributes: Optional[ExtendedAttributeList] = part(
        "The extended attributes in brackets, as `[Exposed=Window]`, where present."
    )
    partial: term.Partial = word("The word `partial`.")
    dictionary: term.Dictionary = word("The word `dictionary`.")
    identifier: Identifier = part("The name of the dictionary that it is a part of.")
    members: Braced[DictionaryMembers] = part("Its members, between braces.")
    semi_colon: term.SemiColon = word("The `;` at the end.")

    def __init__(
        self, *, attributes: Optional[ExtendedAttributeList] = None, identifier: Identifier,
        members: Braced[DictionaryMembers],
    ) -> None:
        self._hold(attributes, identifier, members)


@value_class
class NamespaceDefinition(Value):
    """A namespace, as `namespace A { long f(); };`."""

    docstring: Optional[Docstring] = part("The docstring in front, where present.")
    attributes: Optional[ExtendedAttributeList] = part(
        "The extended attributes in brackets, as `[Exposed=Window]`, where present."
    )
    namespace: term.Namespace = word("The word `namespace`.")
    identifier: Identifier = part("Its name.")
    members: Braced[NamespaceMembers] = part("Its members, between braces.")
    semi_colon: term.SemiColon = word("The `;` at the end.")

    def __init__(
        self, *, docstring: Optional[Docstring] = None,
        attributes: Optional[ExtendedAttributeList] = None, identifier: Identifier,
        members: Braced[NamespaceMembers],
    ) -> None:
        self._hold(docstring, attributes, identifier, members)


@value_class
class PartialNamespaceDefinition(Value):
    """A part of a namespace, as `partial namespace A {};`."""

    attributes: Optional[ExtendedAttributeList] = part(
        "The extended attributes in brackets, as `[Exposed=Window]`, where present."
    )
    partial: term.Partial = word("The word `partial`.")
    namespace: term.Namespace = word("The word `namespace`.")
    identifier: Identifier = part("The name of the namespace that it is a part of.")
    members: Braced[NamespaceMembers] = part("Its members, between braces.")
    semi_colon: term.SemiColon = word("The `;` at the end.")

    def __init__(
        self, *, attributes: Optional[ExtendedAttributeList] = None, identifier: Identifier,
        members: Braced[NamespaceMembers],
    ) -> None:
        self._hold(attributes, identifier, members)


@value_class
class CallbackDefinition(Value):
    """A callback, as `callback F = undefined (long x);`."""

    attributes: Optional[ExtendedAttributeList] = part(
        "The extended attributes in brackets, as `[Exposed=Window]`, where present."
    )
    callback: term.Callback = word("The word `callback`.")
    identifier: Identifier = part("Its name.")
    assign: term.Assign = word("The `=`.")
    return_type: ReturnType.Variants = part("The type of its result, as `undefined` or `long`.")
    arguments: Parenthesized[ArgumentList] = part("Its arguments, between parentheses.")
    semi_colon: term.SemiColon = word("The `;` at the end.")

    def __init__(
        self, *, attributes: Optional[ExtendedAttributeList] = None, identifier: Identifier,
        return_type: ReturnType.Variants, arguments: Parenthesized[ArgumentList],
    ) -> None:
        self._hold(attributes, identifier, return_type, arguments)


@value_class
class EnumVariant(Value):
    """A value of an enum, as `"blob"`."""

    docstring: Optional[Docstring] = part("The docstring in front, where present.")
    value: StringLit = part("The value in quotes, as `\"blob\"`.")

    def __init__(self, *, docstring: Optional[Docstring] = None, value: StringLit) -> None:
        self._hold(docstring, value)


@value_class
class EnumDefinition(Value):
    """An enum, as `enum A { "a", "b" };`."""

    docstring: Optional[Docstring] = part("The docstring in front, where present.")
    attributes: Optional[ExtendedAttributeList] = part(
        "The extended attributes in brackets, as `[Exposed=Window]`, where present."
    )
    enum_: term.Enum = word("The word `enum`.")
    identifier: Identifier = part("Its name.")
    values: Braced[EnumValueList] = part("Its values, between braces.")
    semi_colon: term.SemiColon = word("The `;` at the end.")

    def __init__(
        self, *, docstring: Optional[Docstring] = None,
        attributes: Optional[ExtendedAttributeList] = None, identifier: Identifier,
        values: Braced[EnumValueList],
    ) -> None:
        self._hold(docstring, attributes, identifier, values)


@value_class
class IncludesStatementDefinition(Value):
    """The use of a mixin by an interface, as `A includes B;`."""

    attributes: Optional[ExtendedAttributeList] = part(
        "The extended attributes in brackets, as `[Exposed=Window]`, where present."
    )
    lhs_identifier: Identifier = part("The name of the interface, before `includes`.")
    includes: term.Includes = word("The word `includes`.")
    rhs_identifier: Identifier = part("The name of the mixin that it uses, behind `includes`.")
    semi_colon: term.SemiColon = word("The `;` at the end.")

    def __init__(
        self, *, attributes: Optional[ExtendedAttributeList] = None, lhs_identifier: Identifier,
        rhs_identifier: Identifier,
    ) -> None:
        self._hold(attributes, lhs_identifier, rhs_identifier)


@value_class
class ImplementsDefinition(Value):
    """The older form of a mixin's use, as `A implements B;`."""

    attributes: Optional[ExtendedAttributeList] = part(
        "The extended attributes in brackets, as `[Exposed=Window]`, where present."
    )
    lhs_identifier: Identifier = part("The name of the interface, before `implements`.")
    includes: term.Implements = word("The word `implements`.")
    rhs_identifier: Identifier = part(
        "The name of the interface that it implements, behind `implements`."
    )
    semi_colon: term.SemiColon = word("The `;` at the end.")

    def __init__(
        self, *, attributes: Optional[ExtendedAttributeList] = None, lhs_identifier: Identifier,
        rhs_identifier: Identifier,
    ) -> None:
        self._hold(attributes, lhs_identifier, rhs_identifier)


@value_class
class TypedefDefinition(Value):
    """A name for a type, as `typedef long A;`."""

    attributes: Optional[ExtendedAttributeList] = part(
        "The extended attributes in brackets, as `[Exposed=Window]`, where present."
    )
    typedef: term.Typedef = word("The word `typedef`.")
    type_: AttributedType = part(
        "The type that is named, as `long`, with the extended attributes before it."
    )
    identifier: Identifier = part("The name that the type gets.")
    semi_colon: term.SemiColon = word("The `;` at the end.")

    def __init__(
        self, *, attributes: Optional[ExtendedAttributeList] = None, type_: AttributedType,
        identifier: Identifier,
    ) -> None:
        self._hold(attributes, type_, identifier)


class Definition(Choice):
    """A definition, as `interface A {};`."""

    if TYPE_CHECKING:
        Callback: TypeAlias = "Definition_Callback"
        CallbackInterface: TypeAlias = "Definition_CallbackInterface"
        Interface: TypeAlias = "Definition_Interface"
        InterfaceMixin: TypeAlias = "Definition_InterfaceMixin"
        Namespace: TypeAlias = "Definition_Namespace"
        Dictionary: TypeAlias = "Definition_Dictionary"
        PartialInterface: TypeAlias = "Definition_PartialInterface"
        PartialInterfaceMixin: TypeAlias = "Definition_PartialInterfaceMixin"
        PartialDictionary: TypeAlias = "Definition_PartialDictionary"
        PartialNamespace: TypeAlias = "Definition_PartialNamespace"
        Enum: TypeAlias = "Definition_Enum"
        Typedef: TypeAlias = "Definition_Typedef"
        IncludesStatement: TypeAlias = "Definition_IncludesStatement"
        Implements: TypeAlias = "Definition_Implements"
        Variants: TypeAlias = (
            "typing.Union[Definition_Callback, Definition_CallbackInterface, "
            "Definition_Interface, Definition_InterfaceMixin, Definition_Namespace, "
            "Definition_Dictionary, Definition_PartialInterface, "
            "Definition_PartialInterfaceMixin, Definition_PartialDictionary, "
            "Definition_PartialNamespace, Definition_Enum, Definition_Typedef, "
            "Definition_IncludesStatement, Definition_Implements]"
        )


class Definition_Callback(Definition, variant="Callback"):
    """`[extended attributes] callback name = type (arguments);`."""

    value: CallbackDefinition

    def __init__(self, value: CallbackDefinition) -> None:
        self._hold(value)


class Definition_CallbackInterface(Definition, variant="CallbackInterface"):
    """`docstring [extended attributes] callback interface name : parent { members };`."""

    value: CallbackInterfaceDefinition

    def __init__(self, value: CallbackInterfaceDefinition) -> None:
        self._hold(value)


class Definition_Interface(Definition, variant="Interface"):
    """`docstring [extended attributes] interface name : parent { members };`."""

    value: InterfaceDefinition

    def __init__(self, value: InterfaceDefinition) -> None:
        self._hold(value)


class Definition_InterfaceMixin(Definition, variant="InterfaceMixin"):
    """`[extended attributes] interface mixin name { members };`."""

    value: InterfaceMixinDefinition

    def __init__(self, value: InterfaceMixinDefinition) -> None:
        self._hold(value)


class Definition_Namespace(Definition, variant="Namespace"):
    """`docstring [extended attributes] namespace name { members };`."""

    value: NamespaceDefinition

    def __init__(self, value: NamespaceDefinition) -> None:
        self._hold(value)


class Definition_Dictionary(Definition, variant="Dictionary"):
    """`docstring [extended attributes] dictionary name : parent { members };`."""

    value: DictionaryDefinition

    def __init__(self, value: DictionaryDefinition) -> None:
        self._hold(value)


class Definition_PartialInterface(Definition, variant="PartialInterface"):
    """`[extended attributes] partial interface name { members };`."""

    value: PartialInterfaceDefinition

    def __init__(self, value: PartialInterfaceDefinition) -> None:
        self._hold(value)


class Definition_PartialInterfaceMixin(Definition, variant="PartialInterfaceMixin"):
    """`[extended attributes] partial interface mixin name { members };`."""

    value: PartialInterfaceMixinDefinition

    def __init__(self, value: PartialInterfaceMixinDefinition) -> None:
        self._hold(value)


class Definition_PartialDictionary(Definition, variant="PartialDictionary"):
    """`[extended attributes] partial dictionary name { members };`."""

    value: PartialDictionaryDefinition

    def __init__(self, value: PartialDictionaryDefinition) -> None:
        self._hold(value)


class Definition_PartialNamespace(Definition, variant="PartialNamespace"):
    """`[extended attributes] partial namespace name { members };`."""

    value: PartialNamespaceDefinition

    def __init__(self, value: PartialNamespaceDefinition) -> None:
        self._hold(value)


class Definition_Enum(Definition, variant="Enum"):
    """`docstring [extended attributes] enum name { "value", "value" };`."""

    value: EnumDefinition

    def __init__(self, value: EnumDefinition) -> None:
        self._hold(value)


class Definition_Typedef(Definition, variant="Typedef"):
    """`[extended attributes] typedef type name;`."""

    value: TypedefDefinition

    def __init__(self, value: TypedefDefinition) -> None:
        self._hold(value)


class Definition_IncludesStatement(Definition, variant="IncludesStatement"):
    """`[extended attributes] name includes name;`."""

    value: IncludesStatementDefinition

    def __init__(self, value: IncludesStatementDefinition) -> None:
        self._hold(value)


class Definition_Implements(Definition, variant="Implements"):
    """`[extended attributes] name implements name;`."""

    value: ImplementsDefinition

    def __init__(self, value: ImplementsDefinition) -> None:
        self._hold(value)


#: The values of an enum, one at least, and a comma behind the last where present, as `"a",
#: "b",`.
EnumValueList = PunctuatedNonEmpty["EnumVariant", "term.Comma"]


class Definitions(Listing["Definition.Variants"]):
    """Definitions one after another, as `interface A {}; interface B {};`."""
