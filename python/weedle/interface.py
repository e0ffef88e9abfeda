"""Members of interfaces.

Written by tools/write/python_types.py, and not edited by hand.
"""

from __future__ import annotations

from typing import List, Optional, TYPE_CHECKING, Tuple

from weedle._values import Choice, Value, part, value_class, word

if TYPE_CHECKING:
    import typing

    from typing_extensions import TypeAlias

    from weedle import term
    from weedle.argument import ArgumentList
    from weedle.attribute import ExtendedAttributeList
    from weedle.common import Docstring, Generics, Identifier, Parenthesized
    from weedle.literal import ConstValue
    from weedle.types import AttributedType, ConstType, ReturnType

__all__ = [
    "AsyncIterableInterfaceMember",
    "AttributeInterfaceMember",
    "ConstMember",
    "ConstructorInterfaceMember",
    "DoubleTypedAsyncIterable",
    "DoubleTypedIterable",
    "Inheritance",
    "InterfaceMember",
    "InterfaceMembers",
    "IterableInterfaceMember",
    "MaplikeInterfaceMember",
    "OperationInterfaceMember",
    "SetlikeInterfaceMember",
    "SingleTypedAsyncIterable",
    "SingleTypedIterable",
    "Special",
    "StringifierMember",
    "StringifierOrInheritOrStatic",
    "StringifierOrStatic",
]


@value_class
class Inheritance(Value):
    """What an interface or a dictionary inherits from, as `: Node`."""

    colon: term.Colon = word("The `:`.")
    identifier: Identifier = part("The name of what is inherited from.")

    def __init__(self, *, identifier: Identifier) -> None:
        self._hold(identifier)


class Special(Choice):
    """The word of a special operation, as `getter`."""

    if TYPE_CHECKING:
        Getter: TypeAlias = "Special_Getter"
        Setter: TypeAlias = "Special_Setter"
        Deleter: TypeAlias = "Special_Deleter"
        LegacyCaller: TypeAlias = "Special_LegacyCaller"
        Variants: TypeAlias = (
            "typing.Union[Special_Getter, Special_Setter, Special_Deleter, "
            "Special_LegacyCaller]"
        )


class Special_Getter(Special, variant="Getter"):
    """The word `getter`."""

    value: term.Getter

    def __init__(self, value: term.Getter) -> None:
        self._hold(value)


class Special_Setter(Special, variant="Setter"):
    """The word `setter`."""

    value: term.Setter

    def __init__(self, value: term.Setter) -> None:
        self._hold(value)


class Special_Deleter(Special, variant="Deleter"):
    """The word `deleter`."""

    value: term.Deleter

    def __init__(self, value: term.Deleter) -> None:
        self._hold(value)


class Special_LegacyCaller(Special, variant="LegacyCaller"):
    """The word `legacycaller`."""

    value: term.LegacyCaller

    def __init__(self, value: term.LegacyCaller) -> None:
        self._hold(value)


class StringifierOrInheritOrStatic(Choice):
    """The word before an attribute, as `static`."""

    if TYPE_CHECKING:
        Stringifier: TypeAlias = "StringifierOrInheritOrStatic_Stringifier"
        Inherit: TypeAlias = "StringifierOrInheritOrStatic_Inherit"
        Static: TypeAlias = "StringifierOrInheritOrStatic_Static"
        Variants: TypeAlias = (
            "typing.Union[StringifierOrInheritOrStatic_Stringifier, "
            "StringifierOrInheritOrStatic_Inherit, StringifierOrInheritOrStatic_Static]"
        )


class StringifierOrInheritOrStatic_Stringifier(StringifierOrInheritOrStatic, variant="Stringifier"):
    """The word `stringifier`."""

    value: term.Stringifier

    def __init__(self, value: term.Stringifier) -> None:
        self._hold(value)


class StringifierOrInheritOrStatic_Inherit(StringifierOrInheritOrStatic, variant="Inherit"):
    """The word `inherit`."""

    value: term.Inherit

    def __init__(self, value: term.Inherit) -> None:
        self._hold(value)


class StringifierOrInheritOrStatic_Static(StringifierOrInheritOrStatic, variant="Static"):
    """The word `static`."""

    value: term.Static

    def __init__(self, value: term.Static) -> None:
        self._hold(value)


class StringifierOrStatic(Choice):
    """The word before an operation, as `stringifier` or `static`."""

    if TYPE_CHECKING:
        Stringifier: TypeAlias = "StringifierOrStatic_Stringifier"
        Static: TypeAlias = "StringifierOrStatic_Static"
        Variants: TypeAlias = (
            "typing.Union[StringifierOrStatic_Stringifier, StringifierOrStatic_Static]"
        )


class StringifierOrStatic_Stringifier(StringifierOrStatic, variant="Stringifier"):
    """The word `stringifier`."""

    value: term.Stringifier

    def __init__(self, value: term.Stringifier) -> None:
        self._hold(value)


class StringifierOrStatic_Static(StringifierOrStatic, variant="Static"):
    """The word `static`."""

    value: term.Static

    def __init__(self, value: term.Static) -> None:
        self._hold(value)


@value_class
class AttributeInterfaceMember(Value):
    """An attribute of an interface, as `static readonly attribute long x;`."""

    attributes: Optional[ExtendedAttributeList] = part(
        "The extended attributes in brackets, as `[Exposed=Window]`, where present."
    )
    modifier: Optional[StringifierOrInheritOrStatic.Variants] = part(
        "The word `stringifier`, `inherit` or `static`, where one of them is present."
    )
    readonly: Optional[term.ReadOnly] = part("The word `readonly`, where present.")
    attribute: term.Attribute = word("The word `attribute`.")
    type_: AttributedType = part("Its type, as `long`, with the extended attributes before it.")
    identifier: Identifier = part("Its name.")
    semi_colon: term.SemiColon = word("The `;` at the end.")

    def __init__(
        self, *, attributes: Optional[ExtendedAttributeList] = None,
        modifier: Optional[StringifierOrInheritOrStatic.Variants] = None,
        readonly: Optional[term.ReadOnly] = None, type_: AttributedType, identifier: Identifier,
    ) -> None:
        self._hold(attributes, modifier, readonly, type_, identifier)


@value_class
class ConstMember(Value):
    """A constant, as `const long X = 5;`."""

    attributes: Optional[ExtendedAttributeList] = part(
        "The extended attributes in brackets, as `[Exposed=Window]`, where present."
    )
    const_: term.Const = word("The word `const`.")
    const_type: ConstType.Variants = part("Its type, as `long`.")
    identifier: Identifier = part("Its name.")
    assign: term.Assign = word("The `=`.")
    const_value: ConstValue.Variants = part("Its value, as `5`.")
    semi_colon: term.SemiColon = word("The `;` at the end.")

    def __init__(
        self, *, attributes: Optional[ExtendedAttributeList] = None,
        const_type: ConstType.Variants, identifier: Identifier,
        const_value: ConstValue.Variants,
    ) -> None:
        self._hold(attributes, const_type, identifier, const_value)


@value_class
class ConstructorInterfaceMember(Value):
    """A constructor, as `constructor(long x);`."""

    docstring: Optional[Docstring] = part("The docstring in front, where present.")
    attributes: Optional[ExtendedAttributeList] = part(
        "The extended attributes in brackets, as `[Exposed=Window]`, where present."
    )
    constructor: term.Constructor = word("The word `constructor`.")
    args: Parenthesized[ArgumentList] = part("Its arguments, between parentheses.")
    semi_colon: term.SemiColon = word("The `;` at the end.")

    def __init__(
        self, *, docstring: Optional[Docstring] = None,
        attributes: Optional[ExtendedAttributeList] = None, args: Parenthesized[ArgumentList],
    ) -> None:
        self._hold(docstring, attributes, args)


@value_class
class OperationInterfaceMember(Value):
    """An operation of an interface, as `getter long item(long index);`."""

    docstring: Optional[Docstring] = part("The docstring in front, where present.")
    attributes: Optional[ExtendedAttributeList] = part(
        "The extended attributes in brackets, as `[Exposed=Window]`, where present."
    )
    modifier: Optional[StringifierOrStatic.Variants] = part(
        "The word `stringifier` or `static`, where one of them is present."
    )
    special: Optional[Special.Variants] = part(
        "The word `getter`, `setter`, `deleter` or `legacycaller`, where one of them is "
        "present."
    )
    return_type: ReturnType.Variants = part("The type of its result, as `undefined` or `long`.")
    identifier: Optional[Identifier] = part("Its name, where it has one.")
    args: Parenthesized[ArgumentList] = part("Its arguments, between parentheses.")
    semi_colon: term.SemiColon = word("The `;` at the end.")

    def __init__(
        self, *, docstring: Optional[Docstring] = None,
        attributes: Optional[ExtendedAttributeList] = None,
        modifier: Optional[StringifierOrStatic.Variants] = None,
        special: Optional[Special.Variants] = None, return_type: ReturnType.Variants,
        identifier: Optional[Identifier] = None, args: Parenthesized[ArgumentList],
    ) -> None:
        self._hold(docstring, attributes, modifier, special, return_type, identifier, args)


@value_class
class StringifierMember(Value):
    """A stringifier with no body, as `stringifier;`."""

    attributes: Optional[ExtendedAttributeList] = part(
        "The extended attributes in brackets, as `[Exposed=Window]`, where present."
    )
    stringifier: term.Stringifier = word("The word `stringifier`.")
    semi_colon: term.SemiColon = word("The `;` at the end.")

    def __init__(self, *, attributes: Optional[ExtendedAttributeList] = None) -> None:
        self._hold(attributes)


@value_class
class SingleTypedAsyncIterable(Value):
    """An asynchronous iteration over values, as `async iterable<long>;`."""

    attributes: Optional[ExtendedAttributeList] = part(
        "The extended attributes in brackets, as `[Exposed=Window]`, where present."
    )
    async_iterable: Tuple[term.Async, term.Iterable] = word("The words `async` and `iterable`.")
    generics: Generics[AttributedType] = part(
        "The type of its values in angle brackets, as `<long>`."
    )
    args: Optional[Parenthesized[ArgumentList]] = part(
        "The arguments between parentheses, as `(long x)`, where present."
    )
    semi_colon: term.SemiColon = word("The `;` at the end.")

    def __init__(
        self, *, attributes: Optional[ExtendedAttributeList] = None,
        generics: Generics[AttributedType], args: Optional[Parenthesized[ArgumentList]] = None,
    ) -> None:
        self._hold(attributes, generics, args)


@value_class
class DoubleTypedAsyncIterable(Value):
    """An asynchronous iteration over pairs, as `async iterable<DOMString, long>(long x);`."""

    attributes: Optional[ExtendedAttributeList] = part(
        "The extended attributes in brackets, as `[Exposed=Window]`, where present."
    )
    async_iterable: Tuple[term.Async, term.Iterable] = word("The words `async` and `iterable`.")
    generics: Generics[Tuple[AttributedType, term.Comma, AttributedType]] = part(
        "The types of its keys and values in angle brackets, as `<DOMString, long>`."
    )
    args: Optional[Parenthesized[ArgumentList]] = part(
        "The arguments between parentheses, as `(long x)`, where present."
    )
    semi_colon: term.SemiColon = word("The `;` at the end.")

    def __init__(
        self, *, attributes: Optional[ExtendedAttributeList] = None,
        generics: Generics[Tuple[AttributedType, term.Comma, AttributedType]],
        args: Optional[Parenthesized[ArgumentList]] = None,
    ) -> None:
        self._hold(attributes, generics, args)


class AsyncIterableInterfaceMember(Choice):
    """An asynchronous iteration over values or pairs, as `async iterable<long>;`."""

    if TYPE_CHECKING:
        Single: TypeAlias = "AsyncIterableInterfaceMember_Single"
        Double: TypeAlias = "AsyncIterableInterfaceMember_Double"
        Variants: TypeAlias = (
            "typing.Union[AsyncIterableInterfaceMember_Single, "
            "AsyncIterableInterfaceMember_Double]"
        )


class AsyncIterableInterfaceMember_Single(AsyncIterableInterfaceMember, variant="Single"):
    """`[extended attributes] async iterable<type>(arguments);`, also without `(arguments)`."""

    value: SingleTypedAsyncIterable

    def __init__(self, value: SingleTypedAsyncIterable) -> None:
        self._hold(value)


class AsyncIterableInterfaceMember_Double(AsyncIterableInterfaceMember, variant="Double"):
    """`[extended attributes] async iterable<type, type>(arguments);`, also without
    `(arguments)`.
    """

    value: DoubleTypedAsyncIterable

    def __init__(self, value: DoubleTypedAsyncIterable) -> None:
        self._hold(value)


@value_class
class MaplikeInterfaceMember(Value):
    """A map, as `readonly maplike<DOMString, long>;`."""

    attributes: Optional[ExtendedAttributeList] = part(
        "The extended attributes in brackets, as `[Exposed=Window]`, where present."
    )
    readonly: Optional[term.ReadOnly] = part("The word `readonly`, where present.")
    maplike: term.Maplike = word("The word `maplike`.")
    generics: Generics[Tuple[AttributedType, term.Comma, AttributedType]] = part(
        "The types of its keys and values in angle brackets, as `<DOMString, long>`."
    )
    semi_colon: term.SemiColon = word("The `;` at the end.")

    def __init__(
        self, *, attributes: Optional[ExtendedAttributeList] = None,
        readonly: Optional[term.ReadOnly] = None,
        generics: Generics[Tuple[AttributedType, term.Comma, AttributedType]],
    ) -> None:
        self._hold(attributes, readonly, generics)


@value_class
class SetlikeInterfaceMember(Value):
    """A set, as `readonly setlike<long>;`."""

    attributes: Optional[ExtendedAttributeList] = part(
        "The extended attributes in brackets, as `[Exposed=Window]`, where present."
    )
    readonly: Optional[term.ReadOnly] = part("The word `readonly`, where present.")
    setlike: term.Setlike = word("The word `setlike`.")
    generics: Generics[AttributedType] = part(
        "The type of its values in angle brackets, as `<long>`."
    )
    semi_colon: term.SemiColon = word("The `;` at the end.")

    def __init__(
        self, *, attributes: Optional[ExtendedAttributeList] = None,
        readonly: Optional[term.ReadOnly] = None, generics: Generics[AttributedType],
    ) -> None:
        self._hold(attributes, readonly, generics)


@value_class
class SingleTypedIterable(Value):
    """An iteration over values, as `iterable<long>;`."""

    attributes: Optional[ExtendedAttributeList] = part(
        "The extended attributes in brackets, as `[Exposed=Window]`, where present."
    )
    iterable: term.Iterable = word("The word `iterable`.")
    generics: Generics[AttributedType] = part(
        "The type of its values in angle brackets, as `<long>`."
    )
    semi_colon: term.SemiColon = word("The `;` at the end.")

    def __init__(
        self, *, attributes: Optional[ExtendedAttributeList] = None,
        generics: Generics[AttributedType],
    ) -> None:
        self._hold(attributes, generics)


@value_class
class DoubleTypedIterable(Value):
    """An iteration over pairs, as `iterable<DOMString, long>;`."""

    attributes: Optional[ExtendedAttributeList] = part(
        "The extended attributes in brackets, as `[Exposed=Window]`, where present."
    )
    iterable: term.Iterable = word("The word `iterable`.")
    generics: Generics[Tuple[AttributedType, term.Comma, AttributedType]] = part(
        "The types of its keys and values in angle brackets, as `<DOMString, long>`."
    )
    semi_colon: term.SemiColon = word("The `;` at the end.")

    def __init__(
        self, *, attributes: Optional[ExtendedAttributeList] = None,
        generics: Generics[Tuple[AttributedType, term.Comma, AttributedType]],
    ) -> None:
        self._hold(attributes, generics)


class IterableInterfaceMember(Choice):
    """An iteration over values or pairs, as `iterable<long>;`."""

    if TYPE_CHECKING:
        Single: TypeAlias = "IterableInterfaceMember_Single"
        Double: TypeAlias = "IterableInterfaceMember_Double"
        Variants: TypeAlias = (
            "typing.Union[IterableInterfaceMember_Single, IterableInterfaceMember_Double]"
        )


class IterableInterfaceMember_Single(IterableInterfaceMember, variant="Single"):
    """`[extended attributes] iterable<type>;`."""

    value: SingleTypedIterable

    def __init__(self, value: SingleTypedIterable) -> None:
        self._hold(value)


class IterableInterfaceMember_Double(IterableInterfaceMember, variant="Double"):
    """`[extended attributes] iterable<type, type>;`."""

    value: DoubleTypedIterable

    def __init__(self, value: DoubleTypedIterable) -> None:
        self._hold(value)


class InterfaceMember(Choice):
    """A member of an interface, as `attribute long length;`."""

    if TYPE_CHECKING:
        Const: TypeAlias = "InterfaceMember_Const"
        Attribute: TypeAlias = "InterfaceMember_Attribute"
        Constructor: TypeAlias = "InterfaceMember_Constructor"
        Operation: TypeAlias = "InterfaceMember_Operation"
        Iterable: TypeAlias = "InterfaceMember_Iterable"
        AsyncIterable: TypeAlias = "InterfaceMember_AsyncIterable"
        Maplike: TypeAlias = "InterfaceMember_Maplike"
        Setlike: TypeAlias = "InterfaceMember_Setlike"
        Stringifier: TypeAlias = "InterfaceMember_Stringifier"
        Variants: TypeAlias = (
            "typing.Union[InterfaceMember_Const, InterfaceMember_Attribute, "
            "InterfaceMember_Constructor, InterfaceMember_Operation, "
            "InterfaceMember_Iterable, InterfaceMember_AsyncIterable, "
            "InterfaceMember_Maplike, InterfaceMember_Setlike, InterfaceMember_Stringifier]"
        )


class InterfaceMember_Const(InterfaceMember, variant="Const"):
    """`[extended attributes] const type name = value;`."""

    value: ConstMember

    def __init__(self, value: ConstMember) -> None:
        self._hold(value)


class InterfaceMember_Attribute(InterfaceMember, variant="Attribute"):
    """`[extended attributes] readonly attribute type name;`, also without `readonly`."""

    value: AttributeInterfaceMember

    def __init__(self, value: AttributeInterfaceMember) -> None:
        self._hold(value)


class InterfaceMember_Constructor(InterfaceMember, variant="Constructor"):
    """`docstring [extended attributes] constructor(arguments);`."""

    value: ConstructorInterfaceMember

    def __init__(self, value: ConstructorInterfaceMember) -> None:
        self._hold(value)


class InterfaceMember_Operation(InterfaceMember, variant="Operation"):
    """`docstring [extended attributes] type name(arguments);`, also without the name."""

    value: OperationInterfaceMember

    def __init__(self, value: OperationInterfaceMember) -> None:
        self._hold(value)


class InterfaceMember_Iterable(InterfaceMember, variant="Iterable"):
    """`[extended attributes] iterable<type>;` or `[extended attributes] iterable<type,
    type>;`.
    """

    value: IterableInterfaceMember.Variants

    def __init__(self, value: IterableInterfaceMember.Variants) -> None:
        self._hold(value)


class InterfaceMember_AsyncIterable(InterfaceMember, variant="AsyncIterable"):
    """`[extended attributes] async iterable<type>(arguments);`, also with two types, or
    without `(arguments)`.
    """

    value: AsyncIterableInterfaceMember.Variants

    def __init__(self, value: AsyncIterableInterfaceMember.Variants) -> None:
        self._hold(value)


class InterfaceMember_Maplike(InterfaceMember, variant="Maplike"):
    """`[extended attributes] readonly maplike<type, type>;`, also without `readonly`."""

    value: MaplikeInterfaceMember

    def __init__(self, value: MaplikeInterfaceMember) -> None:
        self._hold(value)


class InterfaceMember_Setlike(InterfaceMember, variant="Setlike"):
    """`[extended attributes] readonly setlike<type>;`, also without `readonly`."""

    value: SetlikeInterfaceMember

    def __init__(self, value: SetlikeInterfaceMember) -> None:
        self._hold(value)


class InterfaceMember_Stringifier(InterfaceMember, variant="Stringifier"):
    """`[extended attributes] stringifier;`."""

    value: StringifierMember

    def __init__(self, value: StringifierMember) -> None:
        self._hold(value)


#: The members of an interface, one after another, as `long f(); long g();`; none included.
InterfaceMembers = List["InterfaceMember.Variants"]
