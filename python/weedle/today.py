"""Today's tree: the types that weedle2's hasn't. What both have is in the other modules.

>>> import weedle
>>> (definition,) = weedle.parse("[Exposed=*] interface A {};", dialect="today")
>>> isinstance(definition, weedle.today.Definition.Interface)
True
>>> definition.value.attributes[0].body[0].value
ExtendedAttributeWildcard(identifier=Identifier('Exposed'))

Written by tools/write/python_types.py, and not edited by hand.
"""

from __future__ import annotations

from typing import ClassVar, Dict, Generic, List, Optional, Sequence, TYPE_CHECKING, Tuple

from weedle._listing import Listing
from weedle._leaves import LastLine
from weedle._values import Choice, Factored, Kind, T, Terminal, Value, part, value_class, word
from weedle.common import Bracketed, Parenthesized, Punctuated

if TYPE_CHECKING:
    import typing

    from typing_extensions import TypeAlias

    from weedle import term
    from weedle.attribute import (
        ExtendedAttributeIdent, ExtendedAttributeIdentList, ExtendedAttributeNoArgs,
    )
    from weedle.common import Docstring, Generics, Identifier
    from weedle.interface import (
        Inheritance, Special, StringifierOrInheritOrStatic, StringifierOrStatic,
    )
    from weedle.literal import (
        BooleanLit, ConstValue, EmptyArrayLit, EmptyDictionaryLit, FloatLit, IntegerLit,
        StringLit,
    )
    from weedle.types import FloatingPointType, IntegerType, MayBeNull

__all__ = [
    "Argument",
    "ArgumentList",
    "Asterisk",
    "AsyncIterableInterfaceMember",
    "AsyncIterableWord",
    "AsyncSequence",
    "AsyncSequenceType",
    "AsyncWords",
    "AttributeInterfaceMember",
    "AttributeMixinMember",
    "AttributeNamespaceMember",
    "AttributedNonAnyType",
    "AttributedType",
    "BigInt",
    "BigInt64Array",
    "BigUint64Array",
    "Braced",
    "BracedEnumValues",
    "CallbackDefinition",
    "CallbackInterfaceDefinition",
    "ConstMember",
    "ConstType",
    "ConstructorInterfaceMember",
    "Default",
    "DefaultValue",
    "Definition",
    "Definitions",
    "DictionaryDefinition",
    "DictionaryMember",
    "DictionaryMembers",
    "EnumDefinition",
    "EnumVariant",
    "ExtendedAttribute",
    "ExtendedAttributeArgList",
    "ExtendedAttributeList",
    "ExtendedAttributeNamedArgList",
    "ExtendedAttributeNumber",
    "ExtendedAttributeNumbers",
    "ExtendedAttributeStrings",
    "ExtendedAttributeWildcard",
    "Float16Array",
    "FrozenArrayType",
    "GenericType",
    "ImplementsDefinition",
    "IncludesStatementDefinition",
    "InterfaceDefinition",
    "InterfaceMember",
    "InterfaceMembers",
    "InterfaceMixinDefinition",
    "IterableInterfaceMember",
    "Iterated",
    "LastDocstring",
    "MaplikeInterfaceMember",
    "MixinMember",
    "MixinMembers",
    "NamespaceDefinition",
    "NamespaceMember",
    "NamespaceMembers",
    "NonAnyType",
    "Number",
    "ObservableArray",
    "ObservableArrayType",
    "OperationInterfaceMember",
    "OperationMixinMember",
    "OperationNamespaceMember",
    "OptionalArgument",
    "PartialDictionaryDefinition",
    "PartialInterfaceDefinition",
    "PartialInterfaceMixinDefinition",
    "PartialNamespaceDefinition",
    "PromiseType",
    "RecordKeyType",
    "RecordType",
    "RequiredArgument",
    "SecondType",
    "SequenceType",
    "SetlikeInterfaceMember",
    "SharedArrayBuffer",
    "StringifierMember",
    "Type",
    "TypedefDefinition",
    "UnionMemberType",
    "UnionType",
    "WordType",
]


class Asterisk(Terminal):
    """The symbol `*`."""

    _spelled = "*"


class BigInt(Terminal):
    """The keyword `bigint`."""

    _spelled = "bigint"


class AsyncIterableWord(Terminal):
    """The keyword `async_iterable`."""

    _spelled = "async_iterable"


class AsyncSequence(Terminal):
    """The keyword `async_sequence`."""

    _spelled = "async_sequence"


class ObservableArray(Terminal):
    """The keyword `ObservableArray`."""

    _spelled = "ObservableArray"


class Float16Array(Terminal):
    """The keyword `Float16Array`."""

    _spelled = "Float16Array"


class BigInt64Array(Terminal):
    """The keyword `BigInt64Array`."""

    _spelled = "BigInt64Array"


class BigUint64Array(Terminal):
    """The keyword `BigUint64Array`."""

    _spelled = "BigUint64Array"


class SharedArrayBuffer(Terminal):
    """The keyword `SharedArrayBuffer`."""

    _spelled = "SharedArrayBuffer"


class LastDocstring(LastLine):
    """A docstring's line that the text ends in, which has no line end."""


@value_class
class Braced(Value, Generic[T]):
    """A body in braces, as `{ .. }`, with docstrings in front of the `}`."""

    open_brace: term.OpenBrace = word("The `{`.")
    body: T = part("What is between the braces.")
    docstrings: List[Docstring] = part(
        "The docstrings in front of the `}`, behind the last member, none included."
    )
    close_brace: term.CloseBrace = word("The `}`.")

    def __init__(self, *, body: T, docstrings: Sequence[Docstring] = ()) -> None:
        self._hold(body, [*docstrings])


@value_class
class Default(Value):
    """A default, as `= 5`."""

    assign: term.Assign = word("The `=`.")
    value: DefaultValue.Variants = part("The value, as `5`.")

    def __init__(self, *, value: DefaultValue.Variants) -> None:
        self._hold(value)


@value_class
class SequenceType(Value):
    """A sequence, as `sequence<[Clamp] octet>`."""

    sequence: term.Sequence = word("The word `sequence`.")
    generics: Generics[AttributedType] = part(
        "The type of its items in angle brackets, as `<long>`."
    )

    def __init__(self, *, generics: Generics[AttributedType]) -> None:
        self._hold(generics)


@value_class
class AsyncSequenceType(Value):
    """An asynchronous sequence, as `async_sequence<long>`."""

    async_sequence: AsyncSequence = word("The word `async_sequence`.")
    generics: Generics[AttributedType] = part(
        "The type, or the types, in angle brackets, as `<long>`."
    )

    def __init__(self, *, generics: Generics[AttributedType]) -> None:
        self._hold(generics)


@value_class
class FrozenArrayType(Value):
    """A frozen array, as `FrozenArray<long>`."""

    frozen_array: term.FrozenArray = word("The word `FrozenArray`.")
    generics: Generics[AttributedType] = part(
        "The type of its items in angle brackets, as `<long>`."
    )

    def __init__(self, *, generics: Generics[AttributedType]) -> None:
        self._hold(generics)


@value_class
class ObservableArrayType(Value):
    """An observable array, as `ObservableArray<Node>`."""

    observable_array: ObservableArray = word("The word `ObservableArray`.")
    generics: Generics[AttributedType] = part(
        "The type, or the types, in angle brackets, as `<long>`."
    )

    def __init__(self, *, generics: Generics[AttributedType]) -> None:
        self._hold(generics)


@value_class
class PromiseType(Value):
    """A promise, as `Promise<undefined>`."""

    promise: term.Promise = word("The word `Promise`.")
    generics: Generics[Type.Variants] = part(
        "The type of its result in angle brackets, as `<undefined>`."
    )

    def __init__(self, *, generics: Generics[Type.Variants]) -> None:
        self._hold(generics)


@value_class
class RecordType(Value):
    """A record, as `record<DOMString, [Clamp] octet>`."""

    record: term.Record = word("The word `record`.")
    generics: Generics[Tuple[RecordKeyType.Variants, term.Comma, AttributedType]] = part(
        "The types of its keys and values in angle brackets, as `<DOMString, long>`."
    )
    _renamed: ClassVar[Dict[str, str]] = {"record": "record_"}

    def __init__(
        self, *, generics: Generics[Tuple[RecordKeyType.Variants, term.Comma, AttributedType]],
    ) -> None:
        self._hold(generics)


@value_class
class AttributedType(Value):
    """A type with extended attributes, as `[Clamp] long`."""

    attributes: List[ExtendedAttributeList] = part(
        "The lists of extended attributes, each in brackets, as `[Clamp]`, none included."
    )
    type_: Type.Variants = part("The type, as `octet`.")

    def __init__(
        self, *, attributes: Sequence[ExtendedAttributeList] = (), type_: Type.Variants,
    ) -> None:
        self._hold([*attributes], type_)


@value_class
class AttributedNonAnyType(Value):
    """A type that is neither `any` nor a union, with extended attributes."""

    attributes: List[ExtendedAttributeList] = part(
        "The lists of extended attributes, each in brackets, as `[Clamp]`, none included."
    )
    type_: NonAnyType.Variants = part("The type, as `octet`.")

    def __init__(
        self, *, attributes: Sequence[ExtendedAttributeList] = (), type_: NonAnyType.Variants,
    ) -> None:
        self._hold([*attributes], type_)


@value_class
class OptionalArgument(Kind):
    """An argument that may be left out, as `optional long x = 5`."""

    attributes: List[ExtendedAttributeList] = part(
        "The lists of extended attributes in front, each in brackets, as `[Exposed=*]`, none "
        "included."
    )
    optional: term.Optional = word("The word `optional`.")
    type_: AttributedType = part("Its type, as `long`, with the extended attributes before it.")
    identifier: Identifier = part("Its name.")
    default: Optional[Default] = part("Its default, as `= 5`, where present.")

    def __init__(
        self, *, attributes: Sequence[ExtendedAttributeList] = (), type_: AttributedType,
        identifier: Identifier, default: Optional[Default] = None,
    ) -> None:
        self._hold([*attributes], type_, identifier, default)


@value_class
class RequiredArgument(Kind):
    """An argument that has to be given, as `long x`, or any number of them, as `long... xs`."""

    attributes: List[ExtendedAttributeList] = part(
        "The lists of extended attributes in front, each in brackets, as `[Exposed=*]`, none "
        "included."
    )
    type_: Type.Variants = part("Its type, as `long`.")
    ellipsis: Optional[term.Ellipsis] = part(
        "The `...` of any number of arguments, where present."
    )
    identifier: Identifier = part("Its name.")

    def __init__(
        self, *, attributes: Sequence[ExtendedAttributeList] = (), type_: Type.Variants,
        ellipsis: Optional[term.Ellipsis] = None, identifier: Identifier,
    ) -> None:
        self._hold([*attributes], type_, ellipsis, identifier)


@value_class
class ExtendedAttributeArgList(Value):
    """An extended attribute with arguments, as `LegacyFactory(long x)`."""

    identifier: Identifier = part("Its name.")
    args: Parenthesized[ArgumentList] = part("Its arguments, between parentheses.")

    def __init__(self, *, identifier: Identifier, args: Parenthesized[ArgumentList]) -> None:
        self._hold(identifier, args)


@value_class
class ExtendedAttributeNamedArgList(Value):
    """An extended attribute with a name and arguments, as `LegacyFactoryFunction=Image(long
    x)`.
    """

    lhs_identifier: Identifier = part("Its name, before the `=`.")
    assign: term.Assign = word("The `=`.")
    rhs_identifier: Identifier = part("The name behind the `=`.")
    args: Parenthesized[ArgumentList] = part("Its arguments, between parentheses.")

    def __init__(
        self, *, lhs_identifier: Identifier, rhs_identifier: Identifier,
        args: Parenthesized[ArgumentList],
    ) -> None:
        self._hold(lhs_identifier, rhs_identifier, args)


@value_class
class ExtendedAttributeWildcard(Value):
    """An extended attribute with a `*`, as `Exposed=*`."""

    identifier: Identifier = part("Its name.")
    assign: term.Assign = word("The `=`.")
    asterisk: Asterisk = word("The `*`.")

    def __init__(self, *, identifier: Identifier) -> None:
        self._hold(identifier)


@value_class
class ExtendedAttributeNumber(Value):
    """An extended attribute with a number, as `ReflectDefault=2`."""

    identifier: Identifier = part("Its name.")
    assign: term.Assign = word("The `=`.")
    number: Number.Variants = part("The number behind the `=`.")

    def __init__(self, *, identifier: Identifier, number: Number.Variants) -> None:
        self._hold(identifier, number)


@value_class
class ExtendedAttributeStrings(Value):
    """An extended attribute with strings, as `A=("a", "b")`."""

    identifier: Identifier = part("Its name.")
    assign: term.Assign = word("The `=`.")
    list: Parenthesized[Punctuated[StringLit, term.Comma]] = part(
        "The strings behind the `=`, between parentheses."
    )

    def __init__(
        self, *, identifier: Identifier, list: Parenthesized[Punctuated[StringLit, term.Comma]],
    ) -> None:
        self._hold(identifier, list)


@value_class
class ExtendedAttributeNumbers(Value):
    """An extended attribute with numbers, as `ReflectRange=(2, 8)`."""

    identifier: Identifier = part("Its name.")
    assign: term.Assign = word("The `=`.")
    list: Parenthesized[Punctuated[Number.Variants, term.Comma]] = part(
        "The numbers behind the `=`, between parentheses."
    )

    def __init__(
        self, *, identifier: Identifier,
        list: Parenthesized[Punctuated[Number.Variants, term.Comma]],
    ) -> None:
        self._hold(identifier, list)


@value_class
class SecondType(Value):
    """The second type of what is iterated, as `, long`."""

    comma: term.Comma = word("The `,`.")
    type_: AttributedType = part("The type, as `long`.")

    def __init__(self, *, type_: AttributedType) -> None:
        self._hold(type_)


@value_class
class Iterated(Value):
    """What is iterated, one type or two, as `<DOMString, long>`."""

    open_angle: term.LessThan = word("The `<`.")
    type_: AttributedType = part("The first type, as `long`, or the only one.")
    second: Optional[SecondType] = part(
        "The second type with the `,` in front, as `, long`, where there are two."
    )
    close_angle: term.GreaterThan = word("The `>`.")

    def __init__(self, *, type_: AttributedType, second: Optional[SecondType] = None) -> None:
        self._hold(type_, second)


@value_class
class ConstMember(Kind):
    """A constant, as `const long X = 5;`."""

    docstrings: List[Docstring] = part("The docstrings in front, none included.")
    attributes: List[ExtendedAttributeList] = part(
        "The lists of extended attributes in front, each in brackets, as `[Exposed=*]`, none "
        "included."
    )
    const_: term.Const = word("The word `const`.")
    const_type: ConstType.Variants = part("Its type, as `long`.")
    identifier: Identifier = part("Its name.")
    assign: term.Assign = word("The `=`.")
    const_value: ConstValue.Variants = part("Its value, as `5`.")
    semi_colon: term.SemiColon = word("The `;` at the end.")

    def __init__(
        self, *, docstrings: Sequence[Docstring] = (),
        attributes: Sequence[ExtendedAttributeList] = (), const_type: ConstType.Variants,
        identifier: Identifier, const_value: ConstValue.Variants,
    ) -> None:
        self._hold([*docstrings], [*attributes], const_type, identifier, const_value)


@value_class
class AttributeInterfaceMember(Kind):
    """An attribute, as `readonly attribute long x;`."""

    docstrings: List[Docstring] = part("The docstrings in front, none included.")
    attributes: List[ExtendedAttributeList] = part(
        "The lists of extended attributes in front, each in brackets, as `[Exposed=*]`, none "
        "included."
    )
    modifier: Optional[StringifierOrInheritOrStatic.Variants] = part(
        "The word `stringifier`, `inherit` or `static`, where one of them is present."
    )
    readonly: Optional[term.ReadOnly] = part("The word `readonly`, where present.")
    attribute: term.Attribute = word("The word `attribute`.")
    type_: AttributedType = part("Its type, as `long`, with the extended attributes before it.")
    identifier: Identifier = part("Its name.")
    semi_colon: term.SemiColon = word("The `;` at the end.")

    def __init__(
        self, *, docstrings: Sequence[Docstring] = (),
        attributes: Sequence[ExtendedAttributeList] = (),
        modifier: Optional[StringifierOrInheritOrStatic.Variants] = None,
        readonly: Optional[term.ReadOnly] = None, type_: AttributedType, identifier: Identifier,
    ) -> None:
        self._hold([*docstrings], [*attributes], modifier, readonly, type_, identifier)


@value_class
class ConstructorInterfaceMember(Kind):
    """A constructor, as `constructor(long x);`."""

    docstrings: List[Docstring] = part("The docstrings in front, none included.")
    attributes: List[ExtendedAttributeList] = part(
        "The lists of extended attributes in front, each in brackets, as `[Exposed=*]`, none "
        "included."
    )
    constructor: term.Constructor = word("The word `constructor`.")
    args: Parenthesized[ArgumentList] = part("Its arguments, between parentheses.")
    semi_colon: term.SemiColon = word("The `;` at the end.")

    def __init__(
        self, *, docstrings: Sequence[Docstring] = (),
        attributes: Sequence[ExtendedAttributeList] = (), args: Parenthesized[ArgumentList],
    ) -> None:
        self._hold([*docstrings], [*attributes], args)


@value_class
class OperationInterfaceMember(Kind):
    """An operation, as `undefined f(long x);`."""

    docstrings: List[Docstring] = part("The docstrings in front, none included.")
    attributes: List[ExtendedAttributeList] = part(
        "The lists of extended attributes in front, each in brackets, as `[Exposed=*]`, none "
        "included."
    )
    modifier: Optional[StringifierOrStatic.Variants] = part(
        "The word `stringifier` or `static`, where one of them is present."
    )
    special: Optional[Special.Variants] = part(
        "The word `getter`, `setter`, `deleter` or `legacycaller`, where one of them is "
        "present."
    )
    return_type: Type.Variants = part("The type of its result, as `undefined` or `long`.")
    identifier: Optional[Identifier] = part("Its name, where it has one.")
    args: Parenthesized[ArgumentList] = part("Its arguments, between parentheses.")
    semi_colon: term.SemiColon = word("The `;` at the end.")

    def __init__(
        self, *, docstrings: Sequence[Docstring] = (),
        attributes: Sequence[ExtendedAttributeList] = (),
        modifier: Optional[StringifierOrStatic.Variants] = None,
        special: Optional[Special.Variants] = None, return_type: Type.Variants,
        identifier: Optional[Identifier] = None, args: Parenthesized[ArgumentList],
    ) -> None:
        self._hold([*docstrings], [*attributes], modifier, special, return_type, identifier, args)


@value_class
class IterableInterfaceMember(Kind):
    """An iteration, as `iterable<long>;`."""

    docstrings: List[Docstring] = part("The docstrings in front, none included.")
    attributes: List[ExtendedAttributeList] = part(
        "The lists of extended attributes in front, each in brackets, as `[Exposed=*]`, none "
        "included."
    )
    iterable: term.Iterable = word("The word `iterable`.")
    generics: Iterated = part("The type, or the types, in angle brackets, as `<long>`.")
    semi_colon: term.SemiColon = word("The `;` at the end.")

    def __init__(
        self, *, docstrings: Sequence[Docstring] = (),
        attributes: Sequence[ExtendedAttributeList] = (), generics: Iterated,
    ) -> None:
        self._hold([*docstrings], [*attributes], generics)


@value_class
class AsyncIterableInterfaceMember(Kind):
    """An asynchronous iteration, as `async_iterable<long>;`."""

    docstrings: List[Docstring] = part("The docstrings in front, none included.")
    attributes: List[ExtendedAttributeList] = part(
        "The lists of extended attributes in front, each in brackets, as `[Exposed=*]`, none "
        "included."
    )
    async_iterable: AsyncWords.Variants = part(
        "The word `async_iterable`, or the words `async` and `iterable`."
    )
    generics: Iterated = part("The type, or the types, in angle brackets, as `<long>`.")
    args: Optional[Parenthesized[ArgumentList]] = part(
        "The arguments between parentheses, as `(long x)`, where present."
    )
    semi_colon: term.SemiColon = word("The `;` at the end.")

    def __init__(
        self, *, docstrings: Sequence[Docstring] = (),
        attributes: Sequence[ExtendedAttributeList] = (), async_iterable: AsyncWords.Variants,
        generics: Iterated, args: Optional[Parenthesized[ArgumentList]] = None,
    ) -> None:
        self._hold([*docstrings], [*attributes], async_iterable, generics, args)


@value_class
class MaplikeInterfaceMember(Kind):
    """A map, as `maplike<DOMString, long>;`."""

    docstrings: List[Docstring] = part("The docstrings in front, none included.")
    attributes: List[ExtendedAttributeList] = part(
        "The lists of extended attributes in front, each in brackets, as `[Exposed=*]`, none "
        "included."
    )
    readonly: Optional[term.ReadOnly] = part("The word `readonly`, where present.")
    maplike: term.Maplike = word("The word `maplike`.")
    generics: Generics[Tuple[AttributedType, term.Comma, AttributedType]] = part(
        "The types of its keys and values in angle brackets, as `<DOMString, long>`."
    )
    semi_colon: term.SemiColon = word("The `;` at the end.")

    def __init__(
        self, *, docstrings: Sequence[Docstring] = (),
        attributes: Sequence[ExtendedAttributeList] = (),
        readonly: Optional[term.ReadOnly] = None,
        generics: Generics[Tuple[AttributedType, term.Comma, AttributedType]],
    ) -> None:
        self._hold([*docstrings], [*attributes], readonly, generics)


@value_class
class SetlikeInterfaceMember(Kind):
    """A set, as `setlike<long>;`."""

    docstrings: List[Docstring] = part("The docstrings in front, none included.")
    attributes: List[ExtendedAttributeList] = part(
        "The lists of extended attributes in front, each in brackets, as `[Exposed=*]`, none "
        "included."
    )
    readonly: Optional[term.ReadOnly] = part("The word `readonly`, where present.")
    setlike: term.Setlike = word("The word `setlike`.")
    generics: Generics[AttributedType] = part(
        "The type of its values in angle brackets, as `<long>`."
    )
    semi_colon: term.SemiColon = word("The `;` at the end.")

    def __init__(
        self, *, docstrings: Sequence[Docstring] = (),
        attributes: Sequence[ExtendedAttributeList] = (),
        readonly: Optional[term.ReadOnly] = None, generics: Generics[AttributedType],
    ) -> None:
        self._hold([*docstrings], [*attributes], readonly, generics)


@value_class
class StringifierMember(Kind):
    """A stringifier, as `stringifier;`."""

    docstrings: List[Docstring] = part("The docstrings in front, none included.")
    attributes: List[ExtendedAttributeList] = part(
        "The lists of extended attributes in front, each in brackets, as `[Exposed=*]`, none "
        "included."
    )
    stringifier: term.Stringifier = word("The word `stringifier`.")
    semi_colon: term.SemiColon = word("The `;` at the end.")

    def __init__(
        self, *, docstrings: Sequence[Docstring] = (),
        attributes: Sequence[ExtendedAttributeList] = (),
    ) -> None:
        self._hold([*docstrings], [*attributes])


@value_class
class OperationMixinMember(Kind):
    """An operation of a mixin."""

    docstrings: List[Docstring] = part("The docstrings in front, none included.")
    attributes: List[ExtendedAttributeList] = part(
        "The lists of extended attributes in front, each in brackets, as `[Exposed=*]`, none "
        "included."
    )
    stringifier: Optional[term.Stringifier] = part("The word `stringifier`, where present.")
    return_type: Type.Variants = part("The type of its result, as `undefined` or `long`.")
    identifier: Optional[Identifier] = part("Its name, where it has one.")
    args: Parenthesized[ArgumentList] = part("Its arguments, between parentheses.")
    semi_colon: term.SemiColon = word("The `;` at the end.")

    def __init__(
        self, *, docstrings: Sequence[Docstring] = (),
        attributes: Sequence[ExtendedAttributeList] = (),
        stringifier: Optional[term.Stringifier] = None, return_type: Type.Variants,
        identifier: Optional[Identifier] = None, args: Parenthesized[ArgumentList],
    ) -> None:
        self._hold([*docstrings], [*attributes], stringifier, return_type, identifier, args)


@value_class
class AttributeMixinMember(Kind):
    """An attribute of a mixin."""

    docstrings: List[Docstring] = part("The docstrings in front, none included.")
    attributes: List[ExtendedAttributeList] = part(
        "The lists of extended attributes in front, each in brackets, as `[Exposed=*]`, none "
        "included."
    )
    stringifier: Optional[term.Stringifier] = part("The word `stringifier`, where present.")
    readonly: Optional[term.ReadOnly] = part("The word `readonly`, where present.")
    attribute: term.Attribute = word("The word `attribute`.")
    type_: AttributedType = part("Its type, as `long`, with the extended attributes before it.")
    identifier: Identifier = part("Its name.")
    semi_colon: term.SemiColon = word("The `;` at the end.")

    def __init__(
        self, *, docstrings: Sequence[Docstring] = (),
        attributes: Sequence[ExtendedAttributeList] = (),
        stringifier: Optional[term.Stringifier] = None,
        readonly: Optional[term.ReadOnly] = None, type_: AttributedType, identifier: Identifier,
    ) -> None:
        self._hold([*docstrings], [*attributes], stringifier, readonly, type_, identifier)


@value_class
class OperationNamespaceMember(Kind):
    """An operation of a namespace."""

    docstrings: List[Docstring] = part("The docstrings in front, none included.")
    attributes: List[ExtendedAttributeList] = part(
        "The lists of extended attributes in front, each in brackets, as `[Exposed=*]`, none "
        "included."
    )
    return_type: Type.Variants = part("The type of its result, as `undefined` or `long`.")
    identifier: Optional[Identifier] = part("Its name, where it has one.")
    args: Parenthesized[ArgumentList] = part("Its arguments, between parentheses.")
    semi_colon: term.SemiColon = word("The `;` at the end.")

    def __init__(
        self, *, docstrings: Sequence[Docstring] = (),
        attributes: Sequence[ExtendedAttributeList] = (), return_type: Type.Variants,
        identifier: Optional[Identifier] = None, args: Parenthesized[ArgumentList],
    ) -> None:
        self._hold([*docstrings], [*attributes], return_type, identifier, args)


@value_class
class AttributeNamespaceMember(Kind):
    """An attribute of a namespace."""

    docstrings: List[Docstring] = part("The docstrings in front, none included.")
    attributes: List[ExtendedAttributeList] = part(
        "The lists of extended attributes in front, each in brackets, as `[Exposed=*]`, none "
        "included."
    )
    readonly: term.ReadOnly = word("The word `readonly`, which always is here.")
    attribute: term.Attribute = word("The word `attribute`.")
    type_: AttributedType = part("Its type, as `long`, with the extended attributes before it.")
    identifier: Identifier = part("Its name.")
    semi_colon: term.SemiColon = word("The `;` at the end.")

    def __init__(
        self, *, docstrings: Sequence[Docstring] = (),
        attributes: Sequence[ExtendedAttributeList] = (), type_: AttributedType,
        identifier: Identifier,
    ) -> None:
        self._hold([*docstrings], [*attributes], type_, identifier)


@value_class
class DictionaryMember(Value):
    """A member of a dictionary, as `required [Clamp] long x;`."""

    docstrings: List[Docstring] = part("The docstrings in front, none included.")
    attributes: List[ExtendedAttributeList] = part(
        "The lists of extended attributes in front, each in brackets, as `[Exposed=*]`, none "
        "included."
    )
    required: Optional[term.Required] = part("The word `required`, where present.")
    type_: AttributedType = part("Its type, as `long`, with the extended attributes before it.")
    identifier: Identifier = part("Its name.")
    default: Optional[Default] = part("Its default, as `= 5`, where present.")
    semi_colon: term.SemiColon = word("The `;` at the end.")

    def __init__(
        self, *, docstrings: Sequence[Docstring] = (),
        attributes: Sequence[ExtendedAttributeList] = (),
        required: Optional[term.Required] = None, type_: AttributedType, identifier: Identifier,
        default: Optional[Default] = None,
    ) -> None:
        self._hold([*docstrings], [*attributes], required, type_, identifier, default)


@value_class
class EnumVariant(Value):
    """A value of an enum, as `"a"`."""

    docstrings: List[Docstring] = part("The docstrings in front, none included.")
    value: StringLit = part("The value in quotes, as `\"blob\"`.")

    def __init__(self, *, docstrings: Sequence[Docstring] = (), value: StringLit) -> None:
        self._hold([*docstrings], value)


@value_class
class BracedEnumValues(Value):
    """The values of an enum in braces, as `{"a", "b",}`, with docstrings in front of the
    `}`.
    """

    open_brace: term.OpenBrace = word("The `{`.")
    body: Punctuated[EnumVariant, term.Comma] = part("The values, one at least.")
    comma: Optional[term.Comma] = part("The `,` behind the last value, where present.")
    docstrings: List[Docstring] = part(
        "The docstrings in front of the `}`, behind the last value, none included."
    )
    close_brace: term.CloseBrace = word("The `}`.")

    def __init__(
        self, *, body: Punctuated[EnumVariant, term.Comma], comma: Optional[term.Comma] = None,
        docstrings: Sequence[Docstring] = (),
    ) -> None:
        self._hold(body, comma, [*docstrings])


@value_class
class CallbackDefinition(Kind):
    """A callback, as `callback F = undefined (long x);`."""

    docstrings: List[Docstring] = part("The docstrings in front, none included.")
    attributes: List[ExtendedAttributeList] = part(
        "The lists of extended attributes in front, each in brackets, as `[Exposed=*]`, none "
        "included."
    )
    callback: term.Callback = word("The word `callback`.")
    identifier: Identifier = part("Its name.")
    assign: term.Assign = word("The `=`.")
    return_type: Type.Variants = part("The type of its result, as `undefined` or `long`.")
    arguments: Parenthesized[ArgumentList] = part("Its arguments, between parentheses.")
    semi_colon: term.SemiColon = word("The `;` at the end.")

    def __init__(
        self, *, docstrings: Sequence[Docstring] = (),
        attributes: Sequence[ExtendedAttributeList] = (), identifier: Identifier,
        return_type: Type.Variants, arguments: Parenthesized[ArgumentList],
    ) -> None:
        self._hold([*docstrings], [*attributes], identifier, return_type, arguments)


@value_class
class CallbackInterfaceDefinition(Kind):
    """A callback interface, as `callback interface A {};`."""

    docstrings: List[Docstring] = part("The docstrings in front, none included.")
    attributes: List[ExtendedAttributeList] = part(
        "The lists of extended attributes in front, each in brackets, as `[Exposed=*]`, none "
        "included."
    )
    callback: term.Callback = word("The word `callback`.")
    interface: term.Interface = word("The word `interface`.")
    identifier: Identifier = part("Its name.")
    inheritance: Optional[Inheritance] = part(
        "The interface that it inherits from, as `: EventTarget`, where one is named."
    )
    members: Braced[InterfaceMembers] = part("Its members, between braces.")
    semi_colon: term.SemiColon = word("The `;` at the end.")

    def __init__(
        self, *, docstrings: Sequence[Docstring] = (),
        attributes: Sequence[ExtendedAttributeList] = (), identifier: Identifier,
        inheritance: Optional[Inheritance] = None, members: Braced[InterfaceMembers],
    ) -> None:
        self._hold([*docstrings], [*attributes], identifier, inheritance, members)


@value_class
class InterfaceDefinition(Kind):
    """An interface, as `interface A : B {};`."""

    docstrings: List[Docstring] = part("The docstrings in front, none included.")
    attributes: List[ExtendedAttributeList] = part(
        "The lists of extended attributes in front, each in brackets, as `[Exposed=*]`, none "
        "included."
    )
    interface: term.Interface = word("The word `interface`.")
    identifier: Identifier = part("Its name.")
    inheritance: Optional[Inheritance] = part(
        "The interface that it inherits from, as `: EventTarget`, where one is named."
    )
    members: Braced[InterfaceMembers] = part("Its members, between braces.")
    semi_colon: term.SemiColon = word("The `;` at the end.")

    def __init__(
        self, *, docstrings: Sequence[Docstring] = (),
        attributes: Sequence[ExtendedAttributeList] = (), identifier: Identifier,
        inheritance: Optional[Inheritance] = None, members: Braced[InterfaceMembers],
    ) -> None:
        self._hold([*docstrings], [*attributes], identifier, inheritance, members)


@value_class
class InterfaceMixinDefinition(Kind):
    """A mixin, as `interface mixin A {};`."""

    docstrings: List[Docstring] = part("The docstrings in front, none included.")
    attributes: List[ExtendedAttributeList] = part(
        "The lists of extended attributes in front, each in brackets, as `[Exposed=*]`, none "
        "included."
    )
    interface: term.Interface = word("The word `interface`.")
    mixin: term.Mixin = word("The word `mixin`.")
    identifier: Identifier = part("Its name.")
    members: Braced[MixinMembers] = part("Its members, between braces.")
    semi_colon: term.SemiColon = word("The `;` at the end.")

    def __init__(
        self, *, docstrings: Sequence[Docstring] = (),
        attributes: Sequence[ExtendedAttributeList] = (), identifier: Identifier,
        members: Braced[MixinMembers],
    ) -> None:
        self._hold([*docstrings], [*attributes], identifier, members)


@value_class
class NamespaceDefinition(Kind):
    """A namespace, as `namespace A {};`."""

    docstrings: List[Docstring] = part("The docstrings in front, none included.")
    attributes: List[ExtendedAttributeList] = part(
        "The lists of extended attributes in front, each in brackets, as `[Exposed=*]`, none "
        "included."
    )
    namespace: term.Namespace = word("The word `namespace`.")
    identifier: Identifier = part("Its name.")
    members: Braced[NamespaceMembers] = part("Its members, between braces.")
    semi_colon: term.SemiColon = word("The `;` at the end.")

    def __init__(
        self, *, docstrings: Sequence[Docstring] = (),
        attributes: Sequence[ExtendedAttributeList] = (), identifier: Identifier,
        members: Braced[NamespaceMembers],
    ) -> None:
        self._hold([*docstrings], [*attributes], identifier, members)


@value_class
class DictionaryDefinition(Kind):
    """A dictionary, as `dictionary A : B {};`."""

    docstrings: List[Docstring] = part("The docstrings in front, none included.")
    attributes: List[ExtendedAttributeList] = part(
        "The lists of extended attributes in front, each in brackets, as `[Exposed=*]`, none "
        "included."
    )
    dictionary: term.Dictionary = word("The word `dictionary`.")
    identifier: Identifier = part("Its name.")
    inheritance: Optional[Inheritance] = part(
        "The dictionary that it inherits from, as `: EventInit`, where one is named."
    )
    members: Braced[DictionaryMembers] = part("Its members, between braces.")
    semi_colon: term.SemiColon = word("The `;` at the end.")

    def __init__(
        self, *, docstrings: Sequence[Docstring] = (),
        attributes: Sequence[ExtendedAttributeList] = (), identifier: Identifier,
        inheritance: Optional[Inheritance] = None, members: Braced[DictionaryMembers],
    ) -> None:
        self._hold([*docstrings], [*attributes], identifier, inheritance, members)


@value_class
class PartialInterfaceDefinition(Kind):
    """A part of an interface."""

    docstrings: List[Docstring] = part("The docstrings in front, none included.")
    attributes: List[ExtendedAttributeList] = part(
        "The lists of extended attributes in front, each in brackets, as `[Exposed=*]`, none "
        "included."
    )
    partial: term.Partial = word("The word `partial`.")
    interface: term.Interface = word("The word `interface`.")
    identifier: Identifier = part("The name of the interface that it is a part of.")
    members: Braced[InterfaceMembers] = part("Its members, between braces.")
    semi_colon: term.SemiColon = word("The `;` at the end.")

    def __init__(
        self, *, docstrings: Sequence[Docstring] = (),
        attributes: Sequence[ExtendedAttributeList] = (), identifier: Identifier,
        members: Braced[InterfaceMembers],
    ) -> None:
        self._hold([*docstrings], [*attributes], identifier, members)


@value_class
class PartialInterfaceMixinDefinition(Kind):
    """A part of a mixin."""

    docstrings: List[Docstring] = part("The docstrings in front, none included.")
    attributes: List[ExtendedAttributeList] = part(
        "The lists of extended attributes in front, each in brackets, as `[Exposed=*]`, none "
        "included."
    )
    partial: term.Partial = word("The word `partial`.")
    interface: term.Interface = word("The word `interface`.")
    mixin: term.Mixin = word("The word `mixin`.")
    identifier: Identifier = part("The name of the mixin that it is a part of.")
    members: Braced[MixinMembers] = part("Its members, between braces.")
    semi_colon: term.SemiColon = word("The `;` at the end.")

    def __init__(
        self, *, docstrings: Sequence[Docstring] = (),
        attributes: Sequence[ExtendedAttributeList] = (), identifier: Identifier,
        members: Braced[MixinMembers],
    ) -> None:
        self._hold([*docstrings], [*attributes], identifier, members)


@value_class
class PartialDictionaryDefinition(Kind):
    """A part of a dictionary."""

    docstrings: List[Docstring] = part("The docstrings in front, none included.")
    attributes: List[ExtendedAttributeList] = part(
        "The lists of extended attributes in front, each in brackets, as `[Exposed=*]`, none "
        "included."
    )
    partial: term.Partial = word("The word `partial`.")
    dictionary: term.Dictionary = word("The word `dictionary`.")
    identifier: Identifier = part("The name of the dictionary that it is a part of.")
    members: Braced[DictionaryMembers] = part("Its members, between braces.")
    semi_colon: term.SemiColon = word("The `;` at the end.")

    def __init__(
        self, *, docstrings: Sequence[Docstring] = (),
        attributes: Sequence[ExtendedAttributeList] = (), identifier: Identifier,
        members: Braced[DictionaryMembers],
    ) -> None:
        self._hold([*docstrings], [*attributes], identifier, members)


@value_class
class PartialNamespaceDefinition(Kind):
    """A part of a namespace."""

    docstrings: List[Docstring] = part("The docstrings in front, none included.")
    attributes: List[ExtendedAttributeList] = part(
        "The lists of extended attributes in front, each in brackets, as `[Exposed=*]`, none "
        "included."
    )
    partial: term.Partial = word("The word `partial`.")
    namespace: term.Namespace = word("The word `namespace`.")
    identifier: Identifier = part("The name of the namespace that it is a part of.")
    members: Braced[NamespaceMembers] = part("Its members, between braces.")
    semi_colon: term.SemiColon = word("The `;` at the end.")

    def __init__(
        self, *, docstrings: Sequence[Docstring] = (),
        attributes: Sequence[ExtendedAttributeList] = (), identifier: Identifier,
        members: Braced[NamespaceMembers],
    ) -> None:
        self._hold([*docstrings], [*attributes], identifier, members)


@value_class
class EnumDefinition(Kind):
    """An enum, as `enum A {"a"};`."""

    docstrings: List[Docstring] = part("The docstrings in front, none included.")
    attributes: List[ExtendedAttributeList] = part(
        "The lists of extended attributes in front, each in brackets, as `[Exposed=*]`, none "
        "included."
    )
    enum_: term.Enum = word("The word `enum`.")
    identifier: Identifier = part("Its name.")
    values: BracedEnumValues = part("Its values, between braces.")
    semi_colon: term.SemiColon = word("The `;` at the end.")

    def __init__(
        self, *, docstrings: Sequence[Docstring] = (),
        attributes: Sequence[ExtendedAttributeList] = (), identifier: Identifier,
        values: BracedEnumValues,
    ) -> None:
        self._hold([*docstrings], [*attributes], identifier, values)


@value_class
class TypedefDefinition(Kind):
    """A name for a type, as `typedef long A;`."""

    docstrings: List[Docstring] = part("The docstrings in front, none included.")
    attributes: List[ExtendedAttributeList] = part(
        "The lists of extended attributes in front, each in brackets, as `[Exposed=*]`, none "
        "included."
    )
    typedef: term.Typedef = word("The word `typedef`.")
    type_: AttributedType = part(
        "The type that is named, as `long`, with the extended attributes before it."
    )
    identifier: Identifier = part("The name that the type gets.")
    semi_colon: term.SemiColon = word("The `;` at the end.")

    def __init__(
        self, *, docstrings: Sequence[Docstring] = (),
        attributes: Sequence[ExtendedAttributeList] = (), type_: AttributedType,
        identifier: Identifier,
    ) -> None:
        self._hold([*docstrings], [*attributes], type_, identifier)


@value_class
class IncludesStatementDefinition(Kind):
    """The use of a mixin, as `A includes B;`."""

    docstrings: List[Docstring] = part("The docstrings in front, none included.")
    attributes: List[ExtendedAttributeList] = part(
        "The lists of extended attributes in front, each in brackets, as `[Exposed=*]`, none "
        "included."
    )
    lhs_identifier: Identifier = part("The name of the interface, before `includes`.")
    includes: term.Includes = word("The word `includes`.")
    rhs_identifier: Identifier = part("The name of the mixin that it uses, behind `includes`.")
    semi_colon: term.SemiColon = word("The `;` at the end.")

    def __init__(
        self, *, docstrings: Sequence[Docstring] = (),
        attributes: Sequence[ExtendedAttributeList] = (), lhs_identifier: Identifier,
        rhs_identifier: Identifier,
    ) -> None:
        self._hold([*docstrings], [*attributes], lhs_identifier, rhs_identifier)


@value_class
class ImplementsDefinition(Kind):
    """The older form of it, as `A implements B;`."""

    docstrings: List[Docstring] = part("The docstrings in front, none included.")
    attributes: List[ExtendedAttributeList] = part(
        "The lists of extended attributes in front, each in brackets, as `[Exposed=*]`, none "
        "included."
    )
    lhs_identifier: Identifier = part("The name of the interface, before `implements`.")
    includes: term.Implements = word("The word `implements`.")
    rhs_identifier: Identifier = part(
        "The name of the interface that it implements, behind `implements`."
    )
    semi_colon: term.SemiColon = word("The `;` at the end.")

    def __init__(
        self, *, docstrings: Sequence[Docstring] = (),
        attributes: Sequence[ExtendedAttributeList] = (), lhs_identifier: Identifier,
        rhs_identifier: Identifier,
    ) -> None:
        self._hold([*docstrings], [*attributes], lhs_identifier, rhs_identifier)


class DefaultValue(Choice):
    """The value of a default, as `"blob"` or `[]`."""

    if TYPE_CHECKING:
        Boolean: TypeAlias = "DefaultValue_Boolean"
        EmptyArray: TypeAlias = "DefaultValue_EmptyArray"
        EmptyDictionary: TypeAlias = "DefaultValue_EmptyDictionary"
        Float: TypeAlias = "DefaultValue_Float"
        Integer: TypeAlias = "DefaultValue_Integer"
        Null: TypeAlias = "DefaultValue_Null"
        Undefined: TypeAlias = "DefaultValue_Undefined"
        String: TypeAlias = "DefaultValue_String"
        Variants: TypeAlias = (
            "typing.Union[DefaultValue_Boolean, DefaultValue_EmptyArray, "
            "DefaultValue_EmptyDictionary, DefaultValue_Float, DefaultValue_Integer, "
            "DefaultValue_Null, DefaultValue_Undefined, DefaultValue_String]"
        )


class DefaultValue_Boolean(DefaultValue, variant="Boolean"):
    """A boolean, as `true`."""

    value: BooleanLit

    def __init__(self, value: BooleanLit) -> None:
        self._hold(value)


class DefaultValue_EmptyArray(DefaultValue, variant="EmptyArray"):
    """An empty list, as `[]`."""

    value: EmptyArrayLit

    def __init__(self, value: EmptyArrayLit) -> None:
        self._hold(value)


class DefaultValue_EmptyDictionary(DefaultValue, variant="EmptyDictionary"):
    """An empty dictionary, as `{}`."""

    value: EmptyDictionaryLit

    def __init__(self, value: EmptyDictionaryLit) -> None:
        self._hold(value)


class DefaultValue_Float(DefaultValue, variant="Float"):
    """A float, as `1.5` or `NaN`."""

    value: FloatLit.Variants

    def __init__(self, value: FloatLit.Variants) -> None:
        self._hold(value)


class DefaultValue_Integer(DefaultValue, variant="Integer"):
    """A whole number, as `-12`."""

    value: IntegerLit.Variants

    def __init__(self, value: IntegerLit.Variants) -> None:
        self._hold(value)


class DefaultValue_Null(DefaultValue, variant="Null"):
    """The word `null`."""

    value: term.Null

    def __init__(self, value: term.Null) -> None:
        self._hold(value)


class DefaultValue_Undefined(DefaultValue, variant="Undefined"):
    """The keyword `undefined`."""

    value: term.Undefined

    def __init__(self, value: term.Undefined) -> None:
        self._hold(value)


class DefaultValue_String(DefaultValue, variant="String"):
    """A text in quotes, as `"blob"`."""

    value: StringLit

    def __init__(self, value: StringLit) -> None:
        self._hold(value)


class ConstType(Choice):
    """The type of a constant, as `long?`."""

    if TYPE_CHECKING:
        Integer: TypeAlias = "ConstType_Integer"
        FloatingPoint: TypeAlias = "ConstType_FloatingPoint"
        Boolean: TypeAlias = "ConstType_Boolean"
        Byte: TypeAlias = "ConstType_Byte"
        Octet: TypeAlias = "ConstType_Octet"
        BigInt: TypeAlias = "ConstType_BigInt"
        Identifier: TypeAlias = "ConstType_Identifier"
        Variants: TypeAlias = (
            "typing.Union[ConstType_Integer, ConstType_FloatingPoint, ConstType_Boolean, "
            "ConstType_Byte, ConstType_Octet, ConstType_BigInt, ConstType_Identifier]"
        )


class ConstType_Integer(ConstType, variant="Integer"):
    """`short?`, `long?` or `long long?`, each also with `unsigned` in front."""

    value: MayBeNull[IntegerType.Variants]

    def __init__(self, value: MayBeNull[IntegerType.Variants]) -> None:
        self._hold(value)


class ConstType_FloatingPoint(ConstType, variant="FloatingPoint"):
    """`float?` or `double?`, each also with `unrestricted` in front."""

    value: MayBeNull[FloatingPointType.Variants]

    def __init__(self, value: MayBeNull[FloatingPointType.Variants]) -> None:
        self._hold(value)


class ConstType_Boolean(ConstType, variant="Boolean"):
    """`boolean?`."""

    value: MayBeNull[term.Boolean]

    def __init__(self, value: MayBeNull[term.Boolean]) -> None:
        self._hold(value)


class ConstType_Byte(ConstType, variant="Byte"):
    """`byte?`."""

    value: MayBeNull[term.Byte]

    def __init__(self, value: MayBeNull[term.Byte]) -> None:
        self._hold(value)


class ConstType_Octet(ConstType, variant="Octet"):
    """`octet?`."""

    value: MayBeNull[term.Octet]

    def __init__(self, value: MayBeNull[term.Octet]) -> None:
        self._hold(value)


class ConstType_BigInt(ConstType, variant="BigInt"):
    """The word `bigint`."""

    value: MayBeNull[BigInt]

    def __init__(self, value: MayBeNull[BigInt]) -> None:
        self._hold(value)


class ConstType_Identifier(ConstType, variant="Identifier"):
    """`name?`."""

    value: MayBeNull[Identifier]

    def __init__(self, value: MayBeNull[Identifier]) -> None:
        self._hold(value)


class Number(Choice):
    """A number."""

    if TYPE_CHECKING:
        Float: TypeAlias = "Number_Float"
        Integer: TypeAlias = "Number_Integer"
        Variants: TypeAlias = (
            "typing.Union[Number_Float, Number_Integer]"
        )


class Number_Float(Number, variant="Float"):
    """A floating point number, as `1.5` or `NaN`."""

    value: FloatLit.Variants

    def __init__(self, value: FloatLit.Variants) -> None:
        self._hold(value)


class Number_Integer(Number, variant="Integer"):
    """An integer."""

    value: IntegerLit.Variants

    def __init__(self, value: IntegerLit.Variants) -> None:
        self._hold(value)


class WordType(Choice):
    """A word that is a type, and is none in weedle2's rules, as `bigint`."""

    if TYPE_CHECKING:
        BigInt: TypeAlias = "WordType_BigInt"
        Float16Array: TypeAlias = "WordType_Float16Array"
        BigInt64Array: TypeAlias = "WordType_BigInt64Array"
        BigUint64Array: TypeAlias = "WordType_BigUint64Array"
        SharedArrayBuffer: TypeAlias = "WordType_SharedArrayBuffer"
        Undefined: TypeAlias = "WordType_Undefined"
        Variants: TypeAlias = (
            "typing.Union[WordType_BigInt, WordType_Float16Array, WordType_BigInt64Array, "
            "WordType_BigUint64Array, WordType_SharedArrayBuffer, WordType_Undefined]"
        )


class WordType_BigInt(WordType, variant="BigInt"):
    """The word `bigint`."""

    value: BigInt

    def __init__(self, value: BigInt) -> None:
        self._hold(value)


class WordType_Float16Array(WordType, variant="Float16Array"):
    """The word `Float16Array`."""

    value: Float16Array

    def __init__(self, value: Float16Array) -> None:
        self._hold(value)


class WordType_BigInt64Array(WordType, variant="BigInt64Array"):
    """The word `BigInt64Array`."""

    value: BigInt64Array

    def __init__(self, value: BigInt64Array) -> None:
        self._hold(value)


class WordType_BigUint64Array(WordType, variant="BigUint64Array"):
    """The word `BigUint64Array`."""

    value: BigUint64Array

    def __init__(self, value: BigUint64Array) -> None:
        self._hold(value)


class WordType_SharedArrayBuffer(WordType, variant="SharedArrayBuffer"):
    """The word `SharedArrayBuffer`."""

    value: SharedArrayBuffer

    def __init__(self, value: SharedArrayBuffer) -> None:
        self._hold(value)


class WordType_Undefined(WordType, variant="Undefined"):
    """The keyword `undefined`."""

    value: term.Undefined

    def __init__(self, value: term.Undefined) -> None:
        self._hold(value)


class GenericType(Choice):
    """A type over others, as `sequence<long>`."""

    if TYPE_CHECKING:
        Sequence: TypeAlias = "GenericType_Sequence"
        AsyncSequence: TypeAlias = "GenericType_AsyncSequence"
        FrozenArray: TypeAlias = "GenericType_FrozenArray"
        ObservableArray: TypeAlias = "GenericType_ObservableArray"
        Record: TypeAlias = "GenericType_Record"
        Variants: TypeAlias = (
            "typing.Union[GenericType_Sequence, GenericType_AsyncSequence, "
            "GenericType_FrozenArray, GenericType_ObservableArray, GenericType_Record]"
        )


class GenericType_Sequence(GenericType, variant="Sequence"):
    """A sequence, as `sequence<[Clamp] octet>`."""

    value: SequenceType

    def __init__(self, value: SequenceType) -> None:
        self._hold(value)


class GenericType_AsyncSequence(GenericType, variant="AsyncSequence"):
    """An asynchronous sequence, as `async_sequence<long>`."""

    value: AsyncSequenceType

    def __init__(self, value: AsyncSequenceType) -> None:
        self._hold(value)


class GenericType_FrozenArray(GenericType, variant="FrozenArray"):
    """A frozen array, as `FrozenArray<long>`."""

    value: FrozenArrayType

    def __init__(self, value: FrozenArrayType) -> None:
        self._hold(value)


class GenericType_ObservableArray(GenericType, variant="ObservableArray"):
    """An observable array, as `ObservableArray<Node>`."""

    value: ObservableArrayType

    def __init__(self, value: ObservableArrayType) -> None:
        self._hold(value)


class GenericType_Record(GenericType, variant="Record"):
    """A record, as `record<DOMString, [Clamp] octet>`."""

    value: RecordType

    def __init__(self, value: RecordType) -> None:
        self._hold(value)


class NonAnyType(Choice):
    """A type that is neither `any` nor a union, as `long?`."""

    if TYPE_CHECKING:
        Promise: TypeAlias = "NonAnyType_Promise"
        Integer: TypeAlias = "NonAnyType_Integer"
        FloatingPoint: TypeAlias = "NonAnyType_FloatingPoint"
        Boolean: TypeAlias = "NonAnyType_Boolean"
        Byte: TypeAlias = "NonAnyType_Byte"
        Octet: TypeAlias = "NonAnyType_Octet"
        ByteString: TypeAlias = "NonAnyType_ByteString"
        DOMString: TypeAlias = "NonAnyType_DOMString"
        USVString: TypeAlias = "NonAnyType_USVString"
        Object: TypeAlias = "NonAnyType_Object"
        Symbol: TypeAlias = "NonAnyType_Symbol"
        Error: TypeAlias = "NonAnyType_Error"
        ArrayBuffer: TypeAlias = "NonAnyType_ArrayBuffer"
        DataView: TypeAlias = "NonAnyType_DataView"
        Int8Array: TypeAlias = "NonAnyType_Int8Array"
        Int16Array: TypeAlias = "NonAnyType_Int16Array"
        Int32Array: TypeAlias = "NonAnyType_Int32Array"
        Uint8Array: TypeAlias = "NonAnyType_Uint8Array"
        Uint16Array: TypeAlias = "NonAnyType_Uint16Array"
        Uint32Array: TypeAlias = "NonAnyType_Uint32Array"
        Uint8ClampedArray: TypeAlias = "NonAnyType_Uint8ClampedArray"
        Float32Array: TypeAlias = "NonAnyType_Float32Array"
        Float64Array: TypeAlias = "NonAnyType_Float64Array"
        ArrayBufferView: TypeAlias = "NonAnyType_ArrayBufferView"
        BufferSource: TypeAlias = "NonAnyType_BufferSource"
        Word: TypeAlias = "NonAnyType_Word"
        Generic: TypeAlias = "NonAnyType_Generic"
        Identifier: TypeAlias = "NonAnyType_Identifier"
        Variants: TypeAlias = (
            "typing.Union[NonAnyType_Promise, NonAnyType_Integer, NonAnyType_FloatingPoint, "
            "NonAnyType_Boolean, NonAnyType_Byte, NonAnyType_Octet, NonAnyType_ByteString, "
            "NonAnyType_DOMString, NonAnyType_USVString, NonAnyType_Object, "
            "NonAnyType_Symbol, NonAnyType_Error, NonAnyType_ArrayBuffer, "
            "NonAnyType_DataView, NonAnyType_Int8Array, NonAnyType_Int16Array, "
            "NonAnyType_Int32Array, NonAnyType_Uint8Array, NonAnyType_Uint16Array, "
            "NonAnyType_Uint32Array, NonAnyType_Uint8ClampedArray, NonAnyType_Float32Array, "
            "NonAnyType_Float64Array, NonAnyType_ArrayBufferView, NonAnyType_BufferSource, "
            "NonAnyType_Word, NonAnyType_Generic, NonAnyType_Identifier]"
        )


class NonAnyType_Promise(NonAnyType, variant="Promise"):
    """`Promise<type>`."""

    value: PromiseType

    def __init__(self, value: PromiseType) -> None:
        self._hold(value)


class NonAnyType_Integer(NonAnyType, variant="Integer"):
    """`short?`, `long?` or `long long?`, each also with `unsigned` in front."""

    value: MayBeNull[IntegerType.Variants]

    def __init__(self, value: MayBeNull[IntegerType.Variants]) -> None:
        self._hold(value)


class NonAnyType_FloatingPoint(NonAnyType, variant="FloatingPoint"):
    """`float?` or `double?`, each also with `unrestricted` in front."""

    value: MayBeNull[FloatingPointType.Variants]

    def __init__(self, value: MayBeNull[FloatingPointType.Variants]) -> None:
        self._hold(value)


class NonAnyType_Boolean(NonAnyType, variant="Boolean"):
    """`boolean?`."""

    value: MayBeNull[term.Boolean]

    def __init__(self, value: MayBeNull[term.Boolean]) -> None:
        self._hold(value)


class NonAnyType_Byte(NonAnyType, variant="Byte"):
    """`byte?`."""

    value: MayBeNull[term.Byte]

    def __init__(self, value: MayBeNull[term.Byte]) -> None:
        self._hold(value)


class NonAnyType_Octet(NonAnyType, variant="Octet"):
    """`octet?`."""

    value: MayBeNull[term.Octet]

    def __init__(self, value: MayBeNull[term.Octet]) -> None:
        self._hold(value)


class NonAnyType_ByteString(NonAnyType, variant="ByteString"):
    """`ByteString?`."""

    value: MayBeNull[term.ByteString]

    def __init__(self, value: MayBeNull[term.ByteString]) -> None:
        self._hold(value)


class NonAnyType_DOMString(NonAnyType, variant="DOMString"):
    """`DOMString?`."""

    value: MayBeNull[term.DOMString]

    def __init__(self, value: MayBeNull[term.DOMString]) -> None:
        self._hold(value)


class NonAnyType_USVString(NonAnyType, variant="USVString"):
    """`USVString?`."""

    value: MayBeNull[term.USVString]

    def __init__(self, value: MayBeNull[term.USVString]) -> None:
        self._hold(value)


class NonAnyType_Object(NonAnyType, variant="Object"):
    """`object?`."""

    value: MayBeNull[term.Object]

    def __init__(self, value: MayBeNull[term.Object]) -> None:
        self._hold(value)


class NonAnyType_Symbol(NonAnyType, variant="Symbol"):
    """`symbol?`."""

    value: MayBeNull[term.Symbol]

    def __init__(self, value: MayBeNull[term.Symbol]) -> None:
        self._hold(value)


class NonAnyType_Error(NonAnyType, variant="Error"):
    """`Error?`."""

    value: MayBeNull[term.Error]

    def __init__(self, value: MayBeNull[term.Error]) -> None:
        self._hold(value)


class NonAnyType_ArrayBuffer(NonAnyType, variant="ArrayBuffer"):
    """`ArrayBuffer?`."""

    value: MayBeNull[term.ArrayBuffer]

    def __init__(self, value: MayBeNull[term.ArrayBuffer]) -> None:
        self._hold(value)


class NonAnyType_DataView(NonAnyType, variant="DataView"):
    """`DataView?`."""

    value: MayBeNull[term.DataView]

    def __init__(self, value: MayBeNull[term.DataView]) -> None:
        self._hold(value)


class NonAnyType_Int8Array(NonAnyType, variant="Int8Array"):
    """`Int8Array?`."""

    value: MayBeNull[term.Int8Array]

    def __init__(self, value: MayBeNull[term.Int8Array]) -> None:
        self._hold(value)


class NonAnyType_Int16Array(NonAnyType, variant="Int16Array"):
    """`Int16Array?`."""

    value: MayBeNull[term.Int16Array]

    def __init__(self, value: MayBeNull[term.Int16Array]) -> None:
        self._hold(value)


class NonAnyType_Int32Array(NonAnyType, variant="Int32Array"):
    """`Int32Array?`."""

    value: MayBeNull[term.Int32Array]

    def __init__(self, value: MayBeNull[term.Int32Array]) -> None:
        self._hold(value)


class NonAnyType_Uint8Array(NonAnyType, variant="Uint8Array"):
    """`Uint8Array?`."""

    value: MayBeNull[term.Uint8Array]

    def __init__(self, value: MayBeNull[term.Uint8Array]) -> None:
        self._hold(value)


class NonAnyType_Uint16Array(NonAnyType, variant="Uint16Array"):
    """`Uint16Array?`."""

    value: MayBeNull[term.Uint16Array]

    def __init__(self, value: MayBeNull[term.Uint16Array]) -> None:
        self._hold(value)


class NonAnyType_Uint32Array(NonAnyType, variant="Uint32Array"):
    """`Uint32Array?`."""

    value: MayBeNull[term.Uint32Array]

    def __init__(self, value: MayBeNull[term.Uint32Array]) -> None:
        self._hold(value)


class NonAnyType_Uint8ClampedArray(NonAnyType, variant="Uint8ClampedArray"):
    """`Uint8ClampedArray?`."""

    value: MayBeNull[term.Uint8ClampedArray]

    def __init__(self, value: MayBeNull[term.Uint8ClampedArray]) -> None:
        self._hold(value)


class NonAnyType_Float32Array(NonAnyType, variant="Float32Array"):
    """`Float32Array?`."""

    value: MayBeNull[term.Float32Array]

    def __init__(self, value: MayBeNull[term.Float32Array]) -> None:
        self._hold(value)


class NonAnyType_Float64Array(NonAnyType, variant="Float64Array"):
    """`Float64Array?`."""

    value: MayBeNull[term.Float64Array]

    def __init__(self, value: MayBeNull[term.Float64Array]) -> None:
        self._hold(value)


class NonAnyType_ArrayBufferView(NonAnyType, variant="ArrayBufferView"):
    """`ArrayBufferView?`."""

    value: MayBeNull[term.ArrayBufferView]

    def __init__(self, value: MayBeNull[term.ArrayBufferView]) -> None:
        self._hold(value)


class NonAnyType_BufferSource(NonAnyType, variant="BufferSource"):
    """`BufferSource?`."""

    value: MayBeNull[term.BufferSource]

    def __init__(self, value: MayBeNull[term.BufferSource]) -> None:
        self._hold(value)


class NonAnyType_Word(NonAnyType, variant="Word"):
    """A word that is a type, and is none in weedle2's rules, as `bigint`."""

    value: MayBeNull[WordType.Variants]

    def __init__(self, value: MayBeNull[WordType.Variants]) -> None:
        self._hold(value)


class NonAnyType_Generic(NonAnyType, variant="Generic"):
    """A type over others, as `sequence<long>`."""

    value: MayBeNull[GenericType.Variants]

    def __init__(self, value: MayBeNull[GenericType.Variants]) -> None:
        self._hold(value)


class NonAnyType_Identifier(NonAnyType, variant="Identifier"):
    """`name?`."""

    value: MayBeNull[Identifier]

    def __init__(self, value: MayBeNull[Identifier]) -> None:
        self._hold(value)


class RecordKeyType(Choice):
    """The type of a record's keys, as `DOMString`."""

    if TYPE_CHECKING:
        Byte: TypeAlias = "RecordKeyType_Byte"
        DOM: TypeAlias = "RecordKeyType_DOM"
        USV: TypeAlias = "RecordKeyType_USV"
        NonAny: TypeAlias = "RecordKeyType_NonAny"
        Variants: TypeAlias = (
            "typing.Union[RecordKeyType_Byte, RecordKeyType_DOM, RecordKeyType_USV, "
            "RecordKeyType_NonAny]"
        )


class RecordKeyType_Byte(RecordKeyType, variant="Byte"):
    """The word `ByteString`."""

    value: term.ByteString

    def __init__(self, value: term.ByteString) -> None:
        self._hold(value)


class RecordKeyType_DOM(RecordKeyType, variant="DOM"):
    """The word `DOMString`."""

    value: term.DOMString

    def __init__(self, value: term.DOMString) -> None:
        self._hold(value)


class RecordKeyType_USV(RecordKeyType, variant="USV"):
    """The word `USVString`."""

    value: term.USVString

    def __init__(self, value: term.USVString) -> None:
        self._hold(value)


class RecordKeyType_NonAny(RecordKeyType, variant="NonAny"):
    """Another type that is neither `any` nor a union, as `long`."""

    value: NonAnyType.Variants

    def __init__(self, value: NonAnyType.Variants) -> None:
        self._hold(value)


class Type(Choice):
    """A type, as `long`, `any` or `(long or DOMString)?`."""

    if TYPE_CHECKING:
        Any: TypeAlias = "Type_Any"
        NonAny: TypeAlias = "Type_NonAny"
        Union: TypeAlias = "Type_Union"
        Variants: TypeAlias = (
            "typing.Union[Type_Any, Type_NonAny, Type_Union]"
        )


class Type_Any(Type, variant="Any"):
    """The word `any`."""

    value: term.Any

    def __init__(self, value: term.Any) -> None:
        self._hold(value)


class Type_NonAny(Type, variant="NonAny"):
    """Any other type that is no union, as `long?`."""

    value: NonAnyType.Variants

    def __init__(self, value: NonAnyType.Variants) -> None:
        self._hold(value)


class Type_Union(Type, variant="Union"):
    """`(type or type)?`, also without `?`."""

    value: MayBeNull[UnionType]

    def __init__(self, value: MayBeNull[UnionType]) -> None:
        self._hold(value)


class UnionMemberType(Choice):
    """A member of a union, as `[Clamp] octet` or `(long or DOMString)`."""

    if TYPE_CHECKING:
        Single: TypeAlias = "UnionMemberType_Single"
        Union: TypeAlias = "UnionMemberType_Union"
        Variants: TypeAlias = (
            "typing.Union[UnionMemberType_Single, UnionMemberType_Union]"
        )


class UnionMemberType_Single(UnionMemberType, variant="Single"):
    """`[extended attributes] type`, also without `[extended attributes]`, where the type is
    neither `any` nor a union.
    """

    value: AttributedNonAnyType

    def __init__(self, value: AttributedNonAnyType) -> None:
        self._hold(value)


class UnionMemberType_Union(UnionMemberType, variant="Union"):
    """`(type or type)?`, also without `?`."""

    value: MayBeNull[UnionType]

    def __init__(self, value: MayBeNull[UnionType]) -> None:
        self._hold(value)


class ExtendedAttribute(Choice):
    """An extended attribute, as `Exposed=Window` or `Constructor(long x)`."""

    if TYPE_CHECKING:
        ArgList: TypeAlias = "ExtendedAttribute_ArgList"
        NamedArgList: TypeAlias = "ExtendedAttribute_NamedArgList"
        IdentList: TypeAlias = "ExtendedAttribute_IdentList"
        Wildcard: TypeAlias = "ExtendedAttribute_Wildcard"
        Strings: TypeAlias = "ExtendedAttribute_Strings"
        Numbers: TypeAlias = "ExtendedAttribute_Numbers"
        Number: TypeAlias = "ExtendedAttribute_Number"
        Ident: TypeAlias = "ExtendedAttribute_Ident"
        NoArgs: TypeAlias = "ExtendedAttribute_NoArgs"
        Variants: TypeAlias = (
            "typing.Union[ExtendedAttribute_ArgList, ExtendedAttribute_NamedArgList, "
            "ExtendedAttribute_IdentList, ExtendedAttribute_Wildcard, "
            "ExtendedAttribute_Strings, ExtendedAttribute_Numbers, ExtendedAttribute_Number, "
            "ExtendedAttribute_Ident, ExtendedAttribute_NoArgs]"
        )


class ExtendedAttribute_ArgList(ExtendedAttribute, variant="ArgList"):
    """`name(arguments)`."""

    value: ExtendedAttributeArgList

    def __init__(self, value: ExtendedAttributeArgList) -> None:
        self._hold(value)


class ExtendedAttribute_NamedArgList(ExtendedAttribute, variant="NamedArgList"):
    """`name=name(arguments)`."""

    value: ExtendedAttributeNamedArgList

    def __init__(self, value: ExtendedAttributeNamedArgList) -> None:
        self._hold(value)


class ExtendedAttribute_IdentList(ExtendedAttribute, variant="IdentList"):
    """`name=(names)`."""

    value: ExtendedAttributeIdentList

    def __init__(self, value: ExtendedAttributeIdentList) -> None:
        self._hold(value)


class ExtendedAttribute_Wildcard(ExtendedAttribute, variant="Wildcard"):
    """As `Exposed=*`."""

    value: ExtendedAttributeWildcard

    def __init__(self, value: ExtendedAttributeWildcard) -> None:
        self._hold(value)


class ExtendedAttribute_Strings(ExtendedAttribute, variant="Strings"):
    """As `A=("a", "b")`."""

    value: ExtendedAttributeStrings

    def __init__(self, value: ExtendedAttributeStrings) -> None:
        self._hold(value)


class ExtendedAttribute_Numbers(ExtendedAttribute, variant="Numbers"):
    """As `ReflectRange=(2, 8)`."""

    value: ExtendedAttributeNumbers

    def __init__(self, value: ExtendedAttributeNumbers) -> None:
        self._hold(value)


class ExtendedAttribute_Number(ExtendedAttribute, variant="Number"):
    """As `ReflectDefault=2`."""

    value: ExtendedAttributeNumber

    def __init__(self, value: ExtendedAttributeNumber) -> None:
        self._hold(value)


class ExtendedAttribute_Ident(ExtendedAttribute, variant="Ident"):
    """`name=name` or `name="text"`."""

    value: ExtendedAttributeIdent

    def __init__(self, value: ExtendedAttributeIdent) -> None:
        self._hold(value)


class ExtendedAttribute_NoArgs(ExtendedAttribute, variant="NoArgs"):
    """`name`."""

    value: ExtendedAttributeNoArgs

    def __init__(self, value: ExtendedAttributeNoArgs) -> None:
        self._hold(value)


class AsyncWords(Choice):
    """`async_iterable`, or the older `async iterable`."""

    if TYPE_CHECKING:
        One: TypeAlias = "AsyncWords_One"
        Two: TypeAlias = "AsyncWords_Two"
        Variants: TypeAlias = (
            "typing.Union[AsyncWords_One, AsyncWords_Two]"
        )


class AsyncWords_One(AsyncWords, variant="One"):
    """The word `async_iterable`."""

    value: AsyncIterableWord

    def __init__(self, value: AsyncIterableWord) -> None:
        self._hold(value)


class AsyncWords_Two(AsyncWords, variant="Two"):
    """The words `async iterable`, as older texts have them."""

    value: Tuple[term.Async, term.Iterable]

    def __init__(self, value: Tuple[term.Async, term.Iterable]) -> None:
        self._hold(value)


class Argument(Factored):
    """An argument, as `long x`, or `long... xs` for any number of them."""

    if TYPE_CHECKING:
        Optional: TypeAlias = "Argument_Optional"
        Required: TypeAlias = "Argument_Required"
        Variants: TypeAlias = (
            "typing.Union[Argument_Optional, Argument_Required]"
        )


class Argument_Optional(Argument, variant="Optional"):
    """An argument that may be left out, as `optional long x = 5`, behind its attributes."""

    value: OptionalArgument

    def __init__(self, value: OptionalArgument) -> None:
        self._hold(value)


class Argument_Required(Argument, variant="Required"):
    """As `long x`, or `long... x`, behind its attributes."""

    value: RequiredArgument

    def __init__(self, value: RequiredArgument) -> None:
        self._hold(value)


class InterfaceMember(Factored):
    """A member of an interface, as `attribute long length;`."""

    if TYPE_CHECKING:
        Const: TypeAlias = "InterfaceMember_Const"
        Attribute: TypeAlias = "InterfaceMember_Attribute"
        Constructor: TypeAlias = "InterfaceMember_Constructor"
        Operation: TypeAlias = "InterfaceMember_Operation"
        Iterable: TypeAlias = "InterfaceMember_Iterable"
        AsyncIterable: TypeAlias = "InterfaceMember_AsyncIterable"
        Maplike: TypeAlias = "InterfaceMember_Maplike"
        Setlike: TypeAlias = "InterfaceMember_Setlike"
        Stringifier: TypeAlias = "InterfaceMember_Stringifier"
        Variants: TypeAlias = (
            "typing.Union[InterfaceMember_Const, InterfaceMember_Attribute, "
            "InterfaceMember_Constructor, InterfaceMember_Operation, "
            "InterfaceMember_Iterable, InterfaceMember_AsyncIterable, "
            "InterfaceMember_Maplike, InterfaceMember_Setlike, InterfaceMember_Stringifier]"
        )


class InterfaceMember_Const(InterfaceMember, variant="Const"):
    """`[extended attributes] const type name = value;`."""

    value: ConstMember

    def __init__(self, value: ConstMember) -> None:
        self._hold(value)


class InterfaceMember_Attribute(InterfaceMember, variant="Attribute"):
    """`[extended attributes] readonly attribute type name;`, also without `readonly`."""

    value: AttributeInterfaceMember

    def __init__(self, value: AttributeInterfaceMember) -> None:
        self._hold(value)


class InterfaceMember_Constructor(InterfaceMember, variant="Constructor"):
    """`docstring [extended attributes] constructor(arguments);`."""

    value: ConstructorInterfaceMember

    def __init__(self, value: ConstructorInterfaceMember) -> None:
        self._hold(value)


class InterfaceMember_Operation(InterfaceMember, variant="Operation"):
    """`docstring [extended attributes] type name(arguments);`, also without the name."""

    value: OperationInterfaceMember

    def __init__(self, value: OperationInterfaceMember) -> None:
        self._hold(value)


class InterfaceMember_Iterable(InterfaceMember, variant="Iterable"):
    """`[extended attributes] iterable<type>;` or `[extended attributes] iterable<type,
    type>;`.
    """

    value: IterableInterfaceMember

    def __init__(self, value: IterableInterfaceMember) -> None:
        self._hold(value)


class InterfaceMember_AsyncIterable(InterfaceMember, variant="AsyncIterable"):
    """`[extended attributes] async iterable<type>(arguments);`, also with two types, or
    without `(arguments)`.
    """

    value: AsyncIterableInterfaceMember

    def __init__(self, value: AsyncIterableInterfaceMember) -> None:
        self._hold(value)


class InterfaceMember_Maplike(InterfaceMember, variant="Maplike"):
    """`[extended attributes] readonly maplike<type, type>;`, also without `readonly`."""

    value: MaplikeInterfaceMember

    def __init__(self, value: MaplikeInterfaceMember) -> None:
        self._hold(value)


class InterfaceMember_Setlike(InterfaceMember, variant="Setlike"):
    """`[extended attributes] readonly setlike<type>;`, also without `readonly`."""

    value: SetlikeInterfaceMember

    def __init__(self, value: SetlikeInterfaceMember) -> None:
        self._hold(value)


class InterfaceMember_Stringifier(InterfaceMember, variant="Stringifier"):
    """`[extended attributes] stringifier;`."""

    value: StringifierMember

    def __init__(self, value: StringifierMember) -> None:
        self._hold(value)


class MixinMember(Factored):
    """A member of a mixin, as `readonly attribute long x;`."""

    if TYPE_CHECKING:
        Const: TypeAlias = "MixinMember_Const"
        Operation: TypeAlias = "MixinMember_Operation"
        Attribute: TypeAlias = "MixinMember_Attribute"
        Stringifier: TypeAlias = "MixinMember_Stringifier"
        Variants: TypeAlias = (
            "typing.Union[MixinMember_Const, MixinMember_Operation, MixinMember_Attribute, "
            "MixinMember_Stringifier]"
        )


class MixinMember_Const(MixinMember, variant="Const"):
    """`[extended attributes] const type name = value;`."""

    value: ConstMember

    def __init__(self, value: ConstMember) -> None:
        self._hold(value)


class MixinMember_Operation(MixinMember, variant="Operation"):
    """`[extended attributes] stringifier type name(arguments);`, also without `stringifier`
    or the name.
    """

    value: OperationMixinMember

    def __init__(self, value: OperationMixinMember) -> None:
        self._hold(value)


class MixinMember_Attribute(MixinMember, variant="Attribute"):
    """`[extended attributes] stringifier readonly attribute type name;`, also without
    `stringifier` or `readonly`.
    """

    value: AttributeMixinMember

    def __init__(self, value: AttributeMixinMember) -> None:
        self._hold(value)


class MixinMember_Stringifier(MixinMember, variant="Stringifier"):
    """`[extended attributes] stringifier;`."""

    value: StringifierMember

    def __init__(self, value: StringifierMember) -> None:
        self._hold(value)


class NamespaceMember(Factored):
    """A member of a namespace, as `long f(long x);`."""

    if TYPE_CHECKING:
        Const: TypeAlias = "NamespaceMember_Const"
        Operation: TypeAlias = "NamespaceMember_Operation"
        Attribute: TypeAlias = "NamespaceMember_Attribute"
        Variants: TypeAlias = (
            "typing.Union[NamespaceMember_Const, NamespaceMember_Operation, "
            "NamespaceMember_Attribute]"
        )


class NamespaceMember_Const(NamespaceMember, variant="Const"):
    """A constant, as `const long X = 5;`."""

    value: ConstMember

    def __init__(self, value: ConstMember) -> None:
        self._hold(value)


class NamespaceMember_Operation(NamespaceMember, variant="Operation"):
    """`docstring [extended attributes] type name(arguments);`, also without the name."""

    value: OperationNamespaceMember

    def __init__(self, value: OperationNamespaceMember) -> None:
        self._hold(value)


class NamespaceMember_Attribute(NamespaceMember, variant="Attribute"):
    """`docstring [extended attributes] readonly attribute type name;`."""

    value: AttributeNamespaceMember

    def __init__(self, value: AttributeNamespaceMember) -> None:
        self._hold(value)


class Definition(Factored):
    """A definition, as `interface A {};`."""

    if TYPE_CHECKING:
        Callback: TypeAlias = "Definition_Callback"
        CallbackInterface: TypeAlias = "Definition_CallbackInterface"
        Interface: TypeAlias = "Definition_Interface"
        InterfaceMixin: TypeAlias = "Definition_InterfaceMixin"
        Namespace: TypeAlias = "Definition_Namespace"
        Dictionary: TypeAlias = "Definition_Dictionary"
        PartialInterface: TypeAlias = "Definition_PartialInterface"
        PartialInterfaceMixin: TypeAlias = "Definition_PartialInterfaceMixin"
        PartialDictionary: TypeAlias = "Definition_PartialDictionary"
        PartialNamespace: TypeAlias = "Definition_PartialNamespace"
        Enum: TypeAlias = "Definition_Enum"
        Typedef: TypeAlias = "Definition_Typedef"
        IncludesStatement: TypeAlias = "Definition_IncludesStatement"
        Implements: TypeAlias = "Definition_Implements"
        Variants: TypeAlias = (
            "typing.Union[Definition_Callback, Definition_CallbackInterface, "
            "Definition_Interface, Definition_InterfaceMixin, Definition_Namespace, "
            "Definition_Dictionary, Definition_PartialInterface, "
            "Definition_PartialInterfaceMixin, Definition_PartialDictionary, "
            "Definition_PartialNamespace, Definition_Enum, Definition_Typedef, "
            "Definition_IncludesStatement, Definition_Implements]"
        )


class Definition_Callback(Definition, variant="Callback"):
    """`[extended attributes] callback name = type (arguments);`."""

    value: CallbackDefinition

    def __init__(self, value: CallbackDefinition) -> None:
        self._hold(value)


class Definition_CallbackInterface(Definition, variant="CallbackInterface"):
    """`docstring [extended attributes] callback interface name : parent { members };`."""

    value: CallbackInterfaceDefinition

    def __init__(self, value: CallbackInterfaceDefinition) -> None:
        self._hold(value)


class Definition_Interface(Definition, variant="Interface"):
    """`docstring [extended attributes] interface name : parent { members };`."""

    value: InterfaceDefinition

    def __init__(self, value: InterfaceDefinition) -> None:
        self._hold(value)


class Definition_InterfaceMixin(Definition, variant="InterfaceMixin"):
    """`[extended attributes] interface mixin name { members };`."""

    value: InterfaceMixinDefinition

    def __init__(self, value: InterfaceMixinDefinition) -> None:
        self._hold(value)


class Definition_Namespace(Definition, variant="Namespace"):
    """`docstring [extended attributes] namespace name { members };`."""

    value: NamespaceDefinition

    def __init__(self, value: NamespaceDefinition) -> None:
        self._hold(value)


class Definition_Dictionary(Definition, variant="Dictionary"):
    """`docstring [extended attributes] dictionary name : parent { members };`."""

    value: DictionaryDefinition

    def __init__(self, value: DictionaryDefinition) -> None:
        self._hold(value)


class Definition_PartialInterface(Definition, variant="PartialInterface"):
    """`[extended attributes] partial interface name { members };`."""

    value: PartialInterfaceDefinition

    def __init__(self, value: PartialInterfaceDefinition) -> None:
        self._hold(value)


class Definition_PartialInterfaceMixin(Definition, variant="PartialInterfaceMixin"):
    """`[extended attributes] partial interface mixin name { members };`."""

    value: PartialInterfaceMixinDefinition

    def __init__(self, value: PartialInterfaceMixinDefinition) -> None:
        self._hold(value)


class Definition_PartialDictionary(Definition, variant="PartialDictionary"):
    """`[extended attributes] partial dictionary name { members };`."""

    value: PartialDictionaryDefinition

    def __init__(self, value: PartialDictionaryDefinition) -> None:
        self._hold(value)


class Definition_PartialNamespace(Definition, variant="PartialNamespace"):
    """`[extended attributes] partial namespace name { members };`."""

    value: PartialNamespaceDefinition

    def __init__(self, value: PartialNamespaceDefinition) -> None:
        self._hold(value)


class Definition_Enum(Definition, variant="Enum"):
    """`docstring [extended attributes] enum name { "value", "value" };`."""

    value: EnumDefinition

    def __init__(self, value: EnumDefinition) -> None:
        self._hold(value)


class Definition_Typedef(Definition, variant="Typedef"):
    """`[extended attributes] typedef type name;`."""

    value: TypedefDefinition

    def __init__(self, value: TypedefDefinition) -> None:
        self._hold(value)


class Definition_IncludesStatement(Definition, variant="IncludesStatement"):
    """`[extended attributes] name includes name;`."""

    value: IncludesStatementDefinition

    def __init__(self, value: IncludesStatementDefinition) -> None:
        self._hold(value)


class Definition_Implements(Definition, variant="Implements"):
    """`[extended attributes] name implements name;`."""

    value: ImplementsDefinition

    def __init__(self, value: ImplementsDefinition) -> None:
        self._hold(value)


#: Extended attributes, as `[Clamp, Exposed=*]`.
ExtendedAttributeList = Bracketed["Punctuated[ExtendedAttribute.Variants, term.Comma]"]


#: Arguments, none included.
ArgumentList = Punctuated["Argument.Variants", "term.Comma"]


#: A union, as `(long or DOMString)`.
UnionType = Parenthesized["Punctuated[UnionMemberType.Variants, term.Or]"]


#: The members of an interface, none included.
InterfaceMembers = List["InterfaceMember.Variants"]


#: The members of a mixin, none included.
MixinMembers = List["MixinMember.Variants"]


#: The members of a namespace, none included.
NamespaceMembers = List["NamespaceMember.Variants"]


#: The members of a dictionary, none included.
DictionaryMembers = List["DictionaryMember"]


class Definitions(Listing["Definition.Variants"]):
    """The definitions of a text that was read by today's grammar."""
