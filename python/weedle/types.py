"""Types.

Written by tools/write/python_types.py, and not edited by hand.
"""

from __future__ import annotations

from typing import ClassVar, Dict, Generic, Optional, TYPE_CHECKING, Tuple

from weedle._values import Choice, Result, T, Value, part, value_class, word
from weedle.common import Parenthesized

if TYPE_CHECKING:
    import typing

    from typing_extensions import TypeAlias

    from weedle import term
    from weedle.attribute import ExtendedAttributeList
    from weedle.common import Generics, Identifier, Punctuated

__all__ = [
    "AttributedNonAnyType",
    "AttributedType",
    "ConstType",
    "DoubleType",
    "FloatType",
    "FloatingPointType",
    "FrozenArrayType",
    "IntegerType",
    "LongLongType",
    "LongType",
    "MayBeNull",
    "NonAnyType",
    "PromiseType",
    "RecordKeyType",
    "RecordType",
    "ReturnType",
    "SequenceType",
    "ShortType",
    "SingleType",
    "Type",
    "UnionMemberType",
    "UnionType",
]


class ConstType(Choice):
    """The type of a constant, as `long?`."""

    if TYPE_CHECKING:
        Integer: TypeAlias = "ConstType_Integer"
        FloatingPoint: TypeAlias = "ConstType_FloatingPoint"
        Boolean: TypeAlias = "ConstType_Boolean"
        Byte: TypeAlias = "ConstType_Byte"
        Octet: TypeAlias = "ConstType_Octet"
        Identifier: TypeAlias = "ConstType_Identifier"
        Variants: TypeAlias = (
            "typing.Union[ConstType_Integer, ConstType_FloatingPoint, ConstType_Boolean, "
            "ConstType_Byte, ConstType_Octet, ConstType_Identifier]"
        )


class ConstType_Integer(ConstType, variant="Integer"):
    """`short?`, `long?` or `long long?`, each also with `unsigned` in front."""

    value: MayBeNull[IntegerType.Variants]

    def __init__(self, value: MayBeNull[IntegerType.Variants]) -> None:
        self._hold(value)


class ConstType_FloatingPoint(ConstType, variant="FloatingPoint"):
    """`float?` or `double?`, each also with `unrestricted` in front."""

    value: MayBeNull[FloatingPointType.Variants]

    def __init__(self, value: MayBeNull[FloatingPointType.Variants]) -> None:
        self._hold(value)


class ConstType_Boolean(ConstType, variant="Boolean"):
    """`boolean?`."""

    value: MayBeNull[term.Boolean]

    def __init__(self, value: MayBeNull[term.Boolean]) -> None:
        self._hold(value)


class ConstType_Byte(ConstType, variant="Byte"):
    """`byte?`."""

    value: MayBeNull[term.Byte]

    def __init__(self, value: MayBeNull[term.Byte]) -> None:
        self._hold(value)


class ConstType_Octet(ConstType, variant="Octet"):
    """`octet?`."""

    value: MayBeNull[term.Octet]

    def __init__(self, value: MayBeNull[term.Octet]) -> None:
        self._hold(value)


class ConstType_Identifier(ConstType, variant="Identifier"):
    """`name?`."""

    value: MayBeNull[Identifier]

    def __init__(self, value: MayBeNull[Identifier]) -> None:
        self._hold(value)


@value_class
class FloatType(Value):
    """`float` or `unrestricted float`."""

    unrestricted: Optional[term.Unrestricted] = part("The word `unrestricted`, where present.")
    float: term.Float = word("The word `float`.")

    def __init__(self, *, unrestricted: Optional[term.Unrestricted] = None) -> None:
        self._hold(unrestricted)


@value_class
class DoubleType(Value):
    """`double` or `unrestricted double`."""

    unrestricted: Optional[term.Unrestricted] = part("The word `unrestricted`, where present.")
    double: term.Double = word("The word `double`.")

    def __init__(self, *, unrestricted: Optional[term.Unrestricted] = None) -> None:
        self._hold(unrestricted)


class FloatingPointType(Choice):
    """A type of floating point numbers, as `unrestricted double`."""

    if TYPE_CHECKING:
        Float: TypeAlias = "FloatingPointType_Float"
        Double: TypeAlias = "FloatingPointType_Double"
        Variants: TypeAlias = (
            "typing.Union[FloatingPointType_Float, FloatingPointType_Double]"
        )


class FloatingPointType_Float(FloatingPointType, variant="Float"):
    """`unrestricted float`, also without `unrestricted`."""

    value: FloatType

    def __init__(self, value: FloatType) -> None:
        self._hold(value)


class FloatingPointType_Double(FloatingPointType, variant="Double"):
    """`unrestricted double`, also without `unrestricted`."""

    value: DoubleType

    def __init__(self, value: DoubleType) -> None:
        self._hold(value)


@value_class
class LongLongType(Value):
    """`long long` or `unsigned long long`."""

    unsigned: Optional[term.Unsigned] = part("The word `unsigned`, where present.")
    long_long: Tuple[term.Long, term.Long] = word("The words `long long`.")

    def __init__(self, *, unsigned: Optional[term.Unsigned] = None) -> None:
        self._hold(unsigned)


@value_class
class LongType(Value):
    """`long` or `unsigned long`."""

    unsigned: Optional[term.Unsigned] = part("The word `unsigned`, where present.")
    long: term.Long = word("The word `long`.")

    def __init__(self, *, unsigned: Optional[term.Unsigned] = None) -> None:
        self._hold(unsigned)


@value_class
class ShortType(Value):
    """`short` or `unsigned short`."""

    unsigned: Optional[term.Unsigned] = part("The word `unsigned`, where present.")
    short: term.Short = word("The word `short`.")

    def __init__(self, *, unsigned: Optional[term.Unsigned] = None) -> None:
        self._hold(unsigned)


class IntegerType(Choice):
    """A type of integers, as `unsigned long`."""

    if TYPE_CHECKING:
        LongLong: TypeAlias = "IntegerType_LongLong"
        Long: TypeAlias = "IntegerType_Long"
        Short: TypeAlias = "IntegerType_Short"
        Variants: TypeAlias = (
            "typing.Union[IntegerType_LongLong, IntegerType_Long, IntegerType_Short]"
        )


class IntegerType_LongLong(IntegerType, variant="LongLong"):
    """`unsigned long long`, also without `unsigned`."""

    value: LongLongType

    def __init__(self, value: LongLongType) -> None:
        self._hold(value)


class IntegerType_Long(IntegerType, variant="Long"):
    """`unsigned long`, also without `unsigned`."""

    value: LongType

    def __init__(self, value: LongType) -> None:
        self._hold(value)


class IntegerType_Short(IntegerType, variant="Short"):
    """`unsigned short`, also without `unsigned`."""

    value: ShortType

    def __init__(self, value: ShortType) -> None:
        self._hold(value)


@value_class
class MayBeNull(Value, Generic[T]):
    """A type, and `?` where it may be null, as `long?`."""

    type_: T = part("The type, as `long`.")
    q_mark: Optional[term.QMark] = part("The `?`, where present.")

    def __init__(self, *, type_: T, q_mark: Optional[term.QMark] = None) -> None:
        self._hold(type_, q_mark)


class Type(Choice):
    """A type, as `long`, `any` or `(long or DOMString)?`."""

    if TYPE_CHECKING:
        Single: TypeAlias = "Type_Single"
        Union: TypeAlias = "Type_Union"
        Variants: TypeAlias = (
            "typing.Union[Type_Single, Type_Union]"
        )


class Type_Single(Type, variant="Single"):
    """`any`, or another type that is no union, as `long?`."""

    value: SingleType.Variants

    def __init__(self, value: SingleType.Variants) -> None:
        self._hold(value)


class Type_Union(Type, variant="Union"):
    """`(type or type)?`, also without `?`."""

    value: MayBeNull[UnionType]

    def __init__(self, value: MayBeNull[UnionType]) -> None:
        self._hold(value)


class NonAnyType(Choice):
    """A type that is neither `any` nor a union, as `long?`."""

    if TYPE_CHECKING:
        Promise: TypeAlias = "NonAnyType_Promise"
        Integer: TypeAlias = "NonAnyType_Integer"
        FloatingPoint: TypeAlias = "NonAnyType_FloatingPoint"
        Boolean: TypeAlias = "NonAnyType_Boolean"
        Byte: TypeAlias = "NonAnyType_Byte"
        Octet: TypeAlias = "NonAnyType_Octet"
        ByteString: TypeAlias = "NonAnyType_ByteString"
        DOMString: TypeAlias = "NonAnyType_DOMString"
        USVString: TypeAlias = "NonAnyType_USVString"
        Sequence: TypeAlias = "NonAnyType_Sequence"
        Object: TypeAlias = "NonAnyType_Object"
        Symbol: TypeAlias = "NonAnyType_Symbol"
        Error: TypeAlias = "NonAnyType_Error"
        ArrayBuffer: TypeAlias = "NonAnyType_ArrayBuffer"
        DataView: TypeAlias = "NonAnyType_DataView"
        Int8Array: TypeAlias = "NonAnyType_Int8Array"
        Int16Array: TypeAlias = "NonAnyType_Int16Array"
        Int32Array: TypeAlias = "NonAnyType_Int32Array"
        Uint8Array: TypeAlias = "NonAnyType_Uint8Array"
        Uint16Array: TypeAlias = "NonAnyType_Uint16Array"
        Uint32Array: TypeAlias = "NonAnyType_Uint32Array"
        Uint8ClampedArray: TypeAlias = "NonAnyType_Uint8ClampedArray"
        Float32Array: TypeAlias = "NonAnyType_Float32Array"
        Float64Array: TypeAlias = "NonAnyType_Float64Array"
        ArrayBufferView: TypeAlias = "NonAnyType_ArrayBufferView"
        BufferSource: TypeAlias = "NonAnyType_BufferSource"
        FrozenArrayType: TypeAlias = "NonAnyType_FrozenArrayType"
        RecordType: TypeAlias = "NonAnyType_RecordType"
        Identifier: TypeAlias = "NonAnyType_Identifier"
        Variants: TypeAlias = (
            "typing.Union[NonAnyType_Promise, NonAnyType_Integer, NonAnyType_FloatingPoint, "
            "NonAnyType_Boolean, NonAnyType_Byte, NonAnyType_Octet, NonAnyType_ByteString, "
            "NonAnyType_DOMString, NonAnyType_USVString, NonAnyType_Sequence, "
            "NonAnyType_Object, NonAnyType_Symbol, NonAnyType_Error, NonAnyType_ArrayBuffer, "
            "NonAnyType_DataView, NonAnyType_Int8Array, NonAnyType_Int16Array, "
            "NonAnyType_Int32Array, NonAnyType_Uint8Array, NonAnyType_Uint16Array, "
            "NonAnyType_Uint32Array, NonAnyType_Uint8ClampedArray, NonAnyType_Float32Array, "
            "NonAnyType_Float64Array, NonAnyType_ArrayBufferView, NonAnyType_BufferSource, "
            "NonAnyType_FrozenArrayType, NonAnyType_RecordType, NonAnyType_Identifier]"
        )


class NonAnyType_Promise(NonAnyType, variant="Promise"):
    """`Promise<type>`, also with `undefined` for the type."""

    value: PromiseType

    def __init__(self, value: PromiseType) -> None:
        self._hold(value)


class NonAnyType_Integer(NonAnyType, variant="Integer"):
    """`short?`, `long?` or `long long?`, each also with `unsigned` in front."""

    value: MayBeNull[IntegerType.Variants]

    def __init__(self, value: MayBeNull[IntegerType.Variants]) -> None:
        self._hold(value)


class NonAnyType_FloatingPoint(NonAnyType, variant="FloatingPoint"):
    """`float?` or `double?`, each also with `unrestricted` in front."""

    value: MayBeNull[FloatingPointType.Variants]

    def __init__(self, value: MayBeNull[FloatingPointType.Variants]) -> None:
        self._hold(value)


class NonAnyType_Boolean(NonAnyType, variant="Boolean"):
    """`boolean?`."""

    value: MayBeNull[term.Boolean]

    def __init__(self, value: MayBeNull[term.Boolean]) -> None:
        self._hold(value)


class NonAnyType_Byte(NonAnyType, variant="Byte"):
    """`byte?`."""

    value: MayBeNull[term.Byte]

    def __init__(self, value: MayBeNull[term.Byte]) -> None:
        self._hold(value)


class NonAnyType_Octet(NonAnyType, variant="Octet"):
    """`octet?`."""

    value: MayBeNull[term.Octet]

    def __init__(self, value: MayBeNull[term.Octet]) -> None:
        self._hold(value)


class NonAnyType_ByteString(NonAnyType, variant="ByteString"):
    """`ByteString?`."""

    value: MayBeNull[term.ByteString]

    def __init__(self, value: MayBeNull[term.ByteString]) -> None:
        self._hold(value)


class NonAnyType_DOMString(NonAnyType, variant="DOMString"):
    """`DOMString?`."""

    value: MayBeNull[term.DOMString]

    def __init__(self, value: MayBeNull[term.DOMString]) -> None:
        self._hold(value)


class NonAnyType_USVString(NonAnyType, variant="USVString"):
    """`USVString?`."""

    value: MayBeNull[term.USVString]

    def __init__(self, value: MayBeNull[term.USVString]) -> None:
        self._hold(value)


class NonAnyType_Sequence(NonAnyType, variant="Sequence"):
    """`sequence<type>?`."""

    value: MayBeNull[SequenceType]

    def __init__(self, value: MayBeNull[SequenceType]) -> None:
        self._hold(value)


class NonAnyType_Object(NonAnyType, variant="Object"):
    """`object?`."""

    value: MayBeNull[term.Object]

    def __init__(self, value: MayBeNull[term.Object]) -> None:
        self._hold(value)


class NonAnyType_Symbol(NonAnyType, variant="Symbol"):
    """`symbol?`."""

    value: MayBeNull[term.Symbol]

    def __init__(self, value: MayBeNull[term.Symbol]) -> None:
        self._hold(value)


class NonAnyType_Error(NonAnyType, variant="Error"):
    """`Error?`."""

    value: MayBeNull[term.Error]

    def __init__(self, value: MayBeNull[term.Error]) -> None:
        self._hold(value)


class NonAnyType_ArrayBuffer(NonAnyType, variant="ArrayBuffer"):
    """`ArrayBuffer?`."""

    value: MayBeNull[term.ArrayBuffer]

    def __init__(self, value: MayBeNull[term.ArrayBuffer]) -> None:
        self._hold(value)


class NonAnyType_DataView(NonAnyType, variant="DataView"):
    """`DataView?`."""

    value: MayBeNull[term.DataView]

    def __init__(self, value: MayBeNull[term.DataView]) -> None:
        self._hold(value)


class NonAnyType_Int8Array(NonAnyType, variant="Int8Array"):
    """`Int8Array?`."""

    value: MayBeNull[term.Int8Array]

    def __init__(self, value: MayBeNull[term.Int8Array]) -> None:
        self._hold(value)


class NonAnyType_Int16Array(NonAnyType, variant="Int16Array"):
    """`Int16Array?`."""

    value: MayBeNull[term.Int16Array]

    def __init__(self, value: MayBeNull[term.Int16Array]) -> None:
        self._hold(value)


class NonAnyType_Int32Array(NonAnyType, variant="Int32Array"):
    """`Int32Array?`."""

    value: MayBeNull[term.Int32Array]

    def __init__(self, value: MayBeNull[term.Int32Array]) -> None:
        self._hold(value)


class NonAnyType_Uint8Array(NonAnyType, variant="Uint8Array"):
    """`Uint8Array?`."""

    value: MayBeNull[term.Uint8Array]

    def __init__(self, value: MayBeNull[term.Uint8Array]) -> None:
        self._hold(value)


class NonAnyType_Uint16Array(NonAnyType, variant="Uint16Array"):
    """`Uint16Array?`."""

    value: MayBeNull[term.Uint16Array]

    def __init__(self, value: MayBeNull[term.Uint16Array]) -> None:
        self._hold(value)


class NonAnyType_Uint32Array(NonAnyType, variant="Uint32Array"):
    """`Uint32Array?`."""

    value: MayBeNull[term.Uint32Array]

    def __init__(self, value: MayBeNull[term.Uint32Array]) -> None:
        self._hold(value)


class NonAnyType_Uint8ClampedArray(NonAnyType, variant="Uint8ClampedArray"):
    """`Uint8ClampedArray?`."""

    value: MayBeNull[term.Uint8ClampedArray]

    def __init__(self, value: MayBeNull[term.Uint8ClampedArray]) -> None:
        self._hold(value)


class NonAnyType_Float32Array(NonAnyType, variant="Float32Array"):
    """`Float32Array?`."""

    value: MayBeNull[term.Float32Array]

    def __init__(self, value: MayBeNull[term.Float32Array]) -> None:
        self._hold(value)


class NonAnyType_Float64Array(NonAnyType, variant="Float64Array"):
    """`Float64Array?`."""

    value: MayBeNull[term.Float64Array]

    def __init__(self, value: MayBeNull[term.Float64Array]) -> None:
        self._hold(value)


class NonAnyType_ArrayBufferView(NonAnyType, variant="ArrayBufferView"):
    """`ArrayBufferView?`."""

    value: MayBeNull[term.ArrayBufferView]

    def __init__(self, value: MayBeNull[term.ArrayBufferView]) -> None:
        self._hold(value)


class NonAnyType_BufferSource(NonAnyType, variant="BufferSource"):
    """`BufferSource?`."""

    value: MayBeNull[term.BufferSource]

    def __init__(self, value: MayBeNull[term.BufferSource]) -> None:
        self._hold(value)


class NonAnyType_FrozenArrayType(NonAnyType, variant="FrozenArrayType"):
    """`FrozenArray<type>?`."""

    value: MayBeNull[FrozenArrayType]

    def __init__(self, value: MayBeNull[FrozenArrayType]) -> None:
        self._hold(value)


class NonAnyType_RecordType(NonAnyType, variant="RecordType"):
    """`record<type, type>?`."""

    value: MayBeNull[RecordType]

    def __init__(self, value: MayBeNull[RecordType]) -> None:
        self._hold(value)


class NonAnyType_Identifier(NonAnyType, variant="Identifier"):
    """`name?`."""

    value: MayBeNull[Identifier]

    def __init__(self, value: MayBeNull[Identifier]) -> None:
        self._hold(value)


class UnionMemberType(Choice):
    """A member of a union, as `[Clamp] octet` or `(long or DOMString)`."""

    if TYPE_CHECKING:
        Single: TypeAlias = "UnionMemberType_Single"
        Union: TypeAlias = "UnionMemberType_Union"
        Variants: TypeAlias = (
            "typing.Union[UnionMemberType_Single, UnionMemberType_Union]"
        )


class UnionMemberType_Single(UnionMemberType, variant="Single"):
    """`[extended attributes] type`, also without `[extended attributes]`, where the type is
    neither `any` nor a union.
    """

    value: AttributedNonAnyType

    def __init__(self, value: AttributedNonAnyType) -> None:
        self._hold(value)


class UnionMemberType_Union(UnionMemberType, variant="Union"):
    """`(type or type)?`, also without `?`."""

    value: MayBeNull[UnionType]

    def __init__(self, value: MayBeNull[UnionType]) -> None:
        self._hold(value)


@value_class
class AttributedType(Value):
    """A type with the extended attributes before it, as `[Clamp] octet`."""

    attributes: Optional[ExtendedAttributeList] = part(
        "The extended attributes in brackets, as `[Clamp]`, where present."
    )
    type_: Type.Variants = part("The type, as `octet`.")

    def __init__(
        self, *, attributes: Optional[ExtendedAttributeList] = None, type_: Type.Variants,
    ) -> None:
        self._hold(attributes, type_)


@value_class
class AttributedNonAnyType(Value):
    """A type that is neither `any` nor a union, with the extended attributes before it, as
    `[Clamp] octet`.
    """

    attributes: Optional[ExtendedAttributeList] = part(
        "The extended attributes in brackets, as `[Clamp]`, where present."
    )
    type_: NonAnyType.Variants = part("The type, as `octet`.")

    def __init__(
        self, *, attributes: Optional[ExtendedAttributeList] = None, type_: NonAnyType.Variants,
    ) -> None:
        self._hold(attributes, type_)


class SingleType(Choice):
    """A type that is no union, as `any` or `long?`."""

    if TYPE_CHECKING:
        Any: TypeAlias = "SingleType_Any"
        NonAny: TypeAlias = "SingleType_NonAny"
        Variants: TypeAlias = (
            "typing.Union[SingleType_Any, SingleType_NonAny]"
        )


class SingleType_Any(SingleType, variant="Any"):
    """The word `any`."""

    value: term.Any

    def __init__(self, value: term.Any) -> None:
        self._hold(value)


class SingleType_NonAny(SingleType, variant="NonAny"):
    """Any other type that is no union, as `long?`."""

    value: NonAnyType.Variants

    def __init__(self, value: NonAnyType.Variants) -> None:
        self._hold(value)


@value_class
class SequenceType(Value):
    """A sequence, as `sequence<long>`."""

    sequence: term.Sequence = word("The word `sequence`.")
    generics: Generics[Type.Variants] = part(
        "The type of its items in angle brackets, as `<long>`."
    )

    def __init__(self, *, generics: Generics[Type.Variants]) -> None:
        self._hold(generics)


@value_class
class FrozenArrayType(Value):
    """An array that can't change, as `FrozenArray<long>`."""

    frozen_array: term.FrozenArray = word("The word `FrozenArray`.")
    generics: Generics[Type.Variants] = part(
        "The type of its items in angle brackets, as `<long>`."
    )

    def __init__(self, *, generics: Generics[Type.Variants]) -> None:
        self._hold(generics)


@value_class
class PromiseType(Value):
    """A promise, as `Promise<undefined>`."""

    promise: term.Promise = word("The word `Promise`.")
    generics: Generics[ReturnType.Variants] = part(
        "The type of its result in angle brackets, as `<undefined>`."
    )

    def __init__(self, *, generics: Generics[ReturnType.Variants]) -> None:
        self._hold(generics)


@value_class
class RecordType(Value):
    """A record, as `record<DOMString, long>`."""

    record: term.Record = word("The word `record`.")
    generics: Generics[Tuple[RecordKeyType.Variants, term.Comma, Type.Variants]] = part(
        "The types of its keys and values in angle brackets, as `<DOMString, long>`."
    )
    _renamed: ClassVar[Dict[str, str]] = {"record": "record_"}

    def __init__(
        self, *, generics: Generics[Tuple[RecordKeyType.Variants, term.Comma, Type.Variants]],
    ) -> None:
        self._hold(generics)


class RecordKeyType(Choice):
    """The type of a record's keys."""

    if TYPE_CHECKING:
        Byte: TypeAlias = "RecordKeyType_Byte"
        DOM: TypeAlias = "RecordKeyType_DOM"
        USV: TypeAlias = "RecordKeyType_USV"
        NonAny: TypeAlias = "RecordKeyType_NonAny"
        Variants: TypeAlias = (
            "typing.Union[RecordKeyType_Byte, RecordKeyType_DOM, RecordKeyType_USV, "
            "RecordKeyType_NonAny]"
        )


class RecordKeyType_Byte(RecordKeyType, variant="Byte"):
    """The word `ByteString`."""

    value: term.ByteString

    def __init__(self, value: term.ByteString) -> None:
        self._hold(value)


class RecordKeyType_DOM(RecordKeyType, variant="DOM"):
    """The word `DOMString`."""

    value: term.DOMString

    def __init__(self, value: term.DOMString) -> None:
        self._hold(value)


class RecordKeyType_USV(RecordKeyType, variant="USV"):
    """The word `USVString`."""

    value: term.USVString

    def __init__(self, value: term.USVString) -> None:
        self._hold(value)


class RecordKeyType_NonAny(RecordKeyType, variant="NonAny"):
    """Any other type that is neither `any` nor a union, as `long?`."""

    value: NonAnyType.Variants

    def __init__(self, value: NonAnyType.Variants) -> None:
        self._hold(value)


class ReturnType(Result):
    """The type of a result."""

    if TYPE_CHECKING:
        Undefined: TypeAlias = "ReturnType_Undefined"
        Type: TypeAlias = "ReturnType_Type"
        Variants: TypeAlias = (
            "typing.Union[ReturnType_Undefined, ReturnType_Type]"
        )


class ReturnType_Undefined(ReturnType, variant="Undefined"):
    """The word `undefined`."""

    value: term.Undefined

    def __init__(self, value: term.Undefined) -> None:
        self._hold(value)


class ReturnType_Type(ReturnType, variant="Type", in_json="Type_"):
    """A type, as `long`."""

    value: Type.Variants

    def __init__(self, value: Type.Variants) -> None:
        self._hold(value)


#: A union, as `(long or [Clamp] octet)`; `()` too.
UnionType = Parenthesized["Punctuated[UnionMemberType.Variants, term.Or]"]
