//! Types.
//!
//! Written by tools/write/rust_types.py, and not edited by hand.

use crate::attribute::ExtendedAttributeList;
use crate::common::{Generics, Identifier, Parenthesized, Punctuated};
use crate::term;

/// The type of a constant, as `long?`.
#[derive(Clone, Debug, PartialEq, Eq, PartialOrd, Ord, Hash)]
pub enum ConstType<'a> {
    /// `short?`, `long?` or `long long?`, each also with `unsigned` in front.
    Integer(MayBeNull<IntegerType>),
    /// `float?` or `double?`, each also with `unrestricted` in front.
    FloatingPoint(MayBeNull<FloatingPointType>),
    /// `boolean?`.
    Boolean(MayBeNull<term::Boolean>),
    /// `byte?`.
    Byte(MayBeNull<term::Byte>),
    /// `octet?`.
    Octet(MayBeNull<term::Octet>),
    /// `name?`.
    Identifier(MayBeNull<Identifier<'a>>),
}

choice! {
    ConstType<'a> = CONST_TYPE {
        Integer(MayBeNull<IntegerType>),
        FloatingPoint(MayBeNull<FloatingPointType>),
        Boolean(MayBeNull<term::Boolean>),
        Byte(MayBeNull<term::Byte>),
        Octet(MayBeNull<term::Octet>),
        Identifier(MayBeNull<Identifier<'a>>),
    }
}

/// `float` or `unrestricted float`.
#[derive(Clone, Copy, Debug, PartialEq, Eq, PartialOrd, Ord, Hash)]
pub struct FloatType {
    /// The word `unrestricted`, where present.
    pub unrestricted: Option<term::Unrestricted>,
    /// The word `float`.
    pub float: term::Float,
}

record! { FloatType = FLOAT_TYPE { unrestricted, float } }

/// `double` or `unrestricted double`.
#[derive(Clone, Copy, Debug, PartialEq, Eq, PartialOrd, Ord, Hash)]
pub struct DoubleType {
    /// The word `unrestricted`, where present.
    pub unrestricted: Option<term::Unrestricted>,
    /// The word `double`.
    pub double: term::Double,
}

record! { DoubleType = DOUBLE_TYPE { unrestricted, double } }

/// A type of floating point numbers, as `unrestricted double`.
#[derive(Clone, Copy, Debug, PartialEq, Eq, PartialOrd, Ord, Hash)]
pub enum FloatingPointType {
    /// `unrestricted float`, also without `unrestricted`.
    Float(FloatType),
    /// `unrestricted double`, also without `unrestricted`.
    Double(DoubleType),
}

choice! {
    FloatingPointType = FLOATING_POINT_TYPE {
        Float(FloatType),
        Double(DoubleType),
    }
}

/// `long long` or `unsigned long long`.
#[derive(Clone, Copy, Debug, PartialEq, Eq, PartialOrd, Ord, Hash)]
pub struct LongLongType {
    /// The word `unsigned`, where present.
    pub unsigned: Option<term::Unsigned>,
    /// The words `long long`.
    pub long_long: (term::Long, term::Long),
}

record! { LongLongType = LONG_LONG_TYPE { unsigned, long_long } }

/// `long` or `unsigned long`.
#[derive(Clone, Copy, Debug, PartialEq, Eq, PartialOrd, Ord, Hash)]
pub struct LongType {
    /// The word `unsigned`, where present.
    pub unsigned: Option<term::Unsigned>,
    /// The word `long`.
    pub long: term::Long,
}

record! { LongType = LONG_TYPE { unsigned, long } }

/// `short` or `unsigned short`.
#[derive(Clone, Copy, Debug, PartialEq, Eq, PartialOrd, Ord, Hash)]
pub struct ShortType {
    /// The word `unsigned`, where present.
    pub unsigned: Option<term::Unsigned>,
    /// The word `short`.
    pub short: term::Short,
}

record! { ShortType = SHORT_TYPE { unsigned, short } }

/// A type of integers, as `unsigned long`.
#[derive(Clone, Copy, Debug, PartialEq, Eq, PartialOrd, Ord, Hash)]
pub enum IntegerType {
    /// `unsigned long long`, also without `unsigned`.
    LongLong(LongLongType),
    /// `unsigned long`, also without `unsigned`.
    Long(LongType),
    /// `unsigned short`, also without `unsigned`.
    Short(ShortType),
}

choice! {
    IntegerType = INTEGER_TYPE {
        LongLong(LongLongType),
        Long(LongType),
        Short(ShortType),
    }
}

/// A type, and `?` where it may be null, as `long?`.
#[derive(Clone, Copy, Debug, PartialEq, Eq, PartialOrd, Ord, Hash)]
pub struct MayBeNull<T> {
    /// The type, as `long`.
    pub type_: T,
    /// The `?`, where present.
    pub q_mark: Option<term::QMark>,
}

generic! { MayBeNull = may_be_null { type_, q_mark } }

/// A type, as `long`, `any` or `(long or DOMString)?`.
#[derive(Clone, Debug, PartialEq, Eq, PartialOrd, Ord, Hash)]
pub enum Type<'a> {
    /// `any`, or another type that is no union, as `long?`.
    Single(SingleType<'a>),
    /// `(type or type)?`, also without `?`.
    Union(MayBeNull<UnionType<'a>>),
}

choice! {
    Type<'a> = TYPE {
        Single(SingleType<'a>),
        Union(MayBeNull<UnionType<'a>>),
    }
}

/// A type that is neither `any` nor a union, as `long?`.
#[derive(Clone, Debug, PartialEq, Eq, PartialOrd, Ord, Hash)]
pub enum NonAnyType<'a> {
    /// `Promise<type>`, also with `undefined` for the type.
    Promise(PromiseType<'a>),
    /// `short?`, `long?` or `long long?`, each also with `unsigned` in front.
    Integer(MayBeNull<IntegerType>),
    /// `float?` or `double?`, each also with `unrestricted` in front.
    FloatingPoint(MayBeNull<FloatingPointType>),
    /// `boolean?`.
    Boolean(MayBeNull<term::Boolean>),
    /// `byte?`.
    Byte(MayBeNull<term::Byte>),
    /// `octet?`.
    Octet(MayBeNull<term::Octet>),
    /// `ByteString?`.
    ByteString(MayBeNull<term::ByteString>),
    /// `DOMString?`.
    DOMString(MayBeNull<term::DOMString>),
    /// `USVString?`.
    USVString(MayBeNull<term::USVString>),
    /// `sequence<type>?`.
    Sequence(MayBeNull<SequenceType<'a>>),
    /// `object?`.
    Object(MayBeNull<term::Object>),
    /// `symbol?`.
    Symbol(MayBeNull<term::Symbol>),
    /// `Error?`.
    Error(MayBeNull<term::Error>),
    /// `ArrayBuffer?`.
    ArrayBuffer(MayBeNull<term::ArrayBuffer>),
    /// `DataView?`.
    DataView(MayBeNull<term::DataView>),
    /// `Int8Array?`.
    Int8Array(MayBeNull<term::Int8Array>),
    /// `Int16Array?`.
    Int16Array(MayBeNull<term::Int16Array>),
    /// `Int32Array?`.
    Int32Array(MayBeNull<term::Int32Array>),
    /// `Uint8Array?`.
    Uint8Array(MayBeNull<term::Uint8Array>),
    /// `Uint16Array?`.
    Uint16Array(MayBeNull<term::Uint16Array>),
    /// `Uint32Array?`.
    Uint32Array(MayBeNull<term::Uint32Array>),
    /// `Uint8ClampedArray?`.
    Uint8ClampedArray(MayBeNull<term::Uint8ClampedArray>),
    /// `Float32Array?`.
    Float32Array(MayBeNull<term::Float32Array>),
    /// `Float64Array?`.
    Float64Array(MayBeNull<term::Float64Array>),
    /// `ArrayBufferView?`.
    ArrayBufferView(MayBeNull<term::ArrayBufferView>),
    /// `BufferSource?`.
    BufferSource(MayBeNull<term::BufferSource>),
    /// `FrozenArray<type>?`.
    FrozenArrayType(MayBeNull<FrozenArrayType<'a>>),
    /// `record<type, type>?`.
    RecordType(MayBeNull<RecordType<'a>>),
    /// `name?`.
    Identifier(MayBeNull<Identifier<'a>>),
}

choice! {
    NonAnyType<'a> = NON_ANY_TYPE {
        Promise(PromiseType<'a>),
        Integer(MayBeNull<IntegerType>),
        FloatingPoint(MayBeNull<FloatingPointType>),
        Boolean(MayBeNull<term::Boolean>),
        Byte(MayBeNull<term::Byte>),
        Octet(MayBeNull<term::Octet>),
        ByteString(MayBeNull<term::ByteString>),
        DOMString(MayBeNull<term::DOMString>),
        USVString(MayBeNull<term::USVString>),
        Sequence(MayBeNull<SequenceType<'a>>),
        Object(MayBeNull<term::Object>),
        Symbol(MayBeNull<term::Symbol>),
        Error(MayBeNull<term::Error>),
        ArrayBuffer(MayBeNull<term::ArrayBuffer>),
        DataView(MayBeNull<term::DataView>),
        Int8Array(MayBeNull<term::Int8Array>),
        Int16Array(MayBeNull<term::Int16Array>),
        Int32Array(MayBeNull<term::Int32Array>),
        Uint8Array(MayBeNull<term::Uint8Array>),
        Uint16Array(MayBeNull<term::Uint16Array>),
        Uint32Array(MayBeNull<term::Uint32Array>),
        Uint8ClampedArray(MayBeNull<term::Uint8ClampedArray>),
        Float32Array(MayBeNull<term::Float32Array>),
        Float64Array(MayBeNull<term::Float64Array>),
        ArrayBufferView(MayBeNull<term::ArrayBufferView>),
        BufferSource(MayBeNull<term::BufferSource>),
        FrozenArrayType(MayBeNull<FrozenArrayType<'a>>),
        RecordType(MayBeNull<RecordType<'a>>),
        Identifier(MayBeNull<Identifier<'a>>),
    }
}

/// A member of a union, as `[Clamp] octet` or `(long or DOMString)`.
#[derive(Clone, Debug, PartialEq, Eq, PartialOrd, Ord, Hash)]
pub enum UnionMemberType<'a> {
    /// `[extended attributes] type`, also without `[extended attributes]`, where the type is
    /// neither `any` nor a union.
    Single(AttributedNonAnyType<'a>),
    /// `(type or type)?`, also without `?`.
    Union(MayBeNull<UnionType<'a>>),
}

choice! {
    UnionMemberType<'a> = UNION_MEMBER_TYPE {
        Single(AttributedNonAnyType<'a>),
        Union(MayBeNull<UnionType<'a>>),
    }
}

/// A type with the extended attributes before it, as `[Clamp] octet`.
#[derive(Clone, Debug, PartialEq, Eq, PartialOrd, Ord, Hash)]
pub struct AttributedType<'a> {
    /// The extended attributes in brackets, as `[Clamp]`, where present.
    pub attributes: Option<ExtendedAttributeList<'a>>,
    /// The type, as `octet`.
    pub type_: Type<'a>,
}

record! { AttributedType<'a> = ATTRIBUTED_TYPE { attributes, type_ } }

/// A type that is neither `any` nor a union, with the extended attributes before it, as `[Clamp]
/// octet`.
#[derive(Clone, Debug, PartialEq, Eq, PartialOrd, Ord, Hash)]
pub struct AttributedNonAnyType<'a> {
    /// The extended attributes in brackets, as `[Clamp]`, where present.
    pub attributes: Option<ExtendedAttributeList<'a>>,
    /// The type, as `octet`.
    pub type_: NonAnyType<'a>,
}

record! { AttributedNonAnyType<'a> = ATTRIBUTED_NON_ANY_TYPE { attributes, type_ } }

/// A type that is no union, as `any` or `long?`.
#[derive(Clone, Debug, PartialEq, Eq, PartialOrd, Ord, Hash)]
pub enum SingleType<'a> {
    /// The word `any`.
    Any(term::Any),
    /// Any other type that is no union, as `long?`.
    NonAny(NonAnyType<'a>),
}

choice! {
    SingleType<'a> = SINGLE_TYPE {
        Any(term::Any),
        NonAny(NonAnyType<'a>),
    }
}

/// A sequence, as `sequence<long>`.
#[derive(Clone, Debug, PartialEq, Eq, PartialOrd, Ord, Hash)]
pub struct SequenceType<'a> {
    /// The word `sequence`.
    pub sequence: term::Sequence,
    /// The type of its items in angle brackets, as `<long>`.
    pub generics: Generics<Box<Type<'a>>>,
}

record! { SequenceType<'a> = SEQUENCE_TYPE { sequence, generics } }

/// An array that can't change, as `FrozenArray<long>`.
#[derive(Clone, Debug, PartialEq, Eq, PartialOrd, Ord, Hash)]
pub struct FrozenArrayType<'a> {
    /// The word `FrozenArray`.
    pub frozen_array: term::FrozenArray,
    /// The type of its items in angle brackets, as `<long>`.
    pub generics: Generics<Box<Type<'a>>>,
}

record! { FrozenArrayType<'a> = FROZEN_ARRAY_TYPE { frozen_array, generics } }

/// A promise, as `Promise<undefined>`.
#[derive(Clone, Debug, PartialEq, Eq, PartialOrd, Ord, Hash)]
pub struct PromiseType<'a> {
    /// The word `Promise`.
    pub promise: term::Promise,
    /// The type of its result in angle brackets, as `<undefined>`.
    pub generics: Generics<Box<ReturnType<'a>>>,
}

record! { PromiseType<'a> = PROMISE_TYPE { promise, generics } }

/// A record, as `record<DOMString, long>`.
#[derive(Clone, Debug, PartialEq, Eq, PartialOrd, Ord, Hash)]
pub struct RecordType<'a> {
    /// The word `record`.
    pub record: term::Record,
    /// The types of its keys and values in angle brackets, as `<DOMString, long>`.
    pub generics: Generics<(Box<RecordKeyType<'a>>, term::Comma, Box<Type<'a>>)>,
}

record! { RecordType<'a> = RECORD_TYPE { record, generics } }

/// The type of a record's keys.
#[derive(Clone, Debug, PartialEq, Eq, PartialOrd, Ord, Hash)]
pub enum RecordKeyType<'a> {
    /// The word `ByteString`.
    Byte(term::ByteString),
    /// The word `DOMString`.
    DOM(term::DOMString),
    /// The word `USVString`.
    USV(term::USVString),
    /// Any other type that is neither `any` nor a union, as `long?`.
    NonAny(NonAnyType<'a>),
}

choice! {
    RecordKeyType<'a> = RECORD_KEY_TYPE {
        Byte(term::ByteString),
        DOM(term::DOMString),
        USV(term::USVString),
        NonAny(NonAnyType<'a>),
    }
}

/// The type of a result.
#[derive(Clone, Debug, PartialEq, Eq, PartialOrd, Ord, Hash)]
pub enum ReturnType<'a> {
    /// The word `undefined`.
    Undefined(term::Undefined),
    /// A type, as `long`.
    Type(Type<'a>),
}

choice! {
    ReturnType<'a> = RETURN_TYPE {
        Undefined(term::Undefined),
        Type(Type<'a>),
    }
}

/// A union, as `(long or [Clamp] octet)`; `()` too.
pub type UnionType<'a> = Parenthesized<Punctuated<UnionMemberType<'a>, term::Or>>;
