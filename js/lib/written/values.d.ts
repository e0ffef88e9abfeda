/*
 * The typed tree: literals, types, arguments, extended attributes, members and definitions.
 *
 * Written by tools/write/javascript_types.py, and not edited by hand.
 */

import { Choice, DecimalNumber, Kind, Listed, Value, WholeNumber } from "../value.js";
import type * as term from "./term.js";
import type * as values from "./values.js";

/** A body in parentheses, as `(a, b)`. */
export abstract class Parenthesized<T> extends Value {
  readonly kind: "Parenthesized";
  /** The `(`. */
  readonly openParen: term.OpenParen;
  /** What is between the parentheses. */
  readonly body: T;
  /** The `)`. */
  readonly closeParen: term.CloseParen;
}

/** A body in square brackets, as `[Exposed]`. */
export abstract class Bracketed<T> extends Value {
  readonly kind: "Bracketed";
  /** The `[`. */
  readonly openBracket: term.OpenBracket;
  /** What is between the square brackets. */
  readonly body: T;
  /** The `]`. */
  readonly closeBracket: term.CloseBracket;
}

/** A body in braces, as `{ .. }`. */
export abstract class Braced<T> extends Value {
  readonly kind: "Braced";
  /** The `{`. */
  readonly openBrace: term.OpenBrace;
  /** What is between the braces. */
  readonly body: T;
  /** The `}`. */
  readonly closeBrace: term.CloseBrace;
}

/** A body in angle brackets, as `<long>`. */
export abstract class Generics<T> extends Value {
  readonly kind: "Generics";
  /** The `<`. */
  readonly openAngle: term.LessThan;
  /** What is between the angle brackets. */
  readonly body: T;
  /** The `>`. */
  readonly closeAngle: term.GreaterThan;
}

/** The text of a docstring. */
export abstract class Docstring extends Value {
  readonly kind: "Docstring";
  readonly value: string;
}

/** A name, as `Window`, kept without the underscore that may be before it, as in `_interface`. */
export abstract class Identifier extends Value {
  readonly kind: "Identifier";
  readonly value: string;
}

/** Items with a separator between each two, as `a, b`; none included. */
export abstract class Punctuated<T, S> extends Listed<T, S> {
  readonly kind: "Punctuated";
}

/**
 * Items with a separator between each two, one item at least, and one further separator where present, as `a,
 * b,`.
 */
export abstract class PunctuatedNonEmpty<T, S> extends Listed<T, S> {
  readonly kind: "PunctuatedNonEmpty";
}

/** A default, as `= 5` behind an argument's name. */
export abstract class Default extends Value {
  readonly kind: "Default";
  /** The `=`. */
  readonly assign: term.Assign;
  /** The value, as `5`. */
  readonly value: DefaultValue;
}

/** The word `true` or `false`. */
export abstract class BooleanLit extends Value {
  readonly kind: "BooleanLit";
  readonly value: boolean;
}

/** An empty list, as `[ ]`. */
export abstract class EmptyArrayLit extends Value {
  readonly kind: "EmptyArrayLit";
  /** The `[`. */
  readonly openBracket: term.OpenBracket;
  /** The `]`. */
  readonly closeBracket: term.CloseBracket;
}

/** An empty dictionary, as `{ }`. */
export abstract class EmptyDictionaryLit extends Value {
  readonly kind: "EmptyDictionaryLit";
  /** The `{`. */
  readonly openBrace: term.OpenBrace;
  /** The `}`. */
  readonly closeBrace: term.CloseBrace;
}

/** A number with a point or an exponent, as `-.5E+3`, `5.` or `1e3`. */
export abstract class FloatValueLit extends Value {
  readonly kind: "FloatValueLit";
  readonly value: string;
}
export interface FloatValueLit extends DecimalNumber {}

/** A float, as `-.5E+3` or `-Infinity`. */
export type FloatLit =
  | FloatLit.Value | FloatLit.NegInfinity | FloatLit.Infinity | FloatLit.NaN;
export declare namespace FloatLit {
  /** A number with a point or an exponent, as `1.5`. */
  interface Value extends Choice<"FloatLit", "Value", values.FloatValueLit>, DecimalNumber {}
  /** The word `-Infinity`. */
  interface NegInfinity extends Choice<"FloatLit", "NegInfinity", term.NegInfinity>, DecimalNumber {}
  /** The word `Infinity`. */
  interface Infinity extends Choice<"FloatLit", "Infinity", term.Infinity>, DecimalNumber {}
  /** The word `NaN`. */
  interface NaN extends Choice<"FloatLit", "NaN", term.NaN>, DecimalNumber {}
}
export declare const FloatLit: Kind<FloatLit> & {
  /** A number with a point or an exponent, as `1.5`. */
  readonly Value: Kind<FloatLit.Value>;
  /** The word `-Infinity`. */
  readonly NegInfinity: Kind<FloatLit.NegInfinity>;
  /** The word `Infinity`. */
  readonly Infinity: Kind<FloatLit.Infinity>;
  /** The word `NaN`. */
  readonly NaN: Kind<FloatLit.NaN>;
};

/** A decimal number, as `-12`. */
export abstract class DecLit extends Value {
  readonly kind: "DecLit";
  readonly value: string;
}
export interface DecLit extends WholeNumber {}

/** A hexadecimal number, as `-0x1F`. */
export abstract class HexLit extends Value {
  readonly kind: "HexLit";
  readonly value: string;
}
export interface HexLit extends WholeNumber {}

/** An octal number, as `-017` or `0`. */
export abstract class OctLit extends Value {
  readonly kind: "OctLit";
  readonly value: string;
}
export interface OctLit extends WholeNumber {}

/** A whole number, as `-12`, `0x1F` or `017`. */
export type IntegerLit =
  | IntegerLit.Dec | IntegerLit.Hex | IntegerLit.Oct;
export declare namespace IntegerLit {
  /** A decimal number, as `-12`. */
  interface Dec extends Choice<"IntegerLit", "Dec", values.DecLit>, WholeNumber {}
  /** A hexadecimal number, as `0x1F`. */
  interface Hex extends Choice<"IntegerLit", "Hex", values.HexLit>, WholeNumber {}
  /** An octal number, as `017`. */
  interface Oct extends Choice<"IntegerLit", "Oct", values.OctLit>, WholeNumber {}
}
export declare const IntegerLit: Kind<IntegerLit> & {
  /** A decimal number, as `-12`. */
  readonly Dec: Kind<IntegerLit.Dec>;
  /** A hexadecimal number, as `0x1F`. */
  readonly Hex: Kind<IntegerLit.Hex>;
  /** An octal number, as `017`. */
  readonly Oct: Kind<IntegerLit.Oct>;
};

/** A text in quotes, as `"blob"`. */
export abstract class StringLit extends Value {
  readonly kind: "StringLit";
  readonly value: string;
}

/** The value of a default, as `"blob"` or `[]`. */
export type DefaultValue =
  | DefaultValue.Boolean | DefaultValue.EmptyArray | DefaultValue.EmptyDictionary | DefaultValue.Float |
  DefaultValue.Integer | DefaultValue.Null | DefaultValue.String;
export declare namespace DefaultValue {
  /** A boolean, as `true`. */
  interface Boolean extends Choice<"DefaultValue", "Boolean", values.BooleanLit> {}
  /** An empty list, as `[]`. */
  interface EmptyArray extends Choice<"DefaultValue", "EmptyArray", values.EmptyArrayLit> {}
  /** An empty dictionary, as `{}`. */
  interface EmptyDictionary extends Choice<"DefaultValue", "EmptyDictionary", values.EmptyDictionaryLit> {}
  /** A float, as `1.5` or `NaN`. */
  interface Float extends Choice<"DefaultValue", "Float", values.FloatLit> {}
  /** A whole number, as `-12`. */
  interface Integer extends Choice<"DefaultValue", "Integer", values.IntegerLit> {}
  /** The word `null`. */
  interface Null extends Choice<"DefaultValue", "Null", term.Null> {}
  /** A text in quotes, as `"blob"`. */
  interface String extends Choice<"DefaultValue", "String", values.StringLit> {}
}
export declare const DefaultValue: Kind<DefaultValue> & {
  /** A boolean, as `true`. */
  readonly Boolean: Kind<DefaultValue.Boolean>;
  /** An empty list, as `[]`. */
  readonly EmptyArray: Kind<DefaultValue.EmptyArray>;
  /** An empty dictionary, as `{}`. */
  readonly EmptyDictionary: Kind<DefaultValue.EmptyDictionary>;
  /** A float, as `1.5` or `NaN`. */
  readonly Float: Kind<DefaultValue.Float>;
  /** A whole number, as `-12`. */
  readonly Integer: Kind<DefaultValue.Integer>;
  /** The word `null`. */
  readonly Null: Kind<DefaultValue.Null>;
  /** A text in quotes, as `"blob"`. */
  readonly String: Kind<DefaultValue.String>;
};

/** The value of a constant, as `1.5` or `null`. */
export type ConstValue =
  | ConstValue.Boolean | ConstValue.Float | ConstValue.Integer | ConstValue.Null;
export declare namespace ConstValue {
  /** A boolean, as `true`. */
  interface Boolean extends Choice<"ConstValue", "Boolean", values.BooleanLit> {}
  /** A float, as `1.5` or `NaN`. */
  interface Float extends Choice<"ConstValue", "Float", values.FloatLit> {}
  /** A whole number, as `-12`. */
  interface Integer extends Choice<"ConstValue", "Integer", values.IntegerLit> {}
  /** The word `null`. */
  interface Null extends Choice<"ConstValue", "Null", term.Null> {}
}
export declare const ConstValue: Kind<ConstValue> & {
  /** A boolean, as `true`. */
  readonly Boolean: Kind<ConstValue.Boolean>;
  /** A float, as `1.5` or `NaN`. */
  readonly Float: Kind<ConstValue.Float>;
  /** A whole number, as `-12`. */
  readonly Integer: Kind<ConstValue.Integer>;
  /** The word `null`. */
  readonly Null: Kind<ConstValue.Null>;
};

/** The type of a constant, as `long?`. */
export type ConstType =
  | ConstType.Integer | ConstType.FloatingPoint | ConstType.Boolean | ConstType.Byte | ConstType.Octet |
  ConstType.Identifier;
export declare namespace ConstType {
  /** `short?`, `long?` or `long long?`, each also with `unsigned` in front. */
  interface Integer extends Choice<"ConstType", "Integer", values.MayBeNull<values.IntegerType>> {}
  /** `float?` or `double?`, each also with `unrestricted` in front. */
  interface FloatingPoint extends Choice<"ConstType", "FloatingPoint", values.MayBeNull<values.FloatingPointType>> {}
  /** `boolean?`. */
  interface Boolean extends Choice<"ConstType", "Boolean", values.MayBeNull<term.Boolean>> {}
  /** `byte?`. */
  interface Byte extends Choice<"ConstType", "Byte", values.MayBeNull<term.Byte>> {}
  /** `octet?`. */
  interface Octet extends Choice<"ConstType", "Octet", values.MayBeNull<term.Octet>> {}
  /** `name?`. */
  interface Identifier extends Choice<"ConstType", "Identifier", values.MayBeNull<values.Identifier>> {}
}
export declare const ConstType: Kind<ConstType> & {
  /** `short?`, `long?` or `long long?`, each also with `unsigned` in front. */
  readonly Integer: Kind<ConstType.Integer>;
  /** `float?` or `double?`, each also with `unrestricted` in front. */
  readonly FloatingPoint: Kind<ConstType.FloatingPoint>;
  /** `boolean?`. */
  readonly Boolean: Kind<ConstType.Boolean>;
  /** `byte?`. */
  readonly Byte: Kind<ConstType.Byte>;
  /** `octet?`. */
  readonly Octet: Kind<ConstType.Octet>;
  /** `name?`. */
  readonly Identifier: Kind<ConstType.Identifier>;
};

/** `float` or `unrestricted float`. */
export abstract class FloatType extends Value {
  readonly kind: "FloatType";
  /** The word `unrestricted`, where present. */
  readonly unrestricted: term.Unrestricted | null;
  /** The word `float`. */
  readonly float: term.Float;
}

/** `double` or `unrestricted double`. */
export abstract class DoubleType extends Value {
  readonly kind: "DoubleType";
  /** The word `unrestricted`, where present. */
  readonly unrestricted: term.Unrestricted | null;
  /** The word `double`. */
  readonly double: term.Double;
}

/** A type of floating point numbers, as `unrestricted double`. */
export type FloatingPointType =
  | FloatingPointType.Float | FloatingPointType.Double;
export declare namespace FloatingPointType {
  /** `unrestricted float`, also without `unrestricted`. */
  interface Float extends Choice<"FloatingPointType", "Float", values.FloatType> {}
  /** `unrestricted double`, also without `unrestricted`. */
  interface Double extends Choice<"FloatingPointType", "Double", values.DoubleType> {}
}
export declare const FloatingPointType: Kind<FloatingPointType> & {
  /** `unrestricted float`, also without `unrestricted`. */
  readonly Float: Kind<FloatingPointType.Float>;
  /** `unrestricted double`, also without `unrestricted`. */
  readonly Double: Kind<FloatingPointType.Double>;
};

/** `long long` or `unsigned long long`. */
export abstract class LongLongType extends Value {
  readonly kind: "LongLongType";
  /** The word `unsigned`, where present. */
  readonly unsigned: term.Unsigned | null;
  /** The words `long long`. */
  readonly longLong: readonly [term.Long, term.Long];
}

/** `long` or `unsigned long`. */
export abstract class LongType extends Value {
  readonly kind: "LongType";
  /** The word `unsigned`, where present. */
  readonly unsigned: term.Unsigned | null;
  /** The word `long`. */
  readonly long: term.Long;
}

/** `short` or `unsigned short`. */
export abstract class ShortType extends Value {
  readonly kind: "ShortType";
  /** The word `unsigned`, where present. */
  readonly unsigned: term.Unsigned | null;
  /** The word `short`. */
  readonly short: term.Short;
}

/** A type of integers, as `unsigned long`. */
export type IntegerType =
  | IntegerType.LongLong | IntegerType.Long | IntegerType.Short;
export declare namespace IntegerType {
  /** `unsigned long long`, also without `unsigned`. */
  interface LongLong extends Choice<"IntegerType", "LongLong", values.LongLongType> {}
  /** `unsigned long`, also without `unsigned`. */
  interface Long extends Choice<"IntegerType", "Long", values.LongType> {}
  /** `unsigned short`, also without `unsigned`. */
  interface Short extends Choice<"IntegerType", "Short", values.ShortType> {}
}
export declare const IntegerType: Kind<IntegerType> & {
  /** `unsigned long long`, also without `unsigned`. */
  readonly LongLong: Kind<IntegerType.LongLong>;
  /** `unsigned long`, also without `unsigned`. */
  readonly Long: Kind<IntegerType.Long>;
  /** `unsigned short`, also without `unsigned`. */
  readonly Short: Kind<IntegerType.Short>;
};

/** A type, and `?` where it may be null, as `long?`. */
export abstract class MayBeNull<T> extends Value {
  readonly kind: "MayBeNull";
  /** The type, as `long`. */
  readonly type: T;
  /** The `?`, where present. */
  readonly qMark: term.QMark | null;
}

/** A type, as `long`, `any` or `(long or DOMString)?`. */
export type Type =
  | Type.Single | Type.Union;
export declare namespace Type {
  /** `any`, or another type that is no union, as `long?`. */
  interface Single extends Choice<"Type", "Single", values.SingleType> {}
  /** `(type or type)?`, also without `?`. */
  interface Union extends Choice<"Type", "Union", values.MayBeNull<values.UnionType>> {}
}
export declare const Type: Kind<Type> & {
  /** `any`, or another type that is no union, as `long?`. */
  readonly Single: Kind<Type.Single>;
  /** `(type or type)?`, also without `?`. */
  readonly Union: Kind<Type.Union>;
};

/** A type that is neither `any` nor a union, as `long?`. */
export type NonAnyType =
  | NonAnyType.Promise | NonAnyType.Integer | NonAnyType.FloatingPoint | NonAnyType.Boolean | NonAnyType.Byte |
  NonAnyType.Octet | NonAnyType.ByteString | NonAnyType.DOMString | NonAnyType.USVString | NonAnyType.Sequence |
  NonAnyType.Object | NonAnyType.Symbol | NonAnyType.Error | NonAnyType.ArrayBuffer | NonAnyType.DataView |
  NonAnyType.Int8Array | NonAnyType.Int16Array | NonAnyType.Int32Array | NonAnyType.Uint8Array |
  NonAnyType.Uint16Array | NonAnyType.Uint32Array | NonAnyType.Uint8ClampedArray | NonAnyType.Float32Array |
  NonAnyType.Float64Array | NonAnyType.ArrayBufferView | NonAnyType.BufferSource | NonAnyType.FrozenArrayType |
  NonAnyType.RecordType | NonAnyType.Identifier;
export declare namespace NonAnyType {
  /** `Promise<type>`, also with `undefined` for the type. */
  interface Promise extends Choice<"NonAnyType", "Promise", values.PromiseType> {}
  /** `short?`, `long?` or `long long?`, each also with `unsigned` in front. */
  interface Integer extends Choice<"NonAnyType", "Integer", values.MayBeNull<values.IntegerType>> {}
  /** `float?` or `double?`, each also with `unrestricted` in front. */
  interface FloatingPoint extends Choice<"NonAnyType", "FloatingPoint", values.MayBeNull<values.FloatingPointType>> {}
  /** `boolean?`. */
  interface Boolean extends Choice<"NonAnyType", "Boolean", values.MayBeNull<term.Boolean>> {}
  /** `byte?`. */
  interface Byte extends Choice<"NonAnyType", "Byte", values.MayBeNull<term.Byte>> {}
  /** `octet?`. */
  interface Octet extends Choice<"NonAnyType", "Octet", values.MayBeNull<term.Octet>> {}
  /** `ByteString?`. */
  interface ByteString extends Choice<"NonAnyType", "ByteString", values.MayBeNull<term.ByteString>> {}
  /** `DOMString?`. */
  interface DOMString extends Choice<"NonAnyType", "DOMString", values.MayBeNull<term.DOMString>> {}
  /** `USVString?`. */
  interface USVString extends Choice<"NonAnyType", "USVString", values.MayBeNull<term.USVString>> {}
  /** `sequence<type>?`. */
  interface Sequence extends Choice<"NonAnyType", "Sequence", values.MayBeNull<values.SequenceType>> {}
  /** `object?`. */
  interface Object extends Choice<"NonAnyType", "Object", values.MayBeNull<term.Object>> {}
  /** `symbol?`. */
  interface Symbol extends Choice<"NonAnyType", "Symbol", values.MayBeNull<term.Symbol>> {}
  /** `Error?`. */
  interface Error extends Choice<"NonAnyType", "Error", values.MayBeNull<term.Error>> {}
  /** `ArrayBuffer?`. */
  interface ArrayBuffer extends Choice<"NonAnyType", "ArrayBuffer", values.MayBeNull<term.ArrayBuffer>> {}
  /** `DataView?`. */
  interface DataView extends Choice<"NonAnyType", "DataView", values.MayBeNull<term.DataView>> {}
  /** `Int8Array?`. */
  interface Int8Array extends Choice<"NonAnyType", "Int8Array", values.MayBeNull<term.Int8Array>> {}
  /** `Int16Array?`. */
  interface Int16Array extends Choice<"NonAnyType", "Int16Array", values.MayBeNull<term.Int16Array>> {}
  /** `Int32Array?`. */
  interface Int32Array extends Choice<"NonAnyType", "Int32Array", values.MayBeNull<term.Int32Array>> {}
  /** `Uint8Array?`. */
  interface Uint8Array extends Choice<"NonAnyType", "Uint8Array", values.MayBeNull<term.Uint8Array>> {}
  /** `Uint16Array?`. */
  interface Uint16Array extends Choice<"NonAnyType", "Uint16Array", values.MayBeNull<term.Uint16Array>> {}
  /** `Uint32Array?`. */
  interface Uint32Array extends Choice<"NonAnyType", "Uint32Array", values.MayBeNull<term.Uint32Array>> {}
  /** `Uint8ClampedArray?`. */
  interface Uint8ClampedArray extends Choice<"NonAnyType", "Uint8ClampedArray", values.MayBeNull<term.Uint8ClampedArray>> {}
  /** `Float32Array?`. */
  interface Float32Array extends Choice<"NonAnyType", "Float32Array", values.MayBeNull<term.Float32Array>> {}
  /** `Float64Array?`. */
  interface Float64Array extends Choice<"NonAnyType", "Float64Array", values.MayBeNull<term.Float64Array>> {}
  /** `ArrayBufferView?`. */
  interface ArrayBufferView extends Choice<"NonAnyType", "ArrayBufferView", values.MayBeNull<term.ArrayBufferView>> {}
  /** `BufferSource?`. */
  interface BufferSource extends Choice<"NonAnyType", "BufferSource", values.MayBeNull<term.BufferSource>> {}
  /** `FrozenArray<type>?`. */
  interface FrozenArrayType extends Choice<"NonAnyType", "FrozenArrayType", values.MayBeNull<values.FrozenArrayType>> {}
  /** `record<type, type>?`. */
  interface RecordType extends Choice<"NonAnyType", "RecordType", values.MayBeNull<values.RecordType>> {}
  /** `name?`. */
  interface Identifier extends Choice<"NonAnyType", "Identifier", values.MayBeNull<values.Identifier>> {}
}
export declare const NonAnyType: Kind<NonAnyType> & {
  /** `Promise<type>`, also with `undefined` for the type. */
  readonly Promise: Kind<NonAnyType.Promise>;
  /** `short?`, `long?` or `long long?`, each also with `unsigned` in front. */
  readonly Integer: Kind<NonAnyType.Integer>;
  /** `float?` or `double?`, each also with `unrestricted` in front. */
  readonly FloatingPoint: Kind<NonAnyType.FloatingPoint>;
  /** `boolean?`. */
  readonly Boolean: Kind<NonAnyType.Boolean>;
  /** `byte?`. */
  readonly Byte: Kind<NonAnyType.Byte>;
  /** `octet?`. */
  readonly Octet: Kind<NonAnyType.Octet>;
  /** `ByteString?`. */
  readonly ByteString: Kind<NonAnyType.ByteString>;
  /** `DOMString?`. */
  readonly DOMString: Kind<NonAnyType.DOMString>;
  /** `USVString?`. */
  readonly USVString: Kind<NonAnyType.USVString>;
  /** `sequence<type>?`. */
  readonly Sequence: Kind<NonAnyType.Sequence>;
  /** `object?`. */
  readonly Object: Kind<NonAnyType.Object>;
  /** `symbol?`. */
  readonly Symbol: Kind<NonAnyType.Symbol>;
  /** `Error?`. */
  readonly Error: Kind<NonAnyType.Error>;
  /** `ArrayBuffer?`. */
  readonly ArrayBuffer: Kind<NonAnyType.ArrayBuffer>;
  /** `DataView?`. */
  readonly DataView: Kind<NonAnyType.DataView>;
  /** `Int8Array?`. */
  readonly Int8Array: Kind<NonAnyType.Int8Array>;
  /** `Int16Array?`. */
  readonly Int16Array: Kind<NonAnyType.Int16Array>;
  /** `Int32Array?`. */
  readonly Int32Array: Kind<NonAnyType.Int32Array>;
  /** `Uint8Array?`. */
  readonly Uint8Array: Kind<NonAnyType.Uint8Array>;
  /** `Uint16Array?`. */
  readonly Uint16Array: Kind<NonAnyType.Uint16Array>;
  /** `Uint32Array?`. */
  readonly Uint32Array: Kind<NonAnyType.Uint32Array>;
  /** `Uint8ClampedArray?`. */
  readonly Uint8ClampedArray: Kind<NonAnyType.Uint8ClampedArray>;
  /** `Float32Array?`. */
  readonly Float32Array: Kind<NonAnyType.Float32Array>;
  /** `Float64Array?`. */
  readonly Float64Array: Kind<NonAnyType.Float64Array>;
  /** `ArrayBufferView?`. */
  readonly ArrayBufferView: Kind<NonAnyType.ArrayBufferView>;
  /** `BufferSource?`. */
  readonly BufferSource: Kind<NonAnyType.BufferSource>;
  /** `FrozenArray<type>?`. */
  readonly FrozenArrayType: Kind<NonAnyType.FrozenArrayType>;
  /** `record<type, type>?`. */
  readonly RecordType: Kind<NonAnyType.RecordType>;
  /** `name?`. */
  readonly Identifier: Kind<NonAnyType.Identifier>;
};

/** A member of a union, as `[Clamp] octet` or `(long or DOMString)`. */
export type UnionMemberType =
  | UnionMemberType.Single | UnionMemberType.Union;
export declare namespace UnionMemberType {
  /**
   * `[extended attributes] type`, also without `[extended attributes]`, where the type is neither `any` nor a
   * union.
   */
  interface Single extends Choice<"UnionMemberType", "Single", values.AttributedNonAnyType> {}
  /** `(type or type)?`, also without `?`. */
  interface Union extends Choice<"UnionMemberType", "Union", values.MayBeNull<values.UnionType>> {}
}
export declare const UnionMemberType: Kind<UnionMemberType> & {
  /**
   * `[extended attributes] type`, also without `[extended attributes]`, where the type is neither `any` nor a
   * union.
   */
  readonly Single: Kind<UnionMemberType.Single>;
  /** `(type or type)?`, also without `?`. */
  readonly Union: Kind<UnionMemberType.Union>;
};

/** A type with the extended attributes before it, as `[Clamp] octet`. */
export abstract class AttributedType extends Value {
  readonly kind: "AttributedType";
  /** The extended attributes in brackets, as `[Clamp]`, where present. */
  readonly attributes: ExtendedAttributeList | null;
  /** The type, as `octet`. */
  readonly type: Type;
}

/** A type that is neither `any` nor a union, with the extended attributes before it, as `[Clamp] octet`. */
export abstract class AttributedNonAnyType extends Value {
  readonly kind: "AttributedNonAnyType";
  /** The extended attributes in brackets, as `[Clamp]`, where present. */
  readonly attributes: ExtendedAttributeList | null;
  /** The type, as `octet`. */
  readonly type: NonAnyType;
}

/** A type that is no union, as `any` or `long?`. */
export type SingleType =
  | SingleType.Any | SingleType.NonAny;
export declare namespace SingleType {
  /** The word `any`. */
  interface Any extends Choice<"SingleType", "Any", term.Any> {}
  /** Any other type that is no union, as `long?`. */
  interface NonAny extends Choice<"SingleType", "NonAny", values.NonAnyType> {}
}
export declare const SingleType: Kind<SingleType> & {
  /** The word `any`. */
  readonly Any: Kind<SingleType.Any>;
  /** Any other type that is no union, as `long?`. */
  readonly NonAny: Kind<SingleType.NonAny>;
};

/** A sequence, as `sequence<long>`. */
export abstract class SequenceType extends Value {
  readonly kind: "SequenceType";
  /** The word `sequence`. */
  readonly sequence: term.Sequence;
  /** The type of its items in angle brackets, as `<long>`. */
  readonly generics: Generics<Type>;
}

/** An array that can't change, as `FrozenArray<long>`. */
export abstract class FrozenArrayType extends Value {
  readonly kind: "FrozenArrayType";
  /** The word `FrozenArray`. */
  readonly frozenArray: term.FrozenArray;
  /** The type of its items in angle brackets, as `<long>`. */
  readonly generics: Generics<Type>;
}

/** A promise, as `Promise<undefined>`. */
export abstract class PromiseType extends Value {
  readonly kind: "PromiseType";
  /** The word `Promise`. */
  readonly promise: term.Promise;
  /** The type of its result in angle brackets, as `<undefined>`. */
  readonly generics: Generics<ReturnType>;
}

/** A record, as `record<DOMString, long>`. */
export abstract class RecordType extends Value {
  readonly kind: "RecordType";
  /** The word `record`. */
  readonly record: term.Record;
  /** The types of its keys and values in angle brackets, as `<DOMString, long>`. */
  readonly generics: Generics<readonly [RecordKeyType, term.Comma, Type]>;
}

/** The type of a record's keys. */
export type RecordKeyType =
  | RecordKeyType.Byte | RecordKeyType.DOM | RecordKeyType.USV | RecordKeyType.NonAny;
export declare namespace RecordKeyType {
  /** The word `ByteString`. */
  interface Byte extends Choice<"RecordKeyType", "Byte", term.ByteString> {}
  /** The word `DOMString`. */
  interface DOM extends Choice<"RecordKeyType", "DOM", term.DOMString> {}
  /** The word `USVString`. */
  interface USV extends Choice<"RecordKeyType", "USV", term.USVString> {}
  /** Any other type that is neither `any` nor a union, as `long?`. */
  interface NonAny extends Choice<"RecordKeyType", "NonAny", values.NonAnyType> {}
}
export declare const RecordKeyType: Kind<RecordKeyType> & {
  /** The word `ByteString`. */
  readonly Byte: Kind<RecordKeyType.Byte>;
  /** The word `DOMString`. */
  readonly DOM: Kind<RecordKeyType.DOM>;
  /** The word `USVString`. */
  readonly USV: Kind<RecordKeyType.USV>;
  /** Any other type that is neither `any` nor a union, as `long?`. */
  readonly NonAny: Kind<RecordKeyType.NonAny>;
};

/** The type of a result. */
export type ReturnType =
  | ReturnType.Undefined | ReturnType.Type;
export declare namespace ReturnType {
  /** The word `undefined`. */
  interface Undefined extends Choice<"ReturnType", "Undefined", term.Undefined> {}
  /** A type, as `long`. */
  interface Type extends Choice<"ReturnType", "Type", values.Type> {}
}
export declare const ReturnType: Kind<ReturnType> & {
  /** The word `undefined`. */
  readonly Undefined: Kind<ReturnType.Undefined>;
  /** A type, as `long`. */
  readonly Type: Kind<ReturnType.Type>;
};

/** A union, as `(long or [Clamp] octet)`; `()` too. */
export type UnionType = Parenthesized<Punctuated<UnionMemberType, term.Or>>;

/** An argument, as `long x`, or `long... xs` for any number of them. */
export type Argument =
  | Argument.Single | Argument.Variadic;
export declare namespace Argument {
  /**
   * `[extended attributes] type name` or `[extended attributes] optional type name = value`, the latter also
   * without `= value`.
   */
  interface Single extends Choice<"Argument", "Single", values.SingleArgument> {}
  /** `[extended attributes] type... name`. */
  interface Variadic extends Choice<"Argument", "Variadic", values.VariadicArgument> {}
}
export declare const Argument: Kind<Argument> & {
  /**
   * `[extended attributes] type name` or `[extended attributes] optional type name = value`, the latter also
   * without `= value`.
   */
  readonly Single: Kind<Argument.Single>;
  /** `[extended attributes] type... name`. */
  readonly Variadic: Kind<Argument.Variadic>;
};

/** An argument, as `optional long x = 5`. */
export abstract class SingleArgument extends Value {
  readonly kind: "SingleArgument";
  /** The extended attributes in brackets, as `[Exposed=Window]`, where present. */
  readonly attributes: ExtendedAttributeList | null;
  /** The word `optional`, where present. */
  readonly optional: term.Optional | null;
  /** Its type, as `long`, with extended attributes of its own, as in `optional [Clamp] long x`. */
  readonly type: AttributedType;
  /** Its name. */
  readonly identifier: Identifier;
  /** Its default, as `= 5`, where present behind `optional`. */
  readonly default: Default | null;
}

/** Any number of arguments, as `long... xs`. */
export abstract class VariadicArgument extends Value {
  readonly kind: "VariadicArgument";
  /** The extended attributes in brackets, as `[Exposed=Window]`, where present. */
  readonly attributes: ExtendedAttributeList | null;
  /** Their type, as `long`, with no extended attributes of its own. */
  readonly type: Type;
  /** The `...`. */
  readonly ellipsis: term.Ellipsis;
  /** Their name. */
  readonly identifier: Identifier;
}

/** Arguments, as `long x, long y`, none included. */
export type ArgumentList = Punctuated<Argument, term.Comma>;

/** An extended attribute, as `Exposed=Window` or `Constructor(long x)`. */
export type ExtendedAttribute =
  | ExtendedAttribute.ArgList | ExtendedAttribute.NamedArgList | ExtendedAttribute.IdentList |
  ExtendedAttribute.Ident | ExtendedAttribute.NoArgs;
export declare namespace ExtendedAttribute {
  /** `name(arguments)`. */
  interface ArgList extends Choice<"ExtendedAttribute", "ArgList", values.ExtendedAttributeArgList> {}
  /** `name=name(arguments)`. */
  interface NamedArgList extends Choice<"ExtendedAttribute", "NamedArgList", values.ExtendedAttributeNamedArgList> {}
  /** `name=(names)`. */
  interface IdentList extends Choice<"ExtendedAttribute", "IdentList", values.ExtendedAttributeIdentList> {}
  /** `name=name` or `name="text"`. */
  interface Ident extends Choice<"ExtendedAttribute", "Ident", values.ExtendedAttributeIdent> {}
  /** `name`. */
  interface NoArgs extends Choice<"ExtendedAttribute", "NoArgs", values.ExtendedAttributeNoArgs> {}
}
export declare const ExtendedAttribute: Kind<ExtendedAttribute> & {
  /** `name(arguments)`. */
  readonly ArgList: Kind<ExtendedAttribute.ArgList>;
  /** `name=name(arguments)`. */
  readonly NamedArgList: Kind<ExtendedAttribute.NamedArgList>;
  /** `name=(names)`. */
  readonly IdentList: Kind<ExtendedAttribute.IdentList>;
  /** `name=name` or `name="text"`. */
  readonly Ident: Kind<ExtendedAttribute.Ident>;
  /** `name`. */
  readonly NoArgs: Kind<ExtendedAttribute.NoArgs>;
};

/** An extended attribute with arguments, as `Constructor(long x)`. */
export abstract class ExtendedAttributeArgList extends Value {
  readonly kind: "ExtendedAttributeArgList";
  /** Its name. */
  readonly identifier: Identifier;
  /** Its arguments, between parentheses. */
  readonly args: Parenthesized<ArgumentList>;
}

/** An extended attribute with a name and arguments, as `NamedConstructor=Image(long x)`. */
export abstract class ExtendedAttributeNamedArgList extends Value {
  readonly kind: "ExtendedAttributeNamedArgList";
  /** Its name, before the `=`. */
  readonly lhsIdentifier: Identifier;
  /** The `=`. */
  readonly assign: term.Assign;
  /** The name behind the `=`. */
  readonly rhsIdentifier: Identifier;
  /** Its arguments, between parentheses. */
  readonly args: Parenthesized<ArgumentList>;
}

/** An extended attribute with names, as `Exposed=(Window, Worker)`. */
export abstract class ExtendedAttributeIdentList extends Value {
  readonly kind: "ExtendedAttributeIdentList";
  /** Its name. */
  readonly identifier: Identifier;
  /** The `=`. */
  readonly assign: term.Assign;
  /** The names behind the `=`, between parentheses. */
  readonly list: Parenthesized<IdentifierList>;
}

/** An extended attribute with a name or a string, as `PutForwards=name`. */
export abstract class ExtendedAttributeIdent extends Value {
  readonly kind: "ExtendedAttributeIdent";
  /** Its name, before the `=`. */
  readonly lhsIdentifier: Identifier;
  /** The `=`. */
  readonly assign: term.Assign;
  /** The name or the string behind the `=`. */
  readonly rhs: IdentifierOrString;
}

/** An extended attribute that is a name alone, as `Replaceable`. */
export abstract class ExtendedAttributeNoArgs extends Value {
  readonly kind: "ExtendedAttributeNoArgs";
  readonly value: Identifier;
}

/** A name or a string, as `name` or `"name"`. */
export type IdentifierOrString =
  | IdentifierOrString.Identifier | IdentifierOrString.String;
export declare namespace IdentifierOrString {
  /** A name, as `name`. */
  interface Identifier extends Choice<"IdentifierOrString", "Identifier", values.Identifier> {}
  /** A text in quotes, as `"name"`. */
  interface String extends Choice<"IdentifierOrString", "String", values.StringLit> {}
}
export declare const IdentifierOrString: Kind<IdentifierOrString> & {
  /** A name, as `name`. */
  readonly Identifier: Kind<IdentifierOrString.Identifier>;
  /** A text in quotes, as `"name"`. */
  readonly String: Kind<IdentifierOrString.String>;
};

/** Extended attributes in brackets, as `[Exposed=Window, SecureContext]`; `[]` too. */
export type ExtendedAttributeList = Bracketed<Punctuated<ExtendedAttribute, term.Comma>>;

/** Names, as `Window, Worker`, none included. */
export type IdentifierList = Punctuated<Identifier, term.Comma>;

/** What an interface or a dictionary inherits from, as `: Node`. */
export abstract class Inheritance extends Value {
  readonly kind: "Inheritance";
  /** The `:`. */
  readonly colon: term.Colon;
  /** The name of what is inherited from. */
  readonly identifier: Identifier;
}

/** The word of a special operation, as `getter`. */
export type Special =
  | Special.Getter | Special.Setter | Special.Deleter | Special.LegacyCaller;
export declare namespace Special {
  /** The word `getter`. */
  interface Getter extends Choice<"Special", "Getter", term.Getter> {}
  /** The word `setter`. */
  interface Setter extends Choice<"Special", "Setter", term.Setter> {}
  /** The word `deleter`. */
  interface Deleter extends Choice<"Special", "Deleter", term.Deleter> {}
  /** The word `legacycaller`. */
  interface LegacyCaller extends Choice<"Special", "LegacyCaller", term.LegacyCaller> {}
}
export declare const Special: Kind<Special> & {
  /** The word `getter`. */
  readonly Getter: Kind<Special.Getter>;
  /** The word `setter`. */
  readonly Setter: Kind<Special.Setter>;
  /** The word `deleter`. */
  readonly Deleter: Kind<Special.Deleter>;
  /** The word `legacycaller`. */
  readonly LegacyCaller: Kind<Special.LegacyCaller>;
};

/** The word before an attribute, as `static`. */
export type StringifierOrInheritOrStatic =
  | StringifierOrInheritOrStatic.Stringifier | StringifierOrInheritOrStatic.Inherit |
  StringifierOrInheritOrStatic.Static;
export declare namespace StringifierOrInheritOrStatic {
  /** The word `stringifier`. */
  interface Stringifier extends Choice<"StringifierOrInheritOrStatic", "Stringifier", term.Stringifier> {}
  /** The word `inherit`. */
  interface Inherit extends Choice<"StringifierOrInheritOrStatic", "Inherit", term.Inherit> {}
  /** The word `static`. */
  interface Static extends Choice<"StringifierOrInheritOrStatic", "Static", term.Static> {}
}
export declare const StringifierOrInheritOrStatic: Kind<StringifierOrInheritOrStatic> & {
  /** The word `stringifier`. */
  readonly Stringifier: Kind<StringifierOrInheritOrStatic.Stringifier>;
  /** The word `inherit`. */
  readonly Inherit: Kind<StringifierOrInheritOrStatic.Inherit>;
  /** The word `static`. */
  readonly Static: Kind<StringifierOrInheritOrStatic.Static>;
};

/** The word before an operation, as `stringifier` or `static`. */
export type StringifierOrStatic =
  | StringifierOrStatic.Stringifier | StringifierOrStatic.Static;
export declare namespace StringifierOrStatic {
  /** The word `stringifier`. */
  interface Stringifier extends Choice<"StringifierOrStatic", "Stringifier", term.Stringifier> {}
  /** The word `static`. */
  interface Static extends Choice<"StringifierOrStatic", "Static", term.Static> {}
}
export declare const StringifierOrStatic: Kind<StringifierOrStatic> & {
  /** The word `stringifier`. */
  readonly Stringifier: Kind<StringifierOrStatic.Stringifier>;
  /** The word `static`. */
  readonly Static: Kind<StringifierOrStatic.Static>;
};

/** An attribute of an interface, as `static readonly attribute long x;`. */
export abstract class AttributeInterfaceMember extends Value {
  readonly kind: "AttributeInterfaceMember";
  /** The extended attributes in brackets, as `[Exposed=Window]`, where present. */
  readonly attributes: ExtendedAttributeList | null;
  /** The word `stringifier`, `inherit` or `static`, where one of them is present. */
  readonly modifier: StringifierOrInheritOrStatic | null;
  /** The word `readonly`, where present. */
  readonly readonly: term.ReadOnly | null;
  /** The word `attribute`. */
  readonly attribute: term.Attribute;
  /** Its type, as `long`, with the extended attributes before it. */
  readonly type: AttributedType;
  /** Its name. */
  readonly identifier: Identifier;
  /** The `;` at the end. */
  readonly semiColon: term.SemiColon;
}

/** A constant, as `const long X = 5;`. */
export abstract class ConstMember extends Value {
  readonly kind: "ConstMember";
  /** The extended attributes in brackets, as `[Exposed=Window]`, where present. */
  readonly attributes: ExtendedAttributeList | null;
  /** The word `const`. */
  readonly const: term.Const;
  /** Its type, as `long`. */
  readonly constType: ConstType;
  /** Its name. */
  readonly identifier: Identifier;
  /** The `=`. */
  readonly assign: term.Assign;
  /** Its value, as `5`. */
  readonly constValue: ConstValue;
  /** The `;` at the end. */
  readonly semiColon: term.SemiColon;
}

/** A constructor, as `constructor(long x);`. */
export abstract class ConstructorInterfaceMember extends Value {
  readonly kind: "ConstructorInterfaceMember";
  /** The docstring in front, where present. */
  readonly docstring: Docstring | null;
  /** The extended attributes in brackets, as `[Exposed=Window]`, where present. */
  readonly attributes: ExtendedAttributeList | null;
  /** The word `constructor`. */
  readonly constructor_: term.Constructor;
  /** Its arguments, between parentheses. */
  readonly args: Parenthesized<ArgumentList>;
  /** The `;` at the end. */
  readonly semiColon: term.SemiColon;
}

/** An operation of an interface, as `getter long item(long index);`. */
export abstract class OperationInterfaceMember extends Value {
  readonly kind: "OperationInterfaceMember";
  /** The docstring in front, where present. */
  readonly docstring: Docstring | null;
  /** The extended attributes in brackets, as `[Exposed=Window]`, where present. */
  readonly attributes: ExtendedAttributeList | null;
  /** The word `stringifier` or `static`, where one of them is present. */
  readonly modifier: StringifierOrStatic | null;
  /** The word `getter`, `setter`, `deleter` or `legacycaller`, where one of them is present. */
  readonly special: Special | null;
  /** The type of its result, as `undefined` or `long`. */
  readonly returnType: ReturnType;
  /** Its name, where it has one. */
  readonly identifier: Identifier | null;
  /** Its arguments, between parentheses. */
  readonly args: Parenthesized<ArgumentList>;
  /** The `;` at the end. */
  readonly semiColon: term.SemiColon;
}

/** A stringifier with no body, as `stringifier;`. */
export abstract class StringifierMember extends Value {
  readonly kind: "StringifierMember";
  /** The extended attributes in brackets, as `[Exposed=Window]`, where present. */
  readonly attributes: ExtendedAttributeList | null;
  /** The word `stringifier`. */
  readonly stringifier: term.Stringifier;
  /** The `;` at the end. */
  readonly semiColon: term.SemiColon;
}

/** An asynchronous iteration over values, as `async iterable<long>;`. */
export abstract class SingleTypedAsyncIterable extends Value {
  readonly kind: "SingleTypedAsyncIterable";
  /** The extended attributes in brackets, as `[Exposed=Window]`, where present. */
  readonly attributes: ExtendedAttributeList | null;
  /** The words `async` and `iterable`. */
  readonly asyncIterable: readonly [term.Async, term.Iterable];
  /** The type of its values in angle brackets, as `<long>`. */
  readonly generics: Generics<AttributedType>;
  /** The arguments between parentheses, as `(long x)`, where present. */
  readonly args: Parenthesized<ArgumentList> | null;
  /** The `;` at the end. */
  readonly semiColon: term.SemiColon;
}

/** An asynchronous iteration over pairs, as `async iterable<DOMString, long>(long x);`. */
export abstract class DoubleTypedAsyncIterable extends Value {
  readonly kind: "DoubleTypedAsyncIterable";
  /** The extended attributes in brackets, as `[Exposed=Window]`, where present. */
  readonly attributes: ExtendedAttributeList | null;
  /** The words `async` and `iterable`. */
  readonly asyncIterable: readonly [term.Async, term.Iterable];
  /** The types of its keys and values in angle brackets, as `<DOMString, long>`. */
  readonly generics: Generics<readonly [AttributedType, term.Comma, AttributedType]>;
  /** The arguments between parentheses, as `(long x)`, where present. */
  readonly args: Parenthesized<ArgumentList> | null;
  /** The `;` at the end. */
  readonly semiColon: term.SemiColon;
}

/** An asynchronous iteration over values or pairs, as `async iterable<long>;`. */
export type AsyncIterableInterfaceMember =
  | AsyncIterableInterfaceMember.Single | AsyncIterableInterfaceMember.Double;
export declare namespace AsyncIterableInterfaceMember {
  /** `[extended attributes] async iterable<type>(arguments);`, also without `(arguments)`. */
  interface Single extends Choice<"AsyncIterableInterfaceMember", "Single", values.SingleTypedAsyncIterable> {}
  /** `[extended attributes] async iterable<type, type>(arguments);`, also without `(arguments)`. */
  interface Double extends Choice<"AsyncIterableInterfaceMember", "Double", values.DoubleTypedAsyncIterable> {}
}
export declare const AsyncIterableInterfaceMember: Kind<AsyncIterableInterfaceMember> & {
  /** `[extended attributes] async iterable<type>(arguments);`, also without `(arguments)`. */
  readonly Single: Kind<AsyncIterableInterfaceMember.Single>;
  /** `[extended attributes] async iterable<type, type>(arguments);`, also without `(arguments)`. */
  readonly Double: Kind<AsyncIterableInterfaceMember.Double>;
};

/** A map, as `readonly maplike<DOMString, long>;`. */
export abstract class MaplikeInterfaceMember extends Value {
  readonly kind: "MaplikeInterfaceMember";
  /** The extended attributes in brackets, as `[Exposed=Window]`, where present. */
  readonly attributes: ExtendedAttributeList | null;
  /** The word `readonly`, where present. */
  readonly readonly: term.ReadOnly | null;
  /** The word `maplike`. */
  readonly maplike: term.Maplike;
  /** The types of its keys and values in angle brackets, as `<DOMString, long>`. */
  readonly generics: Generics<readonly [AttributedType, term.Comma, AttributedType]>;
  /** The `;` at the end. */
  readonly semiColon: term.SemiColon;
}

/** A set, as `readonly setlike<long>;`. */
export abstract class SetlikeInterfaceMember extends Value {
  readonly kind: "SetlikeInterfaceMember";
  /** The extended attributes in brackets, as `[Exposed=Window]`, where present. */
  readonly attributes: ExtendedAttributeList | null;
  /** The word `readonly`, where present. */
  readonly readonly: term.ReadOnly | null;
  /** The word `setlike`. */
  readonly setlike: term.Setlike;
  /** The type of its values in angle brackets, as `<long>`. */
  readonly generics: Generics<AttributedType>;
  /** The `;` at the end. */
  readonly semiColon: term.SemiColon;
}

/** An iteration over values, as `iterable<long>;`. */
export abstract class SingleTypedIterable extends Value {
  readonly kind: "SingleTypedIterable";
  /** The extended attributes in brackets, as `[Exposed=Window]`, where present. */
  readonly attributes: ExtendedAttributeList | null;
  /** The word `iterable`. */
  readonly iterable: term.Iterable;
  /** The type of its values in angle brackets, as `<long>`. */
  readonly generics: Generics<AttributedType>;
  /** The `;` at the end. */
  readonly semiColon: term.SemiColon;
}

/** An iteration over pairs, as `iterable<DOMString, long>;`. */
export abstract class DoubleTypedIterable extends Value {
  readonly kind: "DoubleTypedIterable";
  /** The extended attributes in brackets, as `[Exposed=Window]`, where present. */
  readonly attributes: ExtendedAttributeList | null;
  /** The word `iterable`. */
  readonly iterable: term.Iterable;
  /** The types of its keys and values in angle brackets, as `<DOMString, long>`. */
  readonly generics: Generics<readonly [AttributedType, term.Comma, AttributedType]>;
  /** The `;` at the end. */
  readonly semiColon: term.SemiColon;
}

/** An iteration over values or pairs, as `iterable<long>;`. */
export type IterableInterfaceMember =
  | IterableInterfaceMember.Single | IterableInterfaceMember.Double;
export declare namespace IterableInterfaceMember {
  /** `[extended attributes] iterable<type>;`. */
  interface Single extends Choice<"IterableInterfaceMember", "Single", values.SingleTypedIterable> {}
  /** `[extended attributes] iterable<type, type>;`. */
  interface Double extends Choice<"IterableInterfaceMember", "Double", values.DoubleTypedIterable> {}
}
export declare const IterableInterfaceMember: Kind<IterableInterfaceMember> & {
  /** `[extended attributes] iterable<type>;`. */
  readonly Single: Kind<IterableInterfaceMember.Single>;
  /** `[extended attributes] iterable<type, type>;`. */
  readonly Double: Kind<IterableInterfaceMember.Double>;
};

/** A member of an interface, as `attribute long length;`. */
export type InterfaceMember =
  | InterfaceMember.Const | InterfaceMember.Attribute | InterfaceMember.Constructor | InterfaceMember.Operation
  | InterfaceMember.Iterable | InterfaceMember.AsyncIterable | InterfaceMember.Maplike | InterfaceMember.Setlike
  | InterfaceMember.Stringifier;
export declare namespace InterfaceMember {
  /** `[extended attributes] const type name = value;`. */
  interface Const extends Choice<"InterfaceMember", "Const", values.ConstMember> {}
  /** `[extended attributes] readonly attribute type name;`, also without `readonly`. */
  interface Attribute extends Choice<"InterfaceMember", "Attribute", values.AttributeInterfaceMember> {}
  /** `docstring [extended attributes] constructor(arguments);`. */
  interface Constructor extends Choice<"InterfaceMember", "Constructor", values.ConstructorInterfaceMember> {}
  /** `docstring [extended attributes] type name(arguments);`, also without the name. */
  interface Operation extends Choice<"InterfaceMember", "Operation", values.OperationInterfaceMember> {}
  /** `[extended attributes] iterable<type>;` or `[extended attributes] iterable<type, type>;`. */
  interface Iterable extends Choice<"InterfaceMember", "Iterable", values.IterableInterfaceMember> {}
  /**
   * `[extended attributes] async iterable<type>(arguments);`, also with two types, or without `(arguments)`.
   */
  interface AsyncIterable extends Choice<"InterfaceMember", "AsyncIterable", values.AsyncIterableInterfaceMember> {}
  /** `[extended attributes] readonly maplike<type, type>;`, also without `readonly`. */
  interface Maplike extends Choice<"InterfaceMember", "Maplike", values.MaplikeInterfaceMember> {}
  /** `[extended attributes] readonly setlike<type>;`, also without `readonly`. */
  interface Setlike extends Choice<"InterfaceMember", "Setlike", values.SetlikeInterfaceMember> {}
  /** `[extended attributes] stringifier;`. */
  interface Stringifier extends Choice<"InterfaceMember", "Stringifier", values.StringifierMember> {}
}
export declare const InterfaceMember: Kind<InterfaceMember> & {
  /** `[extended attributes] const type name = value;`. */
  readonly Const: Kind<InterfaceMember.Const>;
  /** `[extended attributes] readonly attribute type name;`, also without `readonly`. */
  readonly Attribute: Kind<InterfaceMember.Attribute>;
  /** `docstring [extended attributes] constructor(arguments);`. */
  readonly Constructor: Kind<InterfaceMember.Constructor>;
  /** `docstring [extended attributes] type name(arguments);`, also without the name. */
  readonly Operation: Kind<InterfaceMember.Operation>;
  /** `[extended attributes] iterable<type>;` or `[extended attributes] iterable<type, type>;`. */
  readonly Iterable: Kind<InterfaceMember.Iterable>;
  /**
   * `[extended attributes] async iterable<type>(arguments);`, also with two types, or without `(arguments)`.
   */
  readonly AsyncIterable: Kind<InterfaceMember.AsyncIterable>;
  /** `[extended attributes] readonly maplike<type, type>;`, also without `readonly`. */
  readonly Maplike: Kind<InterfaceMember.Maplike>;
  /** `[extended attributes] readonly setlike<type>;`, also without `readonly`. */
  readonly Setlike: Kind<InterfaceMember.Setlike>;
  /** `[extended attributes] stringifier;`. */
  readonly Stringifier: Kind<InterfaceMember.Stringifier>;
};

/** The members of an interface, one after another, as `long f(); long g();`; none included. */
export type InterfaceMembers = readonly InterfaceMember[];

/** An operation of a mixin, as `stringifier long f(long x);`. */
export abstract class OperationMixinMember extends Value {
  readonly kind: "OperationMixinMember";
  /** The extended attributes in brackets, as `[Exposed=Window]`, where present. */
  readonly attributes: ExtendedAttributeList | null;
  /** The word `stringifier`, where present. */
  readonly stringifier: term.Stringifier | null;
  /** The type of its result, as `undefined` or `long`. */
  readonly returnType: ReturnType;
  /** Its name, where it has one. */
  readonly identifier: Identifier | null;
  /** Its arguments, between parentheses. */
  readonly args: Parenthesized<ArgumentList>;
  /** The `;` at the end. */
  readonly semiColon: term.SemiColon;
}

/** An attribute of a mixin, as `readonly attribute long x;`. */
export abstract class AttributeMixinMember extends Value {
  readonly kind: "AttributeMixinMember";
  /** The extended attributes in brackets, as `[Exposed=Window]`, where present. */
  readonly attributes: ExtendedAttributeList | null;
  /** The word `stringifier`, where present. */
  readonly stringifier: term.Stringifier | null;
  /** The word `readonly`, where present. */
  readonly readonly: term.ReadOnly | null;
  /** The word `attribute`. */
  readonly attribute: term.Attribute;
  /** Its type, as `long`, with the extended attributes before it. */
  readonly type: AttributedType;
  /** Its name. */
  readonly identifier: Identifier;
  /** The `;` at the end. */
  readonly semiColon: term.SemiColon;
}

/** A member of a mixin, as `readonly attribute long x;`. */
export type MixinMember =
  | MixinMember.Const | MixinMember.Operation | MixinMember.Attribute | MixinMember.Stringifier;
export declare namespace MixinMember {
  /** `[extended attributes] const type name = value;`. */
  interface Const extends Choice<"MixinMember", "Const", values.ConstMember> {}
  /** `[extended attributes] stringifier type name(arguments);`, also without `stringifier` or the name. */
  interface Operation extends Choice<"MixinMember", "Operation", values.OperationMixinMember> {}
  /**
   * `[extended attributes] stringifier readonly attribute type name;`, also without `stringifier` or
   * `readonly`.
   */
  interface Attribute extends Choice<"MixinMember", "Attribute", values.AttributeMixinMember> {}
  /** `[extended attributes] stringifier;`. */
  interface Stringifier extends Choice<"MixinMember", "Stringifier", values.StringifierMember> {}
}
export declare const MixinMember: Kind<MixinMember> & {
  /** `[extended attributes] const type name = value;`. */
  readonly Const: Kind<MixinMember.Const>;
  /** `[extended attributes] stringifier type name(arguments);`, also without `stringifier` or the name. */
  readonly Operation: Kind<MixinMember.Operation>;
  /**
   * `[extended attributes] stringifier readonly attribute type name;`, also without `stringifier` or
   * `readonly`.
   */
  readonly Attribute: Kind<MixinMember.Attribute>;
  /** `[extended attributes] stringifier;`. */
  readonly Stringifier: Kind<MixinMember.Stringifier>;
};

/** The members of a mixin, one after another, as `long f(); long g();`; none included. */
export type MixinMembers = readonly MixinMember[];

/** An operation of a namespace, as `long f(long x);`. */
export abstract class OperationNamespaceMember extends Value {
  readonly kind: "OperationNamespaceMember";
  /** The docstring in front, where present. */
  readonly docstring: Docstring | null;
  /** The extended attributes in brackets, as `[Exposed=Window]`, where present. */
  readonly attributes: ExtendedAttributeList | null;
  /** The type of its result, as `undefined` or `long`. */
  readonly returnType: ReturnType;
  /** Its name, where it has one. */
  readonly identifier: Identifier | null;
  /** Its arguments, between parentheses. */
  readonly args: Parenthesized<ArgumentList>;
  /** The `;` at the end. */
  readonly semiColon: term.SemiColon;
}

/** An attribute of a namespace, as `readonly attribute long x;`, always `readonly`. */
export abstract class AttributeNamespaceMember extends Value {
  readonly kind: "AttributeNamespaceMember";
  /** The docstring in front, where present. */
  readonly docstring: Docstring | null;
  /** The extended attributes in brackets, as `[Exposed=Window]`, where present. */
  readonly attributes: ExtendedAttributeList | null;
  /** The word `readonly`, which always is here. */
  readonly readonly: term.ReadOnly;
  /** The word `attribute`. */
  readonly attribute: term.Attribute;
  /** Its type, as `long`, with the extended attributes before it. */
  readonly type: AttributedType;
  /** Its name. */
  readonly identifier: Identifier;
  /** The `;` at the end. */
  readonly semiColon: term.SemiColon;
}

/** A member of a namespace, as `long f(long x);`. */
export type NamespaceMember =
  | NamespaceMember.Operation | NamespaceMember.Attribute;
export declare namespace NamespaceMember {
  /** `docstring [extended attributes] type name(arguments);`, also without the name. */
  interface Operation extends Choice<"NamespaceMember", "Operation", values.OperationNamespaceMember> {}
  /** `docstring [extended attributes] readonly attribute type name;`. */
  interface Attribute extends Choice<"NamespaceMember", "Attribute", values.AttributeNamespaceMember> {}
}
export declare const NamespaceMember: Kind<NamespaceMember> & {
  /** `docstring [extended attributes] type name(arguments);`, also without the name. */
  readonly Operation: Kind<NamespaceMember.Operation>;
  /** `docstring [extended attributes] readonly attribute type name;`. */
  readonly Attribute: Kind<NamespaceMember.Attribute>;
};

/** The members of a namespace, one after another, as `long f(); long g();`; none included. */
export type NamespaceMembers = readonly NamespaceMember[];

/** A member of a dictionary, as `required long x;` or `long x = 5;`. */
export abstract class DictionaryMember extends Value {
  readonly kind: "DictionaryMember";
  /** The docstring in front, where present. */
  readonly docstring: Docstring | null;
  /** The extended attributes in brackets, as `[Exposed=Window]`, where present. */
  readonly attributes: ExtendedAttributeList | null;
  /** The word `required`, where present. */
  readonly required: term.Required | null;
  /** Its type, as `long`, with no extended attributes of its own. */
  readonly type: Type;
  /** Its name. */
  readonly identifier: Identifier;
  /** Its default, as `= 5`, where present. */
  readonly default: Default | null;
  /** The `;` at the end. */
  readonly semiColon: term.SemiColon;
}

/** The members of a dictionary, one after another, as `long x; long y = 5;`; none included. */
export type DictionaryMembers = readonly DictionaryMember[];

/** A callback interface, as `callback interface A {};`. */
export abstract class CallbackInterfaceDefinition extends Value {
  readonly kind: "CallbackInterfaceDefinition";
  /** The docstring in front, where present. */
  readonly docstring: Docstring | null;
  /** The extended attributes in brackets, as `[Exposed=Window]`, where present. */
  readonly attributes: ExtendedAttributeList | null;
  /** The word `callback`. */
  readonly callback: term.Callback;
  /** The word `interface`. */
  readonly interface: term.Interface;
  /** Its name. */
  readonly identifier: Identifier;
  /** The interface that it inherits from, as `: EventTarget`, where one is named. */
  readonly inheritance: Inheritance | null;
  /** Its members, between braces. */
  readonly members: Braced<InterfaceMembers>;
  /** The `;` at the end. */
  readonly semiColon: term.SemiColon;
}

/** An interface, as `interface A : B { attribute long x; };`. */
export abstract class InterfaceDefinition extends Value {
  readonly kind: "InterfaceDefinition";
  /** The docstring in front, where present. */
  readonly docstring: Docstring | null;
  /** The extended attributes in brackets, as `[Exposed=Window]`, where present. */
  readonly attributes: ExtendedAttributeList | null;
  /** The word `interface`. */
  readonly interface: term.Interface;
  /** Its name. */
  readonly identifier: Identifier;
  /** The interface that it inherits from, as `: EventTarget`, where one is named. */
  readonly inheritance: Inheritance | null;
  /** Its members, between braces. */
  readonly members: Braced<InterfaceMembers>;
  /** The `;` at the end. */
  readonly semiColon: term.SemiColon;
}

/** A part of an interface, as `partial interface A {};`. */
export abstract class PartialInterfaceDefinition extends Value {
  readonly kind: "PartialInterfaceDefinition";
  /** The extended attributes in brackets, as `[Exposed=Window]`, where present. */
  readonly attributes: ExtendedAttributeList | null;
  /** The word `partial`. */
  readonly partial: term.Partial;
  /** The word `interface`. */
  readonly interface: term.Interface;
  /** The name of the interface that it is a part of. */
  readonly identifier: Identifier;
  /** Its members, between braces. */
  readonly members: Braced<InterfaceMembers>;
  /** The `;` at the end. */
  readonly semiColon: term.SemiColon;
}

/** A mixin, as `interface mixin A {};`. */
export abstract class InterfaceMixinDefinition extends Value {
  readonly kind: "InterfaceMixinDefinition";
  /** The extended attributes in brackets, as `[Exposed=Window]`, where present. */
  readonly attributes: ExtendedAttributeList | null;
  /** The word `interface`. */
  readonly interface: term.Interface;
  /** The word `mixin`. */
  readonly mixin: term.Mixin;
  /** Its name. */
  readonly identifier: Identifier;
  /** Its members, between braces. */
  readonly members: Braced<MixinMembers>;
  /** The `;` at the end. */
  readonly semiColon: term.SemiColon;
}

/** A part of a mixin, as `partial interface mixin A {};`. */
export abstract class PartialInterfaceMixinDefinition extends Value {
  readonly kind: "PartialInterfaceMixinDefinition";
  /** The extended attributes in brackets, as `[Exposed=Window]`, where present. */
  readonly attributes: ExtendedAttributeList | null;
  /** The word `partial`. */
  readonly partial: term.Partial;
  /** The word `interface`. */
  readonly interface: term.Interface;
  /** The word `mixin`. */
  readonly mixin: term.Mixin;
  /** The name of the mixin that it is a part of. */
  readonly identifier: Identifier;
  /** Its members, between braces. */
  readonly members: Braced<MixinMembers>;
  /** The `;` at the end. */
  readonly semiColon: term.SemiColon;
}

/** A dictionary, as `dictionary A : B { long x = 5; };`. */
export abstract class DictionaryDefinition extends Value {
  readonly kind: "DictionaryDefinition";
  /** The docstring in front, where present. */
  readonly docstring: Docstring | null;
  /** The extended attributes in brackets, as `[Exposed=Window]`, where present. */
  readonly attributes: ExtendedAttributeList | null;
  /** The word `dictionary`. */
  readonly dictionary: term.Dictionary;
  /** Its name. */
  readonly identifier: Identifier;
  /** The dictionary that it inherits from, as `: EventInit`, where one is named. */
  readonly inheritance: Inheritance | null;
  /** Its members, between braces. */
  readonly members: Braced<DictionaryMembers>;
  /** The `;` at the end. */
  readonly semiColon: term.SemiColon;
}

/** A part of a dictionary, as `partial dictionary A {};`. */
export abstract class PartialDictionaryDefinition extends Value {
  readonly kind: "PartialDictionaryDefinition";
  /** The extended attributes in brackets, as `[Exposed=Window]`, where present. */
  readonly attributes: ExtendedAttributeList | null;
  /** The word `partial`. */
  readonly partial: term.Partial;
  /** The word `dictionary`. */
  readonly dictionary: term.Dictionary;
  /** The name of the dictionary that it is a part of. */
  readonly identifier: Identifier;
  /** Its members, between braces. */
  readonly members: Braced<DictionaryMembers>;
  /** The `;` at the end. */
  readonly semiColon: term.SemiColon;
}

/** A namespace, as `namespace A { long f(); };`. */
export abstract class NamespaceDefinition extends Value {
  readonly kind: "NamespaceDefinition";
  /** The docstring in front, where present. */
  readonly docstring: Docstring | null;
  /** The extended attributes in brackets, as `[Exposed=Window]`, where present. */
  readonly attributes: ExtendedAttributeList | null;
  /** The word `namespace`. */
  readonly namespace: term.Namespace;
  /** Its name. */
  readonly identifier: Identifier;
  /** Its members, between braces. */
  readonly members: Braced<NamespaceMembers>;
  /** The `;` at the end. */
  readonly semiColon: term.SemiColon;
}

/** A part of a namespace, as `partial namespace A {};`. */
export abstract class PartialNamespaceDefinition extends Value {
  readonly kind: "PartialNamespaceDefinition";
  /** The extended attributes in brackets, as `[Exposed=Window]`, where present. */
  readonly attributes: ExtendedAttributeList | null;
  /** The word `partial`. */
  readonly partial: term.Partial;
  /** The word `namespace`. */
  readonly namespace: term.Namespace;
  /** The name of the namespace that it is a part of. */
  readonly identifier: Identifier;
  /** Its members, between braces. */
  readonly members: Braced<NamespaceMembers>;
  /** The `;` at the end. */
  readonly semiColon: term.SemiColon;
}

/** A callback, as `callback F = undefined (long x);`. */
export abstract class CallbackDefinition extends Value {
  readonly kind: "CallbackDefinition";
  /** The extended attributes in brackets, as `[Exposed=Window]`, where present. */
  readonly attributes: ExtendedAttributeList | null;
  /** The word `callback`. */
  readonly callback: term.Callback;
  /** Its name. */
  readonly identifier: Identifier;
  /** The `=`. */
  readonly assign: term.Assign;
  /** The type of its result, as `undefined` or `long`. */
  readonly returnType: ReturnType;
  /** Its arguments, between parentheses. */
  readonly arguments: Parenthesized<ArgumentList>;
  /** The `;` at the end. */
  readonly semiColon: term.SemiColon;
}

/** A value of an enum, as `"blob"`. */
export abstract class EnumVariant extends Value {
  readonly kind: "EnumVariant";
  /** The docstring in front, where present. */
  readonly docstring: Docstring | null;
  /** The value in quotes, as `"blob"`. */
  readonly value: StringLit;
}

/** An enum, as `enum A { "a", "b" };`. */
export abstract class EnumDefinition extends Value {
  readonly kind: "EnumDefinition";
  /** The docstring in front, where present. */
  readonly docstring: Docstring | null;
  /** The extended attributes in brackets, as `[Exposed=Window]`, where present. */
  readonly attributes: ExtendedAttributeList | null;
  /** The word `enum`. */
  readonly enum: term.Enum;
  /** Its name. */
  readonly identifier: Identifier;
  /** Its values, between braces. */
  readonly values: Braced<EnumValueList>;
  /** The `;` at the end. */
  readonly semiColon: term.SemiColon;
}

/** The use of a mixin by an interface, as `A includes B;`. */
export abstract class IncludesStatementDefinition extends Value {
  readonly kind: "IncludesStatementDefinition";
  /** The extended attributes in brackets, as `[Exposed=Window]`, where present. */
  readonly attributes: ExtendedAttributeList | null;
  /** The name of the interface, before `includes`. */
  readonly lhsIdentifier: Identifier;
  /** The word `includes`. */
  readonly includes: term.Includes;
  /** The name of the mixin that it uses, behind `includes`. */
  readonly rhsIdentifier: Identifier;
  /** The `;` at the end. */
  readonly semiColon: term.SemiColon;
}

/** The older form of a mixin's use, as `A implements B;`. */
export abstract class ImplementsDefinition extends Value {
  readonly kind: "ImplementsDefinition";
  /** The extended attributes in brackets, as `[Exposed=Window]`, where present. */
  readonly attributes: ExtendedAttributeList | null;
  /** The name of the interface, before `implements`. */
  readonly lhsIdentifier: Identifier;
  /** The word `implements`. */
  readonly includes: term.Implements;
  /** The name of the interface that it implements, behind `implements`. */
  readonly rhsIdentifier: Identifier;
  /** The `;` at the end. */
  readonly semiColon: term.SemiColon;
}

/** A name for a type, as `typedef long A;`. */
export abstract class TypedefDefinition extends Value {
  readonly kind: "TypedefDefinition";
  /** The extended attributes in brackets, as `[Exposed=Window]`, where present. */
  readonly attributes: ExtendedAttributeList | null;
  /** The word `typedef`. */
  readonly typedef: term.Typedef;
  /** The type that is named, as `long`, with the extended attributes before it. */
  readonly type: AttributedType;
  /** The name that the type gets. */
  readonly identifier: Identifier;
  /** The `;` at the end. */
  readonly semiColon: term.SemiColon;
}

/** A definition, as `interface A {};`. */
export type Definition =
  | Definition.Callback | Definition.CallbackInterface | Definition.Interface | Definition.InterfaceMixin |
  Definition.Namespace | Definition.Dictionary | Definition.PartialInterface | Definition.PartialInterfaceMixin
  | Definition.PartialDictionary | Definition.PartialNamespace | Definition.Enum | Definition.Typedef |
  Definition.IncludesStatement | Definition.Implements;
export declare namespace Definition {
  /** `[extended attributes] callback name = type (arguments);`. */
  interface Callback extends Choice<"Definition", "Callback", values.CallbackDefinition> {}
  /** `docstring [extended attributes] callback interface name : parent { members };`. */
  interface CallbackInterface extends Choice<"Definition", "CallbackInterface", values.CallbackInterfaceDefinition> {}
  /** `docstring [extended attributes] interface name : parent { members };`. */
  interface Interface extends Choice<"Definition", "Interface", values.InterfaceDefinition> {}
  /** `[extended attributes] interface mixin name { members };`. */
  interface InterfaceMixin extends Choice<"Definition", "InterfaceMixin", values.InterfaceMixinDefinition> {}
  /** `docstring [extended attributes] namespace name { members };`. */
  interface Namespace extends Choice<"Definition", "Namespace", values.NamespaceDefinition> {}
  /** `docstring [extended attributes] dictionary name : parent { members };`. */
  interface Dictionary extends Choice<"Definition", "Dictionary", values.DictionaryDefinition> {}
  /** `[extended attributes] partial interface name { members };`. */
  interface PartialInterface extends Choice<"Definition", "PartialInterface", values.PartialInterfaceDefinition> {}
  /** `[extended attributes] partial interface mixin name { members };`. */
  interface PartialInterfaceMixin extends Choice<"Definition", "PartialInterfaceMixin", values.PartialInterfaceMixinDefinition> {}
  /** `[extended attributes] partial dictionary name { members };`. */
  interface PartialDictionary extends Choice<"Definition", "PartialDictionary", values.PartialDictionaryDefinition> {}
  /** `[extended attributes] partial namespace name { members };`. */
  interface PartialNamespace extends Choice<"Definition", "PartialNamespace", values.PartialNamespaceDefinition> {}
  /** `docstring [extended attributes] enum name { "value", "value" };`. */
  interface Enum extends Choice<"Definition", "Enum", values.EnumDefinition> {}
  /** `[extended attributes] typedef type name;`. */
  interface Typedef extends Choice<"Definition", "Typedef", values.TypedefDefinition> {}
  /** `[extended attributes] name includes name;`. */
  interface IncludesStatement extends Choice<"Definition", "IncludesStatement", values.IncludesStatementDefinition> {}
  /** `[extended attributes] name implements name;`. */
  interface Implements extends Choice<"Definition", "Implements", values.ImplementsDefinition> {}
}
export declare const Definition: Kind<Definition> & {
  /** `[extended attributes] callback name = type (arguments);`. */
  readonly Callback: Kind<Definition.Callback>;
  /** `docstring [extended attributes] callback interface name : parent { members };`. */
  readonly CallbackInterface: Kind<Definition.CallbackInterface>;
  /** `docstring [extended attributes] interface name : parent { members };`. */
  readonly Interface: Kind<Definition.Interface>;
  /** `[extended attributes] interface mixin name { members };`. */
  readonly InterfaceMixin: Kind<Definition.InterfaceMixin>;
  /** `docstring [extended attributes] namespace name { members };`. */
  readonly Namespace: Kind<Definition.Namespace>;
  /** `docstring [extended attributes] dictionary name : parent { members };`. */
  readonly Dictionary: Kind<Definition.Dictionary>;
  /** `[extended attributes] partial interface name { members };`. */
  readonly PartialInterface: Kind<Definition.PartialInterface>;
  /** `[extended attributes] partial interface mixin name { members };`. */
  readonly PartialInterfaceMixin: Kind<Definition.PartialInterfaceMixin>;
  /** `[extended attributes] partial dictionary name { members };`. */
  readonly PartialDictionary: Kind<Definition.PartialDictionary>;
  /** `[extended attributes] partial namespace name { members };`. */
  readonly PartialNamespace: Kind<Definition.PartialNamespace>;
  /** `docstring [extended attributes] enum name { "value", "value" };`. */
  readonly Enum: Kind<Definition.Enum>;
  /** `[extended attributes] typedef type name;`. */
  readonly Typedef: Kind<Definition.Typedef>;
  /** `[extended attributes] name includes name;`. */
  readonly IncludesStatement: Kind<Definition.IncludesStatement>;
  /** `[extended attributes] name implements name;`. */
  readonly Implements: Kind<Definition.Implements>;
};

/** The values of an enum, one at least, and a comma behind the last where present, as `"a", "b",`. */
export type EnumValueList = PunctuatedNonEmpty<EnumVariant, term.Comma>;

/** Definitions one after another, as `interface A {}; interface B {};`. */
export type Definitions = readonly Definition[];
