/*
 * The typed tree: literals, types, arguments, extended attributes, members and definitions.
 *
 * Written by tools/write/javascript_types.py, and not edited by hand.
 */

"use strict";

const {
  Choice, Decimal, DecimalChoice, FilledList, Leaf, Lines, Listed, Name, Truth, Value, Whole, WholeChoice,
  Wrapped, part,
} = require("../value.js");

/** A body in parentheses, as `(a, b)`. */
class Parenthesized extends Value {
  static fields = {
    openParen: "open_paren",
    body: "body",
    closeParen: "close_paren",
  };

  get openParen() {
    return part(this, 0);
  }

  get body() {
    return part(this, 1);
  }

  get closeParen() {
    return part(this, 2);
  }
}

/** A body in square brackets, as `[Exposed]`. */
class Bracketed extends Value {
  static fields = {
    openBracket: "open_bracket",
    body: "body",
    closeBracket: "close_bracket",
  };

  get openBracket() {
    return part(this, 0);
  }

  get body() {
    return part(this, 1);
  }

  get closeBracket() {
    return part(this, 2);
  }
}

/** A body in braces, as `{ .. }`. */
class Braced extends Value {
  static fields = {
    openBrace: "open_brace",
    body: "body",
    closeBrace: "close_brace",
  };

  get openBrace() {
    return part(this, 0);
  }

  get body() {
    return part(this, 1);
  }

  get closeBrace() {
    return part(this, 2);
  }
}

/** A body in angle brackets, as `<long>`. */
class Generics extends Value {
  static fields = {
    openAngle: "open_angle",
    body: "body",
    closeAngle: "close_angle",
  };

  get openAngle() {
    return part(this, 0);
  }

  get body() {
    return part(this, 1);
  }

  get closeAngle() {
    return part(this, 2);
  }
}

/** The text of a docstring. */
class Docstring extends Lines {}

/** A name, as `Window`, kept without the underscore that may be before it, as in `_interface`. */
class Identifier extends Name {
  static kept = 2;
}

/** Items with a separator between each two, as `a, b`; none included. */
class Punctuated extends Listed {}

/**
 * Items with a separator between each two, one item at least, and one further separator where present, as `a,
 * b,`.
 */
class PunctuatedNonEmpty extends FilledList {}

/** A default, as `= 5` behind an argument's name. */
class Default extends Value {
  static fields = {
    assign: "assign",
    value: "value",
  };

  get assign() {
    return part(this, 0);
  }

  get value() {
    return part(this, 1);
  }
}

/** The word `true` or `false`. */
class BooleanLit extends Truth {}

/** An empty list, as `[ ]`. */
class EmptyArrayLit extends Value {
  static fields = {
    openBracket: "open_bracket",
    closeBracket: "close_bracket",
  };

  get openBracket() {
    return part(this, 0);
  }

  get closeBracket() {
    return part(this, 1);
  }
}

/** An empty dictionary, as `{ }`. */
class EmptyDictionaryLit extends Value {
  static fields = {
    openBrace: "open_brace",
    closeBrace: "close_brace",
  };

  get openBrace() {
    return part(this, 0);
  }

  get closeBrace() {
    return part(this, 1);
  }
}

/** A number with a point or an exponent, as `-.5E+3`, `5.` or `1e3`. */
class FloatValueLit extends Decimal {
  static kept = 1;
}

/** A float, as `-.5E+3` or `-Infinity`. */
class FloatLit extends DecimalChoice {
  static Value = this.variant("Value");
  static NegInfinity = this.variant("NegInfinity");
  static Infinity = this.variant("Infinity");
  static NaN = this.variant("NaN");
}

/** A decimal number, as `-12`. */
class DecLit extends Whole {
  static kept = 1;
}

/** A hexadecimal number, as `-0x1F`. */
class HexLit extends Whole {
  static kept = 1;
}

/** An octal number, as `-017` or `0`. */
class OctLit extends Whole {
  static kept = 1;
  static prefix = "0o";
}

/** A whole number, as `-12`, `0x1F` or `017`. */
class IntegerLit extends WholeChoice {
  static Dec = this.variant("Dec");
  static Hex = this.variant("Hex");
  static Oct = this.variant("Oct");
}

/** A text in quotes, as `"blob"`. */
class StringLit extends Leaf {
  static kept = 2;
}

/** The value of a default, as `"blob"` or `[]`. */
class DefaultValue extends Choice {
  static Boolean = this.variant("Boolean");
  static EmptyArray = this.variant("EmptyArray");
  static EmptyDictionary = this.variant("EmptyDictionary");
  static Float = this.variant("Float");
  static Integer = this.variant("Integer");
  static Null = this.variant("Null");
  static String = this.variant("String");
}

/** The value of a constant, as `1.5` or `null`. */
class ConstValue extends Choice {
  static Boolean = this.variant("Boolean");
  static Float = this.variant("Float");
  static Integer = this.variant("Integer");
  static Null = this.variant("Null");
}

/** The type of a constant, as `long?`. */
class ConstType extends Choice {
  static Integer = this.variant("Integer");
  static FloatingPoint = this.variant("FloatingPoint");
  static Boolean = this.variant("Boolean");
  static Byte = this.variant("Byte");
  static Octet = this.variant("Octet");
  static Identifier = this.variant("Identifier");
}

/** `float` or `unrestricted float`. */
class FloatType extends Value {
  static fields = {
    unrestricted: "unrestricted",
    float: "float",
  };

  get unrestricted() {
    return part(this, 0);
  }

  get float() {
    return part(this, 1);
  }
}

/** `double` or `unrestricted double`. */
class DoubleType extends Value {
  static fields = {
    unrestricted: "unrestricted",
    double: "double",
  };

  get unrestricted() {
    return part(this, 0);
  }

  get double() {
    return part(this, 1);
  }
}

/** A type of floating point numbers, as `unrestricted double`. */
class FloatingPointType extends Choice {
  static Float = this.variant("Float");
  static Double = this.variant("Double");
}

/** `long long` or `unsigned long long`. */
class LongLongType extends Value {
  static fields = {
    unsigned: "unsigned",
    longLong: "long_long",
  };

  get unsigned() {
    return part(this, 0);
  }

  get longLong() {
    return part(this, 1);
  }
}

/** `long` or `unsigned long`. */
class LongType extends Value {
  static fields = {
    unsigned: "unsigned",
    long: "long",
  };

  get unsigned() {
    return part(this, 0);
  }

  get long() {
    return part(this, 1);
  }
}

/** `short` or `unsigned short`. */
class ShortType extends Value {
  static fields = {
    unsigned: "unsigned",
    short: "short",
  };

  get unsigned() {
    return part(this, 0);
  }

  get short() {
    return part(this, 1);
  }
}

/** A type of integers, as `unsigned long`. */
class IntegerType extends Choice {
  static LongLong = this.variant("LongLong");
  static Long = this.variant("Long");
  static Short = this.variant("Short");
}

/** A type, and `?` where it may be null, as `long?`. */
class MayBeNull extends Value {
  static fields = {
    type: "type_",
    qMark: "q_mark",
  };

  get type() {
    return part(this, 0);
  }

  get qMark() {
    return part(this, 1);
  }
}

/** A type, as `long`, `any` or `(long or DOMString)?`. */
class Type extends Choice {
  static Single = this.variant("Single");
  static Union = this.variant("Union");
}

/** A type that is neither `any` nor a union, as `long?`. */
class NonAnyType extends Choice {
  static Promise = this.variant("Promise");
  static Integer = this.variant("Integer");
  static FloatingPoint = this.variant("FloatingPoint");
  static Boolean = this.variant("Boolean");
  static Byte = this.variant("Byte");
  static Octet = this.variant("Octet");
  static ByteString = this.variant("ByteString");
  static DOMString = this.variant("DOMString");
  static USVString = this.variant("USVString");
  static Sequence = this.variant("Sequence");
  static Object = this.variant("Object");
  static Symbol = this.variant("Symbol");
  static Error = this.variant("Error");
  static ArrayBuffer = this.variant("ArrayBuffer");
  static DataView = this.variant("DataView");
  static Int8Array = this.variant("Int8Array");
  static Int16Array = this.variant("Int16Array");
  static Int32Array = this.variant("Int32Array");
  static Uint8Array = this.variant("Uint8Array");
  static Uint16Array = this.variant("Uint16Array");
  static Uint32Array = this.variant("Uint32Array");
  static Uint8ClampedArray = this.variant("Uint8ClampedArray");
  static Float32Array = this.variant("Float32Array");
  static Float64Array = this.variant("Float64Array");
  static ArrayBufferView = this.variant("ArrayBufferView");
  static BufferSource = this.variant("BufferSource");
  static FrozenArrayType = this.variant("FrozenArrayType");
  static RecordType = this.variant("RecordType");
  static Identifier = this.variant("Identifier");
}

/** A member of a union, as `[Clamp] octet` or `(long or DOMString)`. */
class UnionMemberType extends Choice {
  static Single = this.variant("Single");
  static Union = this.variant("Union");
}

/** A type with the extended attributes before it, as `[Clamp] octet`. */
class AttributedType extends Value {
  static fields = {
    attributes: "attributes",
    type: "type_",
  };

  get attributes() {
    return part(this, 0);
  }

  get type() {
    return part(this, 1);
  }
}

/** A type that is neither `any` nor a union, with the extended attributes before it, as `[Clamp] octet`. */
class AttributedNonAnyType extends Value {
  static fields = {
    attributes: "attributes",
    type: "type_",
  };

  get attributes() {
    return part(this, 0);
  }

  get type() {
    return part(this, 1);
  }
}

/** A type that is no union, as `any` or `long?`. */
class SingleType extends Choice {
  static Any = this.variant("Any");
  static NonAny = this.variant("NonAny");
}

/** A sequence, as `sequence<long>`. */
class SequenceType extends Value {
  static fields = {
    sequence: "sequence",
    generics: "generics",
  };

  get sequence() {
    return part(this, 0);
  }

  get generics() {
    return part(this, 1);
  }
}

/** An array that can't change, as `FrozenArray<long>`. */
class FrozenArrayType extends Value {
  static fields = {
    frozenArray: "frozen_array",
    generics: "generics",
  };

  get frozenArray() {
    return part(this, 0);
  }

  get generics() {
    return part(this, 1);
  }
}

/** A promise, as `Promise<undefined>`. */
class PromiseType extends Value {
  static fields = {
    promise: "promise",
    generics: "generics",
  };

  get promise() {
    return part(this, 0);
  }

  get generics() {
    return part(this, 1);
  }
}

/** A record, as `record<DOMString, long>`. */
class RecordType extends Value {
  static fields = {
    record: "record_",
    generics: "generics",
  };

  get record() {
    return part(this, 0);
  }

  get generics() {
    return part(this, 1);
  }
}

/** The type of a record's keys. */
class RecordKeyType extends Choice {
  static Byte = this.variant("Byte");
  static DOM = this.variant("DOM");
  static USV = this.variant("USV");
  static NonAny = this.variant("NonAny");
}

/** The type of a result. */
class ReturnType extends Choice {
  static Undefined = this.variant("Undefined");
  static Type = this.variant("Type", "Type_");
}

/** An argument, as `long x`, or `long... xs` for any number of them. */
class Argument extends Choice {
  static Single = this.variant("Single");
  static Variadic = this.variant("Variadic");
}

/** An argument, as `optional long x = 5`. */
class SingleArgument extends Value {
  static fields = {
    attributes: "attributes",
    optional: "optional",
    type: "type_",
    identifier: "identifier",
    default: "default",
  };

  get attributes() {
    return part(this, 0);
  }

  get optional() {
    return part(this, 1);
  }

  get type() {
    return part(this, 2);
  }

  get identifier() {
    return part(this, 3);
  }

  get default() {
    return part(this, 4);
  }
}

/** Any number of arguments, as `long... xs`. */
class VariadicArgument extends Value {
  static fields = {
    attributes: "attributes",
    type: "type_",
    ellipsis: "ellipsis",
    identifier: "identifier",
  };

  get attributes() {
    return part(this, 0);
  }

  get type() {
    return part(this, 1);
  }

  get ellipsis() {
    return part(this, 2);
  }

  get identifier() {
    return part(this, 3);
  }
}

/** An extended attribute, as `Exposed=Window` or `Constructor(long x)`. */
class ExtendedAttribute extends Choice {
  static ArgList = this.variant("ArgList");
  static NamedArgList = this.variant("NamedArgList");
  static IdentList = this.variant("IdentList");
  static Ident = this.variant("Ident");
  static NoArgs = this.variant("NoArgs");
}

/** An extended attribute with arguments, as `Constructor(long x)`. */
class ExtendedAttributeArgList extends Value {
  static fields = {
    identifier: "identifier",
    args: "args",
  };

  get identifier() {
    return part(this, 0);
  }

  get args() {
    return part(this, 1);
  }
}

/** An extended attribute with a name and arguments, as `NamedConstructor=Image(long x)`. */
class ExtendedAttributeNamedArgList extends Value {
  static fields = {
    lhsIdentifier: "lhs_identifier",
    assign: "assign",
    rhsIdentifier: "rhs_identifier",
    args: "args",
  };

  get lhsIdentifier() {
    return part(this, 0);
  }

  get assign() {
    return part(this, 1);
  }

  get rhsIdentifier() {
    return part(this, 2);
  }

  get args() {
    return part(this, 3);
  }
}

/** An extended attribute with names, as `Exposed=(Window, Worker)`. */
class ExtendedAttributeIdentList extends Value {
  static fields = {
    identifier: "identifier",
    assign: "assign",
    list: "list",
  };

  get identifier() {
    return part(this, 0);
  }

  get assign() {
    return part(this, 1);
  }

  get list() {
    return part(this, 2);
  }
}

/** An extended attribute with a name or a string, as `PutForwards=name`. */
class ExtendedAttributeIdent extends Value {
  static fields = {
    lhsIdentifier: "lhs_identifier",
    assign: "assign",
    rhs: "rhs",
  };

  get lhsIdentifier() {
    return part(this, 0);
  }

  get assign() {
    return part(this, 1);
  }

  get rhs() {
    return part(this, 2);
  }
}

/** An extended attribute that is a name alone, as `Replaceable`. */
class ExtendedAttributeNoArgs extends Wrapped {}

/** A name or a string, as `name` or `"name"`. */
class IdentifierOrString extends Choice {
  static Identifier = this.variant("Identifier");
  static String = this.variant("String");
}

/** What an interface or a dictionary inherits from, as `: Node`. */
class Inheritance extends Value {
  static fields = {
    colon: "colon",
    identifier: "identifier",
  };

  get colon() {
    return part(this, 0);
  }

  get identifier() {
    return part(this, 1);
  }
}

/** The word of a special operation, as `getter`. */
class Special extends Choice {
  static Getter = this.variant("Getter");
  static Setter = this.variant("Setter");
  static Deleter = this.variant("Deleter");
  static LegacyCaller = this.variant("LegacyCaller");
}

/** The word before an attribute, as `static`. */
class StringifierOrInheritOrStatic extends Choice {
  static Stringifier = this.variant("Stringifier");
  static Inherit = this.variant("Inherit");
  static Static = this.variant("Static");
}

/** The word before an operation, as `stringifier` or `static`. */
class StringifierOrStatic extends Choice {
  static Stringifier = this.variant("Stringifier");
  static Static = this.variant("Static");
}

/** An attribute of an interface, as `static readonly attribute long x;`. */
class AttributeInterfaceMember extends Value {
  static fields = {
    attributes: "attributes",
    modifier: "modifier",
    readonly: "readonly",
    attribute: "attribute",
    type: "type_",
    identifier: "identifier",
    semiColon: "semi_colon",
  };

  get attributes() {
    return part(this, 0);
  }

  get modifier() {
    return part(this, 1);
  }

  get readonly() {
    return part(this, 2);
  }

  get attribute() {
    return part(this, 3);
  }

  get type() {
    return part(this, 4);
  }

  get identifier() {
    return part(this, 5);
  }

  get semiColon() {
    return part(this, 6);
  }
}

/** A constant, as `const long X = 5;`. */
class ConstMember extends Value {
  static fields = {
    attributes: "attributes",
    const: "const_",
    constType: "const_type",
    identifier: "identifier",
    assign: "assign",
    constValue: "const_value",
    semiColon: "semi_colon",
  };

  get attributes() {
    return part(this, 0);
  }

  get const() {
    return part(this, 1);
  }

  get constType() {
    return part(this, 2);
  }

  get identifier() {
    return part(this, 3);
  }

  get assign() {
    return part(this, 4);
  }

  get constValue() {
    return part(this, 5);
  }

  get semiColon() {
    return part(this, 6);
  }
}

/** A constructor, as `constructor(long x);`. */
class ConstructorInterfaceMember extends Value {
  static fields = {
    docstring: "docstring",
    attributes: "attributes",
    constructor_: "constructor",
    args: "args",
    semiColon: "semi_colon",
  };

  get docstring() {
    return part(this, 0);
  }

  get attributes() {
    return part(this, 1);
  }

  get constructor_() {
    return part(this, 2);
  }

  get args() {
    return part(this, 3);
  }

  get semiColon() {
    return part(this, 4);
  }
}

/** An operation of an interface, as `getter long item(long index);`. */
class OperationInterfaceMember extends Value {
  static fields = {
    docstring: "docstring",
    attributes: "attributes",
    modifier: "modifier",
    special: "special",
    returnType: "return_type",
    identifier: "identifier",
    args: "args",
    semiColon: "semi_colon",
  };

  get docstring() {
    return part(this, 0);
  }

  get attributes() {
    return part(this, 1);
  }

  get modifier() {
    return part(this, 2);
  }

  get special() {
    return part(this, 3);
  }

  get returnType() {
    return part(this, 4);
  }

  get identifier() {
    return part(this, 5);
  }

  get args() {
    return part(this, 6);
  }

  get semiColon() {
    return part(this, 7);
  }
}

/** A stringifier with no body, as `stringifier;`. */
class StringifierMember extends Value {
  static fields = {
    attributes: "attributes",
    stringifier: "stringifier",
    semiColon: "semi_colon",
  };

  get attributes() {
    return part(this, 0);
  }

  get stringifier() {
    return part(this, 1);
  }

  get semiColon() {
    return part(this, 2);
  }
}

/** An asynchronous iteration over values, as `async iterable<long>;`. */
class SingleTypedAsyncIterable extends Value {
  static fields = {
    attributes: "attributes",
    asyncIterable: "async_iterable",
    generics: "generics",
    args: "args",
    semiColon: "semi_colon",
  };

  get attributes() {
    return part(this, 0);
  }

  get asyncIterable() {
    return part(this, 1);
  }

  get generics() {
    return part(this, 2);
  }

  get args() {
    return part(this, 3);
  }

  get semiColon() {
    return part(this, 4);
  }
}

/** An asynchronous iteration over pairs, as `async iterable<DOMString, long>(long x);`. */
class DoubleTypedAsyncIterable extends Value {
  static fields = {
    attributes: "attributes",
    asyncIterable: "async_iterable",
    generics: "generics",
    args: "args",
    semiColon: "semi_colon",
  };

  get attributes() {
    return part(this, 0);
  }

  get asyncIterable() {
    return part(this, 1);
  }

  get generics() {
    return part(this, 2);
  }

  get args() {
    return part(this, 3);
  }

  get semiColon() {
    return part(this, 4);
  }
}

/** An asynchronous iteration over values or pairs, as `async iterable<long>;`. */
class AsyncIterableInterfaceMember extends Choice {
  static Single = this.variant("Single");
  static Double = this.variant("Double");
}

/** A map, as `readonly maplike<DOMString, long>;`. */
class MaplikeInterfaceMember extends Value {
  static fields = {
    attributes: "attributes",
    readonly: "readonly",
    maplike: "maplike",
    generics: "generics",
    semiColon: "semi_colon",
  };

  get attributes() {
    return part(this, 0);
  }

  get readonly() {
    return part(this, 1);
  }

  get maplike() {
    return part(this, 2);
  }

  get generics() {
    return part(this, 3);
  }

  get semiColon() {
    return part(this, 4);
  }
}

/** A set, as `readonly setlike<long>;`. */
class SetlikeInterfaceMember extends Value {
  static fields = {
    attributes: "attributes",
    readonly: "readonly",
    setlike: "setlike",
    generics: "generics",
    semiColon: "semi_colon",
  };

  get attributes() {
    return part(this, 0);
  }

  get readonly() {
    return part(this, 1);
  }

  get setlike() {
    return part(this, 2);
  }

  get generics() {
    return part(this, 3);
  }

  get semiColon() {
    return part(this, 4);
  }
}

/** An iteration over values, as `iterable<long>;`. */
class SingleTypedIterable extends Value {
  static fields = {
    attributes: "attributes",
    iterable: "iterable",
    generics: "generics",
    semiColon: "semi_colon",
  };

  get attributes() {
    return part(this, 0);
  }

  get iterable() {
    return part(this, 1);
  }

  get generics() {
    return part(this, 2);
  }

  get semiColon() {
    return part(this, 3);
  }
}

/** An iteration over pairs, as `iterable<DOMString, long>;`. */
class DoubleTypedIterable extends Value {
  static fields = {
    attributes: "attributes",
    iterable: "iterable",
    generics: "generics",
    semiColon: "semi_colon",
  };

  get attributes() {
    return part(this, 0);
  }

  get iterable() {
    return part(this, 1);
  }

  get generics() {
    return part(this, 2);
  }

  get semiColon() {
    return part(this, 3);
  }
}

/** An iteration over values or pairs, as `iterable<long>;`. */
class IterableInterfaceMember extends Choice {
  static Single = this.variant("Single");
  static Double = this.variant("Double");
}

/** A member of an interface, as `attribute long length;`. */
class InterfaceMember extends Choice {
  static Const = this.variant("Const");
  static Attribute = this.variant("Attribute");
  static Constructor = this.variant("Constructor");
  static Operation = this.variant("Operation");
  static Iterable = this.variant("Iterable");
  static AsyncIterable = this.variant("AsyncIterable");
  static Maplike = this.variant("Maplike");
  static Setlike = this.variant("Setlike");
  static Stringifier = this.variant("Stringifier");
}

/** An operation of a mixin, as `stringifier long f(long x);`. */
class OperationMixinMember extends Value {
  static fields = {
    attributes: "attributes",
    stringifier: "stringifier",
    returnType: "return_type",
    identifier: "identifier",
    args: "args",
    semiColon: "semi_colon",
  };

  get attributes() {
    return part(this, 0);
  }

  get stringifier() {
    return part(this, 1);
  }

  get returnType() {
    return part(this, 2);
  }

  get identifier() {
    return part(this, 3);
  }

  get args() {
    return part(this, 4);
  }

  get semiColon() {
    return part(this, 5);
  }
}

/** An attribute of a mixin, as `readonly attribute long x;`. */
class AttributeMixinMember extends Value {
  static fields = {
    attributes: "attributes",
    stringifier: "stringifier",
    readonly: "readonly",
    attribute: "attribute",
    type: "type_",
    identifier: "identifier",
    semiColon: "semi_colon",
  };

  get attributes() {
    return part(this, 0);
  }

  get stringifier() {
    return part(this, 1);
  }

  get readonly() {
    return part(this, 2);
  }

  get attribute() {
    return part(this, 3);
  }

  get type() {
    return part(this, 4);
  }

  get identifier() {
    return part(this, 5);
  }

  get semiColon() {
    return part(this, 6);
  }
}

/** A member of a mixin, as `readonly attribute long x;`. */
class MixinMember extends Choice {
  static Const = this.variant("Const");
  static Operation = this.variant("Operation");
  static Attribute = this.variant("Attribute");
  static Stringifier = this.variant("Stringifier");
}

/** An operation of a namespace, as `long f(long x);`. */
class OperationNamespaceMember extends Value {
  static fields = {
    docstring: "docstring",
    attributes: "attributes",
    returnType: "return_type",
    identifier: "identifier",
    args: "args",
    semiColon: "semi_colon",
  };

  get docstring() {
    return part(this, 0);
  }

  get attributes() {
    return part(this, 1);
  }

  get returnType() {
    return part(this, 2);
  }

  get identifier() {
    return part(this, 3);
  }

  get args() {
    return part(this, 4);
  }

  get semiColon() {
    return part(this, 5);
  }
}

/** An attribute of a namespace, as `readonly attribute long x;`, always `readonly`. */
class AttributeNamespaceMember extends Value {
  static fields = {
    docstring: "docstring",
    attributes: "attributes",
    readonly: "readonly",
    attribute: "attribute",
    type: "type_",
    identifier: "identifier",
    semiColon: "semi_colon",
  };

  get docstring() {
    return part(this, 0);
  }

  get attributes() {
    return part(this, 1);
  }

  get readonly() {
    return part(this, 2);
  }

  get attribute() {
    return part(this, 3);
  }

  get type() {
    return part(this, 4);
  }

  get identifier() {
    return part(this, 5);
  }

  get semiColon() {
    return part(this, 6);
  }
}

/** A member of a namespace, as `long f(long x);`. */
class NamespaceMember extends Choice {
  static Operation = this.variant("Operation");
  static Attribute = this.variant("Attribute");
}

/** A member of a dictionary, as `required long x;` or `long x = 5;`. */
class DictionaryMember extends Value {
  static fields = {
    docstring: "docstring",
    attributes: "attributes",
    required: "required",
    type: "type_",
    identifier: "identifier",
    default: "default",
    semiColon: "semi_colon",
  };

  get docstring() {
    return part(this, 0);
  }

  get attributes() {
    return part(this, 1);
  }

  get required() {
    return part(this, 2);
  }

  get type() {
    return part(this, 3);
  }

  get identifier() {
    return part(this, 4);
  }

  get default() {
    return part(this, 5);
  }

  get semiColon() {
    return part(this, 6);
  }
}

/** A callback interface, as `callback interface A {};`. */
class CallbackInterfaceDefinition extends Value {
  static fields = {
    docstring: "docstring",
    attributes: "attributes",
    callback: "callback",
    interface: "interface",
    identifier: "identifier",
    inheritance: "inheritance",
    members: "members",
    semiColon: "semi_colon",
  };

  get docstring() {
    return part(this, 0);
  }

  get attributes() {
    return part(this, 1);
  }

  get callback() {
    return part(this, 2);
  }

  get interface() {
    return part(this, 3);
  }

  get identifier() {
    return part(this, 4);
  }

  get inheritance() {
    return part(this, 5);
  }

  get members() {
    return part(this, 6);
  }

  get semiColon() {
    return part(this, 7);
  }
}

/** An interface, as `interface A : B { attribute long x; };`. */
class InterfaceDefinition extends Value {
  static fields = {
    docstring: "docstring",
    attributes: "attributes",
    interface: "interface",
    identifier: "identifier",
    inheritance: "inheritance",
    members: "members",
    semiColon: "semi_colon",
  };

  get docstring() {
    return part(this, 0);
  }

  get attributes() {
    return part(this, 1);
  }

  get interface() {
    return part(this, 2);
  }

  get identifier() {
    return part(this, 3);
  }

  get inheritance() {
    return part(this, 4);
  }

  get members() {
    return part(this, 5);
  }

  get semiColon() {
    return part(this, 6);
  }
}

/** A part of an interface, as `partial interface A {};`. */
class PartialInterfaceDefinition extends Value {
  static fields = {
    attributes: "attributes",
    partial: "partial",
    interface: "interface",
    identifier: "identifier",
    members: "members",
    semiColon: "semi_colon",
  };

  get attributes() {
    return part(this, 0);
  }

  get partial() {
    return part(this, 1);
  }

  get interface() {
    return part(this, 2);
  }

  get identifier() {
    return part(this, 3);
  }

  get members() {
    return part(this, 4);
  }

  get semiColon() {
    return part(this, 5);
  }
}

/** A mixin, as `interface mixin A {};`. */
class InterfaceMixinDefinition extends Value {
  static fields = {
    attributes: "attributes",
    interface: "interface",
    mixin: "mixin",
    identifier: "identifier",
    members: "members",
    semiColon: "semi_colon",
  };

  get attributes() {
    return part(this, 0);
  }

  get interface() {
    return part(this, 1);
  }

  get mixin() {
    return part(this, 2);
  }

  get identifier() {
    return part(this, 3);
  }

  get members() {
    return part(this, 4);
  }

  get semiColon() {
    return part(this, 5);
  }
}

/** A part of a mixin, as `partial interface mixin A {};`. */
class PartialInterfaceMixinDefinition extends Value {
  static fields = {
    attributes: "attributes",
    partial: "partial",
    interface: "interface",
    mixin: "mixin",
    identifier: "identifier",
    members: "members",
    semiColon: "semi_colon",
  };

  get attributes() {
    return part(this, 0);
  }

  get partial() {
    return part(this, 1);
  }

  get interface() {
    return part(this, 2);
  }

  get mixin() {
    return part(this, 3);
  }

  get identifier() {
    return part(this, 4);
  }

  get members() {
    return part(this, 5);
  }

  get semiColon() {
    return part(this, 6);
  }
}

/** A dictionary, as `dictionary A : B { long x = 5; };`. */
class DictionaryDefinition extends Value {
  static fields = {
    docstring: "docstring",
    attributes: "attributes",
    dictionary: "dictionary",
    identifier: "identifier",
    inheritance: "inheritance",
    members: "members",
    semiColon: "semi_colon",
  };

  get docstring() {
    return part(this, 0);
  }

  get attributes() {
    return part(this, 1);
  }

  get dictionary() {
    return part(this, 2);
  }

  get identifier() {
    return part(this, 3);
  }

  get inheritance() {
    return part(this, 4);
  }

  get members() {
    return part(this, 5);
  }

  get semiColon() {
    return part(this, 6);
  }
}

/** A part of a dictionary, as `partial dictionary A {};`. */
class PartialDictionaryDefinition extends Value {
  static fields = {
    attributes: "attributes",
    partial: "partial",
    dictionary: "dictionary",
    identifier: "identifier",
    members: "members",
    semiColon: "semi_colon",
  };

  get attributes() {
    return part(this, 0);
  }

  get partial() {
    return part(this, 1);
  }

  get dictionary() {
    return part(this, 2);
  }

  get identifier() {
    return part(this, 3);
  }

  get members() {
    return part(this, 4);
  }

  get semiColon() {
    return part(this, 5);
  }
}

/** A namespace, as `namespace A { long f(); };`. */
class NamespaceDefinition extends Value {
  static fields = {
    docstring: "docstring",
    attributes: "attributes",
    namespace: "namespace",
    identifier: "identifier",
    members: "members",
    semiColon: "semi_colon",
  };

  get docstring() {
    return part(this, 0);
  }

  get attributes() {
    return part(this, 1);
  }

  get namespace() {
    return part(this, 2);
  }

  get identifier() {
    return part(this, 3);
  }

  get members() {
    return part(this, 4);
  }

  get semiColon() {
    return part(this, 5);
  }
}

/** A part of a namespace, as `partial namespace A {};`. */
class PartialNamespaceDefinition extends Value {
  static fields = {
    attributes: "attributes",
    partial: "partial",
    namespace: "namespace",
    identifier: "identifier",
    members: "members",
    semiColon: "semi_colon",
  };

  get attributes() {
    return part(this, 0);
  }

  get partial() {
    return part(this, 1);
  }

  get namespace() {
    return part(this, 2);
  }

  get identifier() {
    return part(this, 3);
  }

  get members() {
    return part(this, 4);
  }

  get semiColon() {
    return part(this, 5);
  }
}

/** A callback, as `callback F = undefined (long x);`. */
class CallbackDefinition extends Value {
  static fields = {
    attributes: "attributes",
    callback: "callback",
    identifier: "identifier",
    assign: "assign",
    returnType: "return_type",
    arguments: "arguments",
    semiColon: "semi_colon",
  };

  get attributes() {
    return part(this, 0);
  }

  get callback() {
    return part(this, 1);
  }

  get identifier() {
    return part(this, 2);
  }

  get assign() {
    return part(this, 3);
  }

  get returnType() {
    return part(this, 4);
  }

  get arguments() {
    return part(this, 5);
  }

  get semiColon() {
    return part(this, 6);
  }
}

/** A value of an enum, as `"blob"`. */
class EnumVariant extends Value {
  static fields = {
    docstring: "docstring",
    value: "value",
  };

  get docstring() {
    return part(this, 0);
  }

  get value() {
    return part(this, 1);
  }
}

/** An enum, as `enum A { "a", "b" };`. */
class EnumDefinition extends Value {
  static fields = {
    docstring: "docstring",
    attributes: "attributes",
    enum: "enum_",
    identifier: "identifier",
    values: "values",
    semiColon: "semi_colon",
  };

  get docstring() {
    return part(this, 0);
  }

  get attributes() {
    return part(this, 1);
  }

  get enum() {
    return part(this, 2);
  }

  get identifier() {
    return part(this, 3);
  }

  get values() {
    return part(this, 4);
  }

  get semiColon() {
    return part(this, 5);
  }
}

/** The use of a mixin by an interface, as `A includes B;`. */
class IncludesStatementDefinition extends Value {
  static fields = {
    attributes: "attributes",
    lhsIdentifier: "lhs_identifier",
    includes: "includes",
    rhsIdentifier: "rhs_identifier",
    semiColon: "semi_colon",
  };

  get attributes() {
    return part(this, 0);
  }

  get lhsIdentifier() {
    return part(this, 1);
  }

  get includes() {
    return part(this, 2);
  }

  get rhsIdentifier() {
    return part(this, 3);
  }

  get semiColon() {
    return part(this, 4);
  }
}

/** The older form of a mixin's use, as `A implements B;`. */
class ImplementsDefinition extends Value {
  static fields = {
    attributes: "attributes",
    lhsIdentifier: "lhs_identifier",
    includes: "includes",
    rhsIdentifier: "rhs_identifier",
    semiColon: "semi_colon",
  };

  get attributes() {
    return part(this, 0);
  }

  get lhsIdentifier() {
    return part(this, 1);
  }

  get includes() {
    return part(this, 2);
  }

  get rhsIdentifier() {
    return part(this, 3);
  }

  get semiColon() {
    return part(this, 4);
  }
}

/** A name for a type, as `typedef long A;`. */
class TypedefDefinition extends Value {
  static fields = {
    attributes: "attributes",
    typedef: "typedef",
    type: "type_",
    identifier: "identifier",
    semiColon: "semi_colon",
  };

  get attributes() {
    return part(this, 0);
  }

  get typedef() {
    return part(this, 1);
  }

  get type() {
    return part(this, 2);
  }

  get identifier() {
    return part(this, 3);
  }

  get semiColon() {
    return part(this, 4);
  }
}

/** A definition, as `interface A {};`. */
class Definition extends Choice {
  static Callback = this.variant("Callback");
  static CallbackInterface = this.variant("CallbackInterface");
  static Interface = this.variant("Interface");
  static InterfaceMixin = this.variant("InterfaceMixin");
  static Namespace = this.variant("Namespace");
  static Dictionary = this.variant("Dictionary");
  static PartialInterface = this.variant("PartialInterface");
  static PartialInterfaceMixin = this.variant("PartialInterfaceMixin");
  static PartialDictionary = this.variant("PartialDictionary");
  static PartialNamespace = this.variant("PartialNamespace");
  static Enum = this.variant("Enum");
  static Typedef = this.variant("Typedef");
  static IncludesStatement = this.variant("IncludesStatement");
  static Implements = this.variant("Implements");
}

module.exports = {
  Argument,
  AsyncIterableInterfaceMember,
  AttributeInterfaceMember,
  AttributeMixinMember,
  AttributeNamespaceMember,
  AttributedNonAnyType,
  AttributedType,
  BooleanLit,
  Braced,
  Bracketed,
  CallbackDefinition,
  CallbackInterfaceDefinition,
  ConstMember,
  ConstType,
  ConstValue,
  ConstructorInterfaceMember,
  DecLit,
  Default,
  DefaultValue,
  Definition,
  DictionaryDefinition,
  DictionaryMember,
  Docstring,
  DoubleType,
  DoubleTypedAsyncIterable,
  DoubleTypedIterable,
  EmptyArrayLit,
  EmptyDictionaryLit,
  EnumDefinition,
  EnumVariant,
  ExtendedAttribute,
  ExtendedAttributeArgList,
  ExtendedAttributeIdent,
  ExtendedAttributeIdentList,
  ExtendedAttributeNamedArgList,
  ExtendedAttributeNoArgs,
  FloatLit,
  FloatType,
  FloatValueLit,
  FloatingPointType,
  FrozenArrayType,
  Generics,
  HexLit,
  Identifier,
  IdentifierOrString,
  ImplementsDefinition,
  IncludesStatementDefinition,
  Inheritance,
  IntegerLit,
  IntegerType,
  InterfaceDefinition,
  InterfaceMember,
  InterfaceMixinDefinition,
  IterableInterfaceMember,
  LongLongType,
  LongType,
  MaplikeInterfaceMember,
  MayBeNull,
  MixinMember,
  NamespaceDefinition,
  NamespaceMember,
  NonAnyType,
  OctLit,
  OperationInterfaceMember,
  OperationMixinMember,
  OperationNamespaceMember,
  Parenthesized,
  PartialDictionaryDefinition,
  PartialInterfaceDefinition,
  PartialInterfaceMixinDefinition,
  PartialNamespaceDefinition,
  PromiseType,
  Punctuated,
  PunctuatedNonEmpty,
  RecordKeyType,
  RecordType,
  ReturnType,
  SequenceType,
  SetlikeInterfaceMember,
  ShortType,
  SingleArgument,
  SingleType,
  SingleTypedAsyncIterable,
  SingleTypedIterable,
  Special,
  StringLit,
  StringifierMember,
  StringifierOrInheritOrStatic,
  StringifierOrStatic,
  Type,
  TypedefDefinition,
  UnionMemberType,
  VariadicArgument,
};
