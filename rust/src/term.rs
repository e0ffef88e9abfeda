//! Terminals: the words and signs of the grammar.
//!
//! Written by tools/write/rust_types.py, and not edited by hand.

/// The keyword `ByteString`, with the trivia around it.
#[derive(Clone, Copy, Debug, Default, PartialEq, Eq, PartialOrd, Ord, Hash)]
pub struct ByteString;

terminal!(ByteString = BYTE_STRING);

/// The keyword `DOMString`, with the trivia around it.
#[derive(Clone, Copy, Debug, Default, PartialEq, Eq, PartialOrd, Ord, Hash)]
pub struct DOMString;

terminal!(DOMString = DOM_STRING);

/// The keyword `FrozenArray`, with the trivia around it.
#[derive(Clone, Copy, Debug, Default, PartialEq, Eq, PartialOrd, Ord, Hash)]
pub struct FrozenArray;

terminal!(FrozenArray = FROZEN_ARRAY);

/// The keyword `Infinity`, with the trivia around it.
#[derive(Clone, Copy, Debug, Default, PartialEq, Eq, PartialOrd, Ord, Hash)]
pub struct Infinity;

terminal!(Infinity = INFINITY);

/// The keyword `NaN`, with the trivia around it.
#[derive(Clone, Copy, Debug, Default, PartialEq, Eq, PartialOrd, Ord, Hash)]
pub struct NaN;

terminal!(NaN = NAN);

/// The keyword `USVString`, with the trivia around it.
#[derive(Clone, Copy, Debug, Default, PartialEq, Eq, PartialOrd, Ord, Hash)]
pub struct USVString;

terminal!(USVString = USV_STRING);

/// The keyword `ArrayBuffer`, with the trivia around it.
#[derive(Clone, Copy, Debug, Default, PartialEq, Eq, PartialOrd, Ord, Hash)]
pub struct ArrayBuffer;

terminal!(ArrayBuffer = ARRAY_BUFFER);

/// The keyword `DataView`, with the trivia around it.
#[derive(Clone, Copy, Debug, Default, PartialEq, Eq, PartialOrd, Ord, Hash)]
pub struct DataView;

terminal!(DataView = DATA_VIEW);

/// The keyword `Int8Array`, with the trivia around it.
#[derive(Clone, Copy, Debug, Default, PartialEq, Eq, PartialOrd, Ord, Hash)]
pub struct Int8Array;

terminal!(Int8Array = INT8_ARRAY);

/// The keyword `Int16Array`, with the trivia around it.
#[derive(Clone, Copy, Debug, Default, PartialEq, Eq, PartialOrd, Ord, Hash)]
pub struct Int16Array;

terminal!(Int16Array = INT16_ARRAY);

/// The keyword `Int32Array`, with the trivia around it.
#[derive(Clone, Copy, Debug, Default, PartialEq, Eq, PartialOrd, Ord, Hash)]
pub struct Int32Array;

terminal!(Int32Array = INT32_ARRAY);

/// The keyword `Uint8Array`, with the trivia around it.
#[derive(Clone, Copy, Debug, Default, PartialEq, Eq, PartialOrd, Ord, Hash)]
pub struct Uint8Array;

terminal!(Uint8Array = UINT8_ARRAY);

/// The keyword `Uint16Array`, with the trivia around it.
#[derive(Clone, Copy, Debug, Default, PartialEq, Eq, PartialOrd, Ord, Hash)]
pub struct Uint16Array;

terminal!(Uint16Array = UINT16_ARRAY);

/// The keyword `Uint32Array`, with the trivia around it.
#[derive(Clone, Copy, Debug, Default, PartialEq, Eq, PartialOrd, Ord, Hash)]
pub struct Uint32Array;

terminal!(Uint32Array = UINT32_ARRAY);

/// The keyword `Uint8ClampedArray`, with the trivia around it.
#[derive(Clone, Copy, Debug, Default, PartialEq, Eq, PartialOrd, Ord, Hash)]
pub struct Uint8ClampedArray;

terminal!(Uint8ClampedArray = UINT8_CLAMPED_ARRAY);

/// The keyword `Float32Array`, with the trivia around it.
#[derive(Clone, Copy, Debug, Default, PartialEq, Eq, PartialOrd, Ord, Hash)]
pub struct Float32Array;

terminal!(Float32Array = FLOAT32_ARRAY);

/// The keyword `Float64Array`, with the trivia around it.
#[derive(Clone, Copy, Debug, Default, PartialEq, Eq, PartialOrd, Ord, Hash)]
pub struct Float64Array;

terminal!(Float64Array = FLOAT64_ARRAY);

/// The keyword `ArrayBufferView`, with the trivia around it.
#[derive(Clone, Copy, Debug, Default, PartialEq, Eq, PartialOrd, Ord, Hash)]
pub struct ArrayBufferView;

terminal!(ArrayBufferView = ARRAY_BUFFER_VIEW);

/// The keyword `BufferSource`, with the trivia around it.
#[derive(Clone, Copy, Debug, Default, PartialEq, Eq, PartialOrd, Ord, Hash)]
pub struct BufferSource;

terminal!(BufferSource = BUFFER_SOURCE);

/// The keyword `Promise`, with the trivia around it.
#[derive(Clone, Copy, Debug, Default, PartialEq, Eq, PartialOrd, Ord, Hash)]
pub struct Promise;

terminal!(Promise = PROMISE);

/// The keyword `Error`, with the trivia around it.
#[derive(Clone, Copy, Debug, Default, PartialEq, Eq, PartialOrd, Ord, Hash)]
pub struct Error;

terminal!(Error = ERROR);

/// The keyword `-Infinity`, with the trivia around it.
#[derive(Clone, Copy, Debug, Default, PartialEq, Eq, PartialOrd, Ord, Hash)]
pub struct NegInfinity;

terminal!(NegInfinity = NEG_INFINITY);

/// The keyword `async`, with the trivia around it.
#[derive(Clone, Copy, Debug, Default, PartialEq, Eq, PartialOrd, Ord, Hash)]
pub struct Async;

terminal!(Async = ASYNC);

/// The keyword `attribute`, with the trivia around it.
#[derive(Clone, Copy, Debug, Default, PartialEq, Eq, PartialOrd, Ord, Hash)]
pub struct Attribute;

terminal!(Attribute = ATTRIBUTE);

/// The keyword `callback`, with the trivia around it.
#[derive(Clone, Copy, Debug, Default, PartialEq, Eq, PartialOrd, Ord, Hash)]
pub struct Callback;

terminal!(Callback = CALLBACK);

/// The keyword `const`, with the trivia around it.
#[derive(Clone, Copy, Debug, Default, PartialEq, Eq, PartialOrd, Ord, Hash)]
pub struct Const;

terminal!(Const = CONST);

/// The keyword `deleter`, with the trivia around it.
#[derive(Clone, Copy, Debug, Default, PartialEq, Eq, PartialOrd, Ord, Hash)]
pub struct Deleter;

terminal!(Deleter = DELETER);

/// The keyword `dictionary`, with the trivia around it.
#[derive(Clone, Copy, Debug, Default, PartialEq, Eq, PartialOrd, Ord, Hash)]
pub struct Dictionary;

terminal!(Dictionary = DICTIONARY);

/// The keyword `enum`, with the trivia around it.
#[derive(Clone, Copy, Debug, Default, PartialEq, Eq, PartialOrd, Ord, Hash)]
pub struct Enum;

terminal!(Enum = ENUM);

/// The keyword `getter`, with the trivia around it.
#[derive(Clone, Copy, Debug, Default, PartialEq, Eq, PartialOrd, Ord, Hash)]
pub struct Getter;

terminal!(Getter = GETTER);

/// The keyword `includes`, with the trivia around it.
#[derive(Clone, Copy, Debug, Default, PartialEq, Eq, PartialOrd, Ord, Hash)]
pub struct Includes;

terminal!(Includes = INCLUDES);

/// The keyword `inherit`, with the trivia around it.
#[derive(Clone, Copy, Debug, Default, PartialEq, Eq, PartialOrd, Ord, Hash)]
pub struct Inherit;

terminal!(Inherit = INHERIT);

/// The keyword `interface`, with the trivia around it.
#[derive(Clone, Copy, Debug, Default, PartialEq, Eq, PartialOrd, Ord, Hash)]
pub struct Interface;

terminal!(Interface = INTERFACE);

/// The keyword `iterable`, with the trivia around it.
#[derive(Clone, Copy, Debug, Default, PartialEq, Eq, PartialOrd, Ord, Hash)]
pub struct Iterable;

terminal!(Iterable = ITERABLE);

/// The keyword `maplike`, with the trivia around it.
#[derive(Clone, Copy, Debug, Default, PartialEq, Eq, PartialOrd, Ord, Hash)]
pub struct Maplike;

terminal!(Maplike = MAPLIKE);

/// The keyword `namespace`, with the trivia around it.
#[derive(Clone, Copy, Debug, Default, PartialEq, Eq, PartialOrd, Ord, Hash)]
pub struct Namespace;

terminal!(Namespace = NAMESPACE);

/// The keyword `partial`, with the trivia around it.
#[derive(Clone, Copy, Debug, Default, PartialEq, Eq, PartialOrd, Ord, Hash)]
pub struct Partial;

terminal!(Partial = PARTIAL);

/// The keyword `required`, with the trivia around it.
#[derive(Clone, Copy, Debug, Default, PartialEq, Eq, PartialOrd, Ord, Hash)]
pub struct Required;

terminal!(Required = REQUIRED);

/// The keyword `setlike`, with the trivia around it.
#[derive(Clone, Copy, Debug, Default, PartialEq, Eq, PartialOrd, Ord, Hash)]
pub struct Setlike;

terminal!(Setlike = SETLIKE);

/// The keyword `setter`, with the trivia around it.
#[derive(Clone, Copy, Debug, Default, PartialEq, Eq, PartialOrd, Ord, Hash)]
pub struct Setter;

terminal!(Setter = SETTER);

/// The keyword `static`, with the trivia around it.
#[derive(Clone, Copy, Debug, Default, PartialEq, Eq, PartialOrd, Ord, Hash)]
pub struct Static;

terminal!(Static = STATIC);

/// The keyword `stringifier`, with the trivia around it.
#[derive(Clone, Copy, Debug, Default, PartialEq, Eq, PartialOrd, Ord, Hash)]
pub struct Stringifier;

terminal!(Stringifier = STRINGIFIER);

/// The keyword `typedef`, with the trivia around it.
#[derive(Clone, Copy, Debug, Default, PartialEq, Eq, PartialOrd, Ord, Hash)]
pub struct Typedef;

terminal!(Typedef = TYPEDEF);

/// The keyword `readonly`, with the trivia around it.
#[derive(Clone, Copy, Debug, Default, PartialEq, Eq, PartialOrd, Ord, Hash)]
pub struct ReadOnly;

terminal!(ReadOnly = READ_ONLY);

/// The keyword `mixin`, with the trivia around it.
#[derive(Clone, Copy, Debug, Default, PartialEq, Eq, PartialOrd, Ord, Hash)]
pub struct Mixin;

terminal!(Mixin = MIXIN);

/// The keyword `implements`, with the trivia around it.
#[derive(Clone, Copy, Debug, Default, PartialEq, Eq, PartialOrd, Ord, Hash)]
pub struct Implements;

terminal!(Implements = IMPLEMENTS);

/// The keyword `legacycaller`, with the trivia around it.
#[derive(Clone, Copy, Debug, Default, PartialEq, Eq, PartialOrd, Ord, Hash)]
pub struct LegacyCaller;

terminal!(LegacyCaller = LEGACY_CALLER);

/// The keyword `constructor`, with the trivia around it.
#[derive(Clone, Copy, Debug, Default, PartialEq, Eq, PartialOrd, Ord, Hash)]
pub struct Constructor;

terminal!(Constructor = CONSTRUCTOR);

/// The symbol `(`, with the trivia around it.
#[derive(Clone, Copy, Debug, Default, PartialEq, Eq, PartialOrd, Ord, Hash)]
pub struct OpenParen;

terminal!(OpenParen = OPEN_PAREN);

/// The symbol `)`, with the trivia around it.
#[derive(Clone, Copy, Debug, Default, PartialEq, Eq, PartialOrd, Ord, Hash)]
pub struct CloseParen;

terminal!(CloseParen = CLOSE_PAREN);

/// The symbol `[`, with the trivia around it.
#[derive(Clone, Copy, Debug, Default, PartialEq, Eq, PartialOrd, Ord, Hash)]
pub struct OpenBracket;

terminal!(OpenBracket = OPEN_BRACKET);

/// The symbol `]`, with the trivia around it.
#[derive(Clone, Copy, Debug, Default, PartialEq, Eq, PartialOrd, Ord, Hash)]
pub struct CloseBracket;

terminal!(CloseBracket = CLOSE_BRACKET);

/// The symbol `{`, with the trivia around it.
#[derive(Clone, Copy, Debug, Default, PartialEq, Eq, PartialOrd, Ord, Hash)]
pub struct OpenBrace;

terminal!(OpenBrace = OPEN_BRACE);

/// The symbol `}`, with the trivia around it.
#[derive(Clone, Copy, Debug, Default, PartialEq, Eq, PartialOrd, Ord, Hash)]
pub struct CloseBrace;

terminal!(CloseBrace = CLOSE_BRACE);

/// The symbol `,`, with the trivia around it.
#[derive(Clone, Copy, Debug, Default, PartialEq, Eq, PartialOrd, Ord, Hash)]
pub struct Comma;

terminal!(Comma = COMMA);

/// The symbol `-`, with the trivia around it.
#[derive(Clone, Copy, Debug, Default, PartialEq, Eq, PartialOrd, Ord, Hash)]
pub struct Minus;

terminal!(Minus = MINUS);

/// The symbol `.`, with the trivia around it.
#[derive(Clone, Copy, Debug, Default, PartialEq, Eq, PartialOrd, Ord, Hash)]
pub struct Dot;

terminal!(Dot = DOT);

/// The symbol `...`, with the trivia around it.
#[derive(Clone, Copy, Debug, Default, PartialEq, Eq, PartialOrd, Ord, Hash)]
pub struct Ellipsis;

terminal!(Ellipsis = ELLIPSIS);

/// The symbol `:`, with the trivia around it.
#[derive(Clone, Copy, Debug, Default, PartialEq, Eq, PartialOrd, Ord, Hash)]
pub struct Colon;

terminal!(Colon = COLON);

/// The symbol `;`, with the trivia around it.
#[derive(Clone, Copy, Debug, Default, PartialEq, Eq, PartialOrd, Ord, Hash)]
pub struct SemiColon;

terminal!(SemiColon = SEMI_COLON);

/// The symbol `<`, with the trivia around it.
#[derive(Clone, Copy, Debug, Default, PartialEq, Eq, PartialOrd, Ord, Hash)]
pub struct LessThan;

terminal!(LessThan = LESS_THAN);

/// The symbol `=`, with the trivia around it.
#[derive(Clone, Copy, Debug, Default, PartialEq, Eq, PartialOrd, Ord, Hash)]
pub struct Assign;

terminal!(Assign = ASSIGN);

/// The symbol `>`, with the trivia around it.
#[derive(Clone, Copy, Debug, Default, PartialEq, Eq, PartialOrd, Ord, Hash)]
pub struct GreaterThan;

terminal!(GreaterThan = GREATER_THAN);

/// The symbol `?`, with the trivia around it.
#[derive(Clone, Copy, Debug, Default, PartialEq, Eq, PartialOrd, Ord, Hash)]
pub struct QMark;

terminal!(QMark = Q_MARK);

/// The keyword `or`, with the trivia around it.
#[derive(Clone, Copy, Debug, Default, PartialEq, Eq, PartialOrd, Ord, Hash)]
pub struct Or;

terminal!(Or = OR);

/// The keyword `optional`, with the trivia around it.
#[derive(Clone, Copy, Debug, Default, PartialEq, Eq, PartialOrd, Ord, Hash)]
pub struct Optional;

terminal!(Optional = OPTIONAL);

/// The keyword `unrestricted`, with the trivia around it.
#[derive(Clone, Copy, Debug, Default, PartialEq, Eq, PartialOrd, Ord, Hash)]
pub struct Unrestricted;

terminal!(Unrestricted = UNRESTRICTED);

/// The keyword `symbol`, with the trivia around it.
#[derive(Clone, Copy, Debug, Default, PartialEq, Eq, PartialOrd, Ord, Hash)]
pub struct Symbol;

terminal!(Symbol = SYMBOL);

/// The keyword `any`, with the trivia around it.
#[derive(Clone, Copy, Debug, Default, PartialEq, Eq, PartialOrd, Ord, Hash)]
pub struct Any;

terminal!(Any = ANY);

/// The keyword `boolean`, with the trivia around it.
#[derive(Clone, Copy, Debug, Default, PartialEq, Eq, PartialOrd, Ord, Hash)]
pub struct Boolean;

terminal!(Boolean = BOOLEAN);

/// The keyword `byte`, with the trivia around it.
#[derive(Clone, Copy, Debug, Default, PartialEq, Eq, PartialOrd, Ord, Hash)]
pub struct Byte;

terminal!(Byte = BYTE);

/// The keyword `double`, with the trivia around it.
#[derive(Clone, Copy, Debug, Default, PartialEq, Eq, PartialOrd, Ord, Hash)]
pub struct Double;

terminal!(Double = DOUBLE);

/// The keyword `false`, with the trivia around it.
#[derive(Clone, Copy, Debug, Default, PartialEq, Eq, PartialOrd, Ord, Hash)]
pub struct False;

terminal!(False = FALSE);

/// The keyword `float`, with the trivia around it.
#[derive(Clone, Copy, Debug, Default, PartialEq, Eq, PartialOrd, Ord, Hash)]
pub struct Float;

terminal!(Float = FLOAT);

/// The keyword `long`, with the trivia around it.
#[derive(Clone, Copy, Debug, Default, PartialEq, Eq, PartialOrd, Ord, Hash)]
pub struct Long;

terminal!(Long = LONG);

/// The keyword `null`, with the trivia around it.
#[derive(Clone, Copy, Debug, Default, PartialEq, Eq, PartialOrd, Ord, Hash)]
pub struct Null;

terminal!(Null = NULL);

/// The keyword `object`, with the trivia around it.
#[derive(Clone, Copy, Debug, Default, PartialEq, Eq, PartialOrd, Ord, Hash)]
pub struct Object;

terminal!(Object = OBJECT);

/// The keyword `octet`, with the trivia around it.
#[derive(Clone, Copy, Debug, Default, PartialEq, Eq, PartialOrd, Ord, Hash)]
pub struct Octet;

terminal!(Octet = OCTET);

/// The keyword `sequence`, with the trivia around it.
#[derive(Clone, Copy, Debug, Default, PartialEq, Eq, PartialOrd, Ord, Hash)]
pub struct Sequence;

terminal!(Sequence = SEQUENCE);

/// The keyword `short`, with the trivia around it.
#[derive(Clone, Copy, Debug, Default, PartialEq, Eq, PartialOrd, Ord, Hash)]
pub struct Short;

terminal!(Short = SHORT);

/// The keyword `true`, with the trivia around it.
#[derive(Clone, Copy, Debug, Default, PartialEq, Eq, PartialOrd, Ord, Hash)]
pub struct True;

terminal!(True = TRUE);

/// The keyword `unsigned`, with the trivia around it.
#[derive(Clone, Copy, Debug, Default, PartialEq, Eq, PartialOrd, Ord, Hash)]
pub struct Unsigned;

terminal!(Unsigned = UNSIGNED);

/// The keyword `undefined`, with the trivia around it.
#[derive(Clone, Copy, Debug, Default, PartialEq, Eq, PartialOrd, Ord, Hash)]
pub struct Undefined;

terminal!(Undefined = UNDEFINED);

/// The keyword `record`, with the trivia around it.
#[derive(Clone, Copy, Debug, Default, PartialEq, Eq, PartialOrd, Ord, Hash)]
pub struct Record;

terminal!(Record = RECORD);

/// The type of a terminal, as `term!(interface)` or `term!(;)`; that of a bracket by its name, as
/// `term!(OpenParen)`. It is a value of the type too.
#[macro_export]
macro_rules! term {
    (OpenParen) => {
        $crate::term::OpenParen
    };
    (CloseParen) => {
        $crate::term::CloseParen
    };
    (OpenBracket) => {
        $crate::term::OpenBracket
    };
    (CloseBracket) => {
        $crate::term::CloseBracket
    };
    (OpenBrace) => {
        $crate::term::OpenBrace
    };
    (CloseBrace) => {
        $crate::term::CloseBrace
    };
    (,) => {
        $crate::term::Comma
    };
    (-) => {
        $crate::term::Minus
    };
    (.) => {
        $crate::term::Dot
    };
    (...) => {
        $crate::term::Ellipsis
    };
    (:) => {
        $crate::term::Colon
    };
    (;) => {
        $crate::term::SemiColon
    };
    (<) => {
        $crate::term::LessThan
    };
    (=) => {
        $crate::term::Assign
    };
    (>) => {
        $crate::term::GreaterThan
    };
    (?) => {
        $crate::term::QMark
    };
    (or) => {
        $crate::term::Or
    };
    (optional) => {
        $crate::term::Optional
    };
    (async) => {
        $crate::term::Async
    };
    (attribute) => {
        $crate::term::Attribute
    };
    (callback) => {
        $crate::term::Callback
    };
    (const) => {
        $crate::term::Const
    };
    (deleter) => {
        $crate::term::Deleter
    };
    (dictionary) => {
        $crate::term::Dictionary
    };
    (enum) => {
        $crate::term::Enum
    };
    (getter) => {
        $crate::term::Getter
    };
    (includes) => {
        $crate::term::Includes
    };
    (inherit) => {
        $crate::term::Inherit
    };
    (interface) => {
        $crate::term::Interface
    };
    (iterable) => {
        $crate::term::Iterable
    };
    (maplike) => {
        $crate::term::Maplike
    };
    (namespace) => {
        $crate::term::Namespace
    };
    (partial) => {
        $crate::term::Partial
    };
    (required) => {
        $crate::term::Required
    };
    (setlike) => {
        $crate::term::Setlike
    };
    (setter) => {
        $crate::term::Setter
    };
    (static) => {
        $crate::term::Static
    };
    (stringifier) => {
        $crate::term::Stringifier
    };
    (typedef) => {
        $crate::term::Typedef
    };
    (unrestricted) => {
        $crate::term::Unrestricted
    };
    (symbol) => {
        $crate::term::Symbol
    };
    (any) => {
        $crate::term::Any
    };
    (boolean) => {
        $crate::term::Boolean
    };
    (byte) => {
        $crate::term::Byte
    };
    (double) => {
        $crate::term::Double
    };
    (false) => {
        $crate::term::False
    };
    (float) => {
        $crate::term::Float
    };
    (long) => {
        $crate::term::Long
    };
    (null) => {
        $crate::term::Null
    };
    (object) => {
        $crate::term::Object
    };
    (octet) => {
        $crate::term::Octet
    };
    (sequence) => {
        $crate::term::Sequence
    };
    (short) => {
        $crate::term::Short
    };
    (true) => {
        $crate::term::True
    };
    (unsigned) => {
        $crate::term::Unsigned
    };
    (undefined) => {
        $crate::term::Undefined
    };
    (record) => {
        $crate::term::Record
    };
    (readonly) => {
        $crate::term::ReadOnly
    };
    (mixin) => {
        $crate::term::Mixin
    };
    (implements) => {
        $crate::term::Implements
    };
    (legacycaller) => {
        $crate::term::LegacyCaller
    };
    (constructor) => {
        $crate::term::Constructor
    };
    (ByteString) => {
        $crate::term::ByteString
    };
    (DOMString) => {
        $crate::term::DOMString
    };
    (FrozenArray) => {
        $crate::term::FrozenArray
    };
    (Infinity) => {
        $crate::term::Infinity
    };
    (NaN) => {
        $crate::term::NaN
    };
    (USVString) => {
        $crate::term::USVString
    };
    (ArrayBuffer) => {
        $crate::term::ArrayBuffer
    };
    (DataView) => {
        $crate::term::DataView
    };
    (Int8Array) => {
        $crate::term::Int8Array
    };
    (Int16Array) => {
        $crate::term::Int16Array
    };
    (Int32Array) => {
        $crate::term::Int32Array
    };
    (Uint8Array) => {
        $crate::term::Uint8Array
    };
    (Uint16Array) => {
        $crate::term::Uint16Array
    };
    (Uint32Array) => {
        $crate::term::Uint32Array
    };
    (Uint8ClampedArray) => {
        $crate::term::Uint8ClampedArray
    };
    (Float32Array) => {
        $crate::term::Float32Array
    };
    (Float64Array) => {
        $crate::term::Float64Array
    };
    (ArrayBufferView) => {
        $crate::term::ArrayBufferView
    };
    (BufferSource) => {
        $crate::term::BufferSource
    };
    (Promise) => {
        $crate::term::Promise
    };
    (Error) => {
        $crate::term::Error
    };
    (- Infinity) => {
        $crate::term::NegInfinity
    };
}
