"""Terminals: the words and signs of the grammar.

Written by tools/write/python_types.py, and not edited by hand.
"""

from __future__ import annotations

from weedle._values import Terminal

__all__ = [
    "Any",
    "ArrayBuffer",
    "ArrayBufferView",
    "Assign",
    "Async",
    "Attribute",
    "Boolean",
    "BufferSource",
    "Byte",
    "ByteString",
    "Callback",
    "CloseBrace",
    "CloseBracket",
    "CloseParen",
    "Colon",
    "Comma",
    "Const",
    "Constructor",
    "DOMString",
    "DataView",
    "Deleter",
    "Dictionary",
    "Dot",
    "Double",
    "Ellipsis",
    "Enum",
    "Error",
    "False_",
    "Float",
    "Float32Array",
    "Float64Array",
    "FrozenArray",
    "Getter",
    "GreaterThan",
    "Implements",
    "Includes",
    "Infinity",
    "Inherit",
    "Int16Array",
    "Int32Array",
    "Int8Array",
    "Interface",
    "Iterable",
    "LegacyCaller",
    "LessThan",
    "Long",
    "Maplike",
    "Minus",
    "Mixin",
    "NaN",
    "Namespace",
    "NegInfinity",
    "Null",
    "Object",
    "Octet",
    "OpenBrace",
    "OpenBracket",
    "OpenParen",
    "Optional",
    "Or",
    "Partial",
    "Promise",
    "QMark",
    "ReadOnly",
    "Record",
    "Required",
    "SemiColon",
    "Sequence",
    "Setlike",
    "Setter",
    "Short",
    "Static",
    "Stringifier",
    "Symbol",
    "True_",
    "Typedef",
    "USVString",
    "Uint16Array",
    "Uint32Array",
    "Uint8Array",
    "Uint8ClampedArray",
    "Undefined",
    "Unrestricted",
    "Unsigned",
]


class ByteString(Terminal):
    """The keyword `ByteString`, with the trivia around it."""

    _spelled = "ByteString"


class DOMString(Terminal):
    """The keyword `DOMString`, with the trivia around it."""

    _spelled = "DOMString"


class FrozenArray(Terminal):
    """The keyword `FrozenArray`, with the trivia around it."""

    _spelled = "FrozenArray"


class Infinity(Terminal):
    """The keyword `Infinity`, with the trivia around it."""

    _spelled = "Infinity"


class NaN(Terminal):
    """The keyword `NaN`, with the trivia around it."""

    _spelled = "NaN"


class USVString(Terminal):
    """The keyword `USVString`, with the trivia around it."""

    _spelled = "USVString"


class ArrayBuffer(Terminal):
    """The keyword `ArrayBuffer`, with the trivia around it."""

    _spelled = "ArrayBuffer"


class DataView(Terminal):
    """The keyword `DataView`, with the trivia around it."""

    _spelled = "DataView"


class Int8Array(Terminal):
    """The keyword `Int8Array`, with the trivia around it."""

    _spelled = "Int8Array"


class Int16Array(Terminal):
    """The keyword `Int16Array`, with the trivia around it."""

    _spelled = "Int16Array"


class Int32Array(Terminal):
    """The keyword `Int32Array`, with the trivia around it."""

    _spelled = "Int32Array"


class Uint8Array(Terminal):
    """The keyword `Uint8Array`, with the trivia around it."""

    _spelled = "Uint8Array"


class Uint16Array(Terminal):
    """The keyword `Uint16Array`, with the trivia around it."""

    _spelled = "Uint16Array"


class Uint32Array(Terminal):
    """The keyword `Uint32Array`, with the trivia around it."""

    _spelled = "Uint32Array"


class Uint8ClampedArray(Terminal):
    """The keyword `Uint8ClampedArray`, with the trivia around it."""

    _spelled = "Uint8ClampedArray"


class Float32Array(Terminal):
    """The keyword `Float32Array`, with the trivia around it."""

    _spelled = "Float32Array"


class Float64Array(Terminal):
    """The keyword `Float64Array`, with the trivia around it."""

    _spelled = "Float64Array"


class ArrayBufferView(Terminal):
    """The keyword `ArrayBufferView`, with the trivia around it."""

    _spelled = "ArrayBufferView"


class BufferSource(Terminal):
    """The keyword `BufferSource`, with the trivia around it."""

    _spelled = "BufferSource"


class Promise(Terminal):
    """The keyword `Promise`, with the trivia around it."""

    _spelled = "Promise"


class Error(Terminal):
    """The keyword `Error`, with the trivia around it."""

    _spelled = "Error"


class NegInfinity(Terminal):
    """The keyword `-Infinity`, with the trivia around it."""

    _spelled = "-Infinity"


class Async(Terminal):
    """The keyword `async`, with the trivia around it."""

    _spelled = "async"


class Attribute(Terminal):
    """The keyword `attribute`, with the trivia around it."""

    _spelled = "attribute"


class Callback(Terminal):
    """The keyword `callback`, with the trivia around it."""

    _spelled = "callback"


class Const(Terminal):
    """The keyword `const`, with the trivia around it."""

    _spelled = "const"


class Deleter(Terminal):
    """The keyword `deleter`, with the trivia around it."""

    _spelled = "deleter"


class Dictionary(Terminal):
    """The keyword `dictionary`, with the trivia around it."""

    _spelled = "dictionary"


class Enum(Terminal):
    """The keyword `enum`, with the trivia around it."""

    _spelled = "enum"


class Getter(Terminal):
    """The keyword `getter`, with the trivia around it."""

    _spelled = "getter"


class Includes(Terminal):
    """The keyword `includes`, with the trivia around it."""

    _spelled = "includes"


class Inherit(Terminal):
    """The keyword `inherit`, with the trivia around it."""

    _spelled = "inherit"


class Interface(Terminal):
    """The keyword `interface`, with the trivia around it."""

    _spelled = "interface"


class Iterable(Terminal):
    """The keyword `iterable`, with the trivia around it."""

    _spelled = "iterable"


class Maplike(Terminal):
    """The keyword `maplike`, with the trivia around it."""

    _spelled = "maplike"


class Namespace(Terminal):
    """The keyword `namespace`, with the trivia around it."""

    _spelled = "namespace"


class Partial(Terminal):
    """The keyword `partial`, with the trivia around it."""

    _spelled = "partial"


class Required(Terminal):
    """The keyword `required`, with the trivia around it."""

    _spelled = "required"


class Setlike(Terminal):
    """The keyword `setlike`, with the trivia around it."""

    _spelled = "setlike"


class Setter(Terminal):
    """The keyword `setter`, with the trivia around it."""

    _spelled = "setter"


class Static(Terminal):
    """The keyword `static`, with the trivia around it."""

    _spelled = "static"


class Stringifier(Terminal):
    """The keyword `stringifier`, with the trivia around it."""

    _spelled = "stringifier"


class Typedef(Terminal):
    """The keyword `typedef`, with the trivia around it."""

    _spelled = "typedef"


class ReadOnly(Terminal):
    """The keyword `readonly`, with the trivia around it."""

    _spelled = "readonly"


class Mixin(Terminal):
    """The keyword `mixin`, with the trivia around it."""

    _spelled = "mixin"


class Implements(Terminal):
    """The keyword `implements`, with the trivia around it."""

    _spelled = "implements"


class LegacyCaller(Terminal):
    """The keyword `legacycaller`, with the trivia around it."""

    _spelled = "legacycaller"


class Constructor(Terminal):
    """The keyword `constructor`, with the trivia around it."""

    _spelled = "constructor"


class OpenParen(Terminal):
    """The symbol `(`, with the trivia around it."""

    _spelled = "("


class CloseParen(Terminal):
    """The symbol `)`, with the trivia around it."""

    _spelled = ")"


class OpenBracket(Terminal):
    """The symbol `[`, with the trivia around it."""

    _spelled = "["


class CloseBracket(Terminal):
    """The symbol `]`, with the trivia around it."""

    _spelled = "]"


class OpenBrace(Terminal):
    """The symbol `{`, with the trivia around it."""

    _spelled = "{"


class CloseBrace(Terminal):
    """The symbol `}`, with the trivia around it."""

    _spelled = "}"


class Comma(Terminal):
    """The symbol `,`, with the trivia around it."""

    _spelled = ","


class Minus(Terminal):
    """The symbol `-`, with the trivia around it."""

    _spelled = "-"


class Dot(Terminal):
    """The symbol `.`, with the trivia around it."""

    _spelled = "."


class Ellipsis(Terminal):
    """The symbol `...`, with the trivia around it."""

    _spelled = "..."


class Colon(Terminal):
    """The symbol `:`, with the trivia around it."""

    _spelled = ":"


class SemiColon(Terminal):
    """The symbol `;`, with the trivia around it."""

    _spelled = ";"


class LessThan(Terminal):
    """The symbol `<`, with the trivia around it."""

    _spelled = "<"


class Assign(Terminal):
    """The symbol `=`, with the trivia around it."""

    _spelled = "="


class GreaterThan(Terminal):
    """The symbol `>`, with the trivia around it."""

    _spelled = ">"


class QMark(Terminal):
    """The symbol `?`, with the trivia around it."""

    _spelled = "?"


class Or(Terminal):
    """The keyword `or`, with the trivia around it."""

    _spelled = "or"


class Optional(Terminal):
    """The keyword `optional`, with the trivia around it."""

    _spelled = "optional"


class Unrestricted(Terminal):
    """The keyword `unrestricted`, with the trivia around it."""

    _spelled = "unrestricted"


class Symbol(Terminal):
    """The keyword `symbol`, with the trivia around it."""

    _spelled = "symbol"


class Any(Terminal):
    """The keyword `any`, with the trivia around it."""

    _spelled = "any"


class Boolean(Terminal):
    """The keyword `boolean`, with the trivia around it."""

    _spelled = "boolean"


class Byte(Terminal):
    """The keyword `byte`, with the trivia around it."""

    _spelled = "byte"


class Double(Terminal):
    """The keyword `double`, with the trivia around it."""

    _spelled = "double"


class False_(Terminal):
    """The keyword `false`, with the trivia around it."""

    _spelled = "false"


class Float(Terminal):
    """The keyword `float`, with the trivia around it."""

    _spelled = "float"


class Long(Terminal):
    """The keyword `long`, with the trivia around it."""

    _spelled = "long"


class Null(Terminal):
    """The keyword `null`, with the trivia around it."""

    _spelled = "null"


class Object(Terminal):
    """The keyword `object`, with the trivia around it."""

    _spelled = "object"


class Octet(Terminal):
    """The keyword `octet`, with the trivia around it."""

    _spelled = "octet"


class Sequence(Terminal):
    """The keyword `sequence`, with the trivia around it."""

    _spelled = "sequence"


class Short(Terminal):
    """The keyword `short`, with the trivia around it."""

    _spelled = "short"


class True_(Terminal):
    """The keyword `true`, with the trivia around it."""

    _spelled = "true"


class Unsigned(Terminal):
    """The keyword `unsigned`, with the trivia around it."""

    _spelled = "unsigned"


class Undefined(Terminal):
    """The keyword `undefined`, with the trivia around it."""

    _spelled = "undefined"


class Record(Terminal):
    """The keyword `record`, with the trivia around it."""

    _spelled = "record"
