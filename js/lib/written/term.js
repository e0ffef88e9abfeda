/*
 * Terminals: the words and signs of the grammar.
 *
 * Written by tools/write/javascript_types.py, and not edited by hand.
 */

"use strict";

const { Terminal } = require("../value.js");

/** The keyword `ByteString`, with the trivia around it. */
class ByteString extends Terminal {}

/** The keyword `DOMString`, with the trivia around it. */
class DOMString extends Terminal {}

/** The keyword `FrozenArray`, with the trivia around it. */
class FrozenArray extends Terminal {}

/** The keyword `Infinity`, with the trivia around it. */
class Infinity extends Terminal {}

/** The keyword `NaN`, with the trivia around it. */
class NaN extends Terminal {}

/** The keyword `USVString`, with the trivia around it. */
class USVString extends Terminal {}

/** The keyword `ArrayBuffer`, with the trivia around it. */
class ArrayBuffer extends Terminal {}

/** The keyword `DataView`, with the trivia around it. */
class DataView extends Terminal {}

/** The keyword `Int8Array`, with the trivia around it. */
class Int8Array extends Terminal {}

/** The keyword `Int16Array`, with the trivia around it. */
class Int16Array extends Terminal {}

/** The keyword `Int32Array`, with the trivia around it. */
class Int32Array extends Terminal {}

/** The keyword `Uint8Array`, with the trivia around it. */
class Uint8Array extends Terminal {}

/** The keyword `Uint16Array`, with the trivia around it. */
class Uint16Array extends Terminal {}

/** The keyword `Uint32Array`, with the trivia around it. */
class Uint32Array extends Terminal {}

/** The keyword `Uint8ClampedArray`, with the trivia around it. */
class Uint8ClampedArray extends Terminal {}

/** The keyword `Float32Array`, with the trivia around it. */
class Float32Array extends Terminal {}

/** The keyword `Float64Array`, with the trivia around it. */
class Float64Array extends Terminal {}

/** The keyword `ArrayBufferView`, with the trivia around it. */
class ArrayBufferView extends Terminal {}

/** The keyword `BufferSource`, with the trivia around it. */
class BufferSource extends Terminal {}

/** The keyword `Promise`, with the trivia around it. */
class Promise extends Terminal {}

/** The keyword `Error`, with the trivia around it. */
class Error extends Terminal {}

/** The keyword `-Infinity`, with the trivia around it. */
class NegInfinity extends Terminal {}

/** The keyword `async`, with the trivia around it. */
class Async extends Terminal {}

/** The keyword `attribute`, with the trivia around it. */
class Attribute extends Terminal {}

/** The keyword `callback`, with the trivia around it. */
class Callback extends Terminal {}

/** The keyword `const`, with the trivia around it. */
class Const extends Terminal {}

/** The keyword `deleter`, with the trivia around it. */
class Deleter extends Terminal {}

/** The keyword `dictionary`, with the trivia around it. */
class Dictionary extends Terminal {}

/** The keyword `enum`, with the trivia around it. */
class Enum extends Terminal {}

/** The keyword `getter`, with the trivia around it. */
class Getter extends Terminal {}

/** The keyword `includes`, with the trivia around it. */
class Includes extends Terminal {}

/** The keyword `inherit`, with the trivia around it. */
class Inherit extends Terminal {}

/** The keyword `interface`, with the trivia around it. */
class Interface extends Terminal {}

/** The keyword `iterable`, with the trivia around it. */
class Iterable extends Terminal {}

/** The keyword `maplike`, with the trivia around it. */
class Maplike extends Terminal {}

/** The keyword `namespace`, with the trivia around it. */
class Namespace extends Terminal {}

/** The keyword `partial`, with the trivia around it. */
class Partial extends Terminal {}

/** The keyword `required`, with the trivia around it. */
class Required extends Terminal {}

/** The keyword `setlike`, with the trivia around it. */
class Setlike extends Terminal {}

/** The keyword `setter`, with the trivia around it. */
class Setter extends Terminal {}

/** The keyword `static`, with the trivia around it. */
class Static extends Terminal {}

/** The keyword `stringifier`, with the trivia around it. */
class Stringifier extends Terminal {}

/** The keyword `typedef`, with the trivia around it. */
class Typedef extends Terminal {}

/** The keyword `readonly`, with the trivia around it. */
class ReadOnly extends Terminal {}

/** The keyword `mixin`, with the trivia around it. */
class Mixin extends Terminal {}

/** The keyword `implements`, with the trivia around it. */
class Implements extends Terminal {}

/** The keyword `legacycaller`, with the trivia around it. */
class LegacyCaller extends Terminal {}

/** The keyword `constructor`, with the trivia around it. */
class Constructor extends Terminal {}

/** The symbol `(`, with the trivia around it. */
class OpenParen extends Terminal {}

/** The symbol `)`, with the trivia around it. */
class CloseParen extends Terminal {}

/** The symbol `[`, with the trivia around it. */
class OpenBracket extends Terminal {}

/** The symbol `]`, with the trivia around it. */
class CloseBracket extends Terminal {}

/** The symbol `{`, with the trivia around it. */
class OpenBrace extends Terminal {}

/** The symbol `}`, with the trivia around it. */
class CloseBrace extends Terminal {}

/** The symbol `,`, with the trivia around it. */
class Comma extends Terminal {}

/** The symbol `-`, with the trivia around it. */
class Minus extends Terminal {}

/** The symbol `.`, with the trivia around it. */
class Dot extends Terminal {}

/** The symbol `...`, with the trivia around it. */
class Ellipsis extends Terminal {}

/** The symbol `:`, with the trivia around it. */
class Colon extends Terminal {}

/** The symbol `;`, with the trivia around it. */
class SemiColon extends Terminal {}

/** The symbol `<`, with the trivia around it. */
class LessThan extends Terminal {}

/** The symbol `=`, with the trivia around it. */
class Assign extends Terminal {}

/** The symbol `>`, with the trivia around it. */
class GreaterThan extends Terminal {}

/** The symbol `?`, with the trivia around it. */
class QMark extends Terminal {}

/** The keyword `or`, with the trivia around it. */
class Or extends Terminal {}

/** The keyword `optional`, with the trivia around it. */
class Optional extends Terminal {}

/** The keyword `unrestricted`, with the trivia around it. */
class Unrestricted extends Terminal {}

/** The keyword `symbol`, with the trivia around it. */
class Symbol extends Terminal {}

/** The keyword `any`, with the trivia around it. */
class Any extends Terminal {}

/** The keyword `boolean`, with the trivia around it. */
class Boolean extends Terminal {}

/** The keyword `byte`, with the trivia around it. */
class Byte extends Terminal {}

/** The keyword `double`, with the trivia around it. */
class Double extends Terminal {}

/** The keyword `false`, with the trivia around it. */
class False extends Terminal {}

/** The keyword `float`, with the trivia around it. */
class Float extends Terminal {}

/** The keyword `long`, with the trivia around it. */
class Long extends Terminal {}

/** The keyword `null`, with the trivia around it. */
class Null extends Terminal {}

/** The keyword `object`, with the trivia around it. */
class Object extends Terminal {}

/** The keyword `octet`, with the trivia around it. */
class Octet extends Terminal {}

/** The keyword `sequence`, with the trivia around it. */
class Sequence extends Terminal {}

/** The keyword `short`, with the trivia around it. */
class Short extends Terminal {}

/** The keyword `true`, with the trivia around it. */
class True extends Terminal {}

/** The keyword `unsigned`, with the trivia around it. */
class Unsigned extends Terminal {}

/** The keyword `undefined`, with the trivia around it. */
class Undefined extends Terminal {}

/** The keyword `record`, with the trivia around it. */
class Record extends Terminal {}

module.exports = {
  Any,
  ArrayBuffer,
  ArrayBufferView,
  Assign,
  Async,
  Attribute,
  Boolean,
  BufferSource,
  Byte,
  ByteString,
  Callback,
  CloseBrace,
  CloseBracket,
  CloseParen,
  Colon,
  Comma,
  Const,
  Constructor,
  DOMString,
  DataView,
  Deleter,
  Dictionary,
  Dot,
  Double,
  Ellipsis,
  Enum,
  Error,
  False,
  Float,
  Float32Array,
  Float64Array,
  FrozenArray,
  Getter,
  GreaterThan,
  Implements,
  Includes,
  Infinity,
  Inherit,
  Int16Array,
  Int32Array,
  Int8Array,
  Interface,
  Iterable,
  LegacyCaller,
  LessThan,
  Long,
  Maplike,
  Minus,
  Mixin,
  NaN,
  Namespace,
  NegInfinity,
  Null,
  Object,
  Octet,
  OpenBrace,
  OpenBracket,
  OpenParen,
  Optional,
  Or,
  Partial,
  Promise,
  QMark,
  ReadOnly,
  Record,
  Required,
  SemiColon,
  Sequence,
  Setlike,
  Setter,
  Short,
  Static,
  Stringifier,
  Symbol,
  True,
  Typedef,
  USVString,
  Uint16Array,
  Uint32Array,
  Uint8Array,
  Uint8ClampedArray,
  Undefined,
  Unrestricted,
  Unsigned,
};
