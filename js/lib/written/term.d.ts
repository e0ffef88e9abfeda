/*
 * Terminals: the words and signs of the grammar.
 *
 * Written by tools/write/javascript_types.py, and not edited by hand.
 */

import { Terminal } from "../value.js";

/** The keyword `ByteString`, with the trivia around it. */
export abstract class ByteString extends Terminal {
  readonly kind: "ByteString";
}

/** The keyword `DOMString`, with the trivia around it. */
export abstract class DOMString extends Terminal {
  readonly kind: "DOMString";
}

/** The keyword `FrozenArray`, with the trivia around it. */
export abstract class FrozenArray extends Terminal {
  readonly kind: "FrozenArray";
}

/** The keyword `Infinity`, with the trivia around it. */
export abstract class Infinity extends Terminal {
  readonly kind: "Infinity";
}

/** The keyword `NaN`, with the trivia around it. */
export abstract class NaN extends Terminal {
  readonly kind: "NaN";
}

/** The keyword `USVString`, with the trivia around it. */
export abstract class USVString extends Terminal {
  readonly kind: "USVString";
}

/** The keyword `ArrayBuffer`, with the trivia around it. */
export abstract class ArrayBuffer extends Terminal {
  readonly kind: "ArrayBuffer";
}

/** The keyword `DataView`, with the trivia around it. */
export abstract class DataView extends Terminal {
  readonly kind: "DataView";
}

/** The keyword `Int8Array`, with the trivia around it. */
export abstract class Int8Array extends Terminal {
  readonly kind: "Int8Array";
}

/** The keyword `Int16Array`, with the trivia around it. */
export abstract class Int16Array extends Terminal {
  readonly kind: "Int16Array";
}

/** The keyword `Int32Array`, with the trivia around it. */
export abstract class Int32Array extends Terminal {
  readonly kind: "Int32Array";
}

/** The keyword `Uint8Array`, with the trivia around it. */
export abstract class Uint8Array extends Terminal {
  readonly kind: "Uint8Array";
}

/** The keyword `Uint16Array`, with the trivia around it. */
export abstract class Uint16Array extends Terminal {
  readonly kind: "Uint16Array";
}

/** The keyword `Uint32Array`, with the trivia around it. */
export abstract class Uint32Array extends Terminal {
  readonly kind: "Uint32Array";
}

/** The keyword `Uint8ClampedArray`, with the trivia around it. */
export abstract class Uint8ClampedArray extends Terminal {
  readonly kind: "Uint8ClampedArray";
}

/** The keyword `Float32Array`, with the trivia around it. */
export abstract class Float32Array extends Terminal {
  readonly kind: "Float32Array";
}

/** The keyword `Float64Array`, with the trivia around it. */
export abstract class Float64Array extends Terminal {
  readonly kind: "Float64Array";
}

/** The keyword `ArrayBufferView`, with the trivia around it. */
export abstract class ArrayBufferView extends Terminal {
  readonly kind: "ArrayBufferView";
}

/** The keyword `BufferSource`, with the trivia around it. */
export abstract class BufferSource extends Terminal {
  readonly kind: "BufferSource";
}

/** The keyword `Promise`, with the trivia around it. */
export abstract class Promise extends Terminal {
  readonly kind: "Promise";
}

/** The keyword `Error`, with the trivia around it. */
export abstract class Error extends Terminal {
  readonly kind: "Error";
}

/** The keyword `-Infinity`, with the trivia around it. */
export abstract class NegInfinity extends Terminal {
  readonly kind: "NegInfinity";
}

/** The keyword `async`, with the trivia around it. */
export abstract class Async extends Terminal {
  readonly kind: "Async";
}

/** The keyword `attribute`, with the trivia around it. */
export abstract class Attribute extends Terminal {
  readonly kind: "Attribute";
}

/** The keyword `callback`, with the trivia around it. */
export abstract class Callback extends Terminal {
  readonly kind: "Callback";
}

/** The keyword `const`, with the trivia around it. */
export abstract class Const extends Terminal {
  readonly kind: "Const";
}

/** The keyword `deleter`, with the trivia around it. */
export abstract class Deleter extends Terminal {
  readonly kind: "Deleter";
}

/** The keyword `dictionary`, with the trivia around it. */
export abstract class Dictionary extends Terminal {
  readonly kind: "Dictionary";
}

/** The keyword `enum`, with the trivia around it. */
export abstract class Enum extends Terminal {
  readonly kind: "Enum";
}

/** The keyword `getter`, with the trivia around it. */
export abstract class Getter extends Terminal {
  readonly kind: "Getter";
}

/** The keyword `includes`, with the trivia around it. */
export abstract class Includes extends Terminal {
  readonly kind: "Includes";
}

/** The keyword `inherit`, with the trivia around it. */
export abstract class Inherit extends Terminal {
  readonly kind: "Inherit";
}

/** The keyword `interface`, with the trivia around it. */
export abstract class Interface extends Terminal {
  readonly kind: "Interface";
}

/** The keyword `iterable`, with the trivia around it. */
export abstract class Iterable extends Terminal {
  readonly kind: "Iterable";
}

/** The keyword `maplike`, with the trivia around it. */
export abstract class Maplike extends Terminal {
  readonly kind: "Maplike";
}

/** The keyword `namespace`, with the trivia around it. */
export abstract class Namespace extends Terminal {
  readonly kind: "Namespace";
}

/** The keyword `partial`, with the trivia around it. */
export abstract class Partial extends Terminal {
  readonly kind: "Partial";
}

/** The keyword `required`, with the trivia around it. */
export abstract class Required extends Terminal {
  readonly kind: "Required";
}

/** The keyword `setlike`, with the trivia around it. */
export abstract class Setlike extends Terminal {
  readonly kind: "Setlike";
}

/** The keyword `setter`, with the trivia around it. */
export abstract class Setter extends Terminal {
  readonly kind: "Setter";
}

/** The keyword `static`, with the trivia around it. */
export abstract class Static extends Terminal {
  readonly kind: "Static";
}

/** The keyword `stringifier`, with the trivia around it. */
export abstract class Stringifier extends Terminal {
  readonly kind: "Stringifier";
}

/** The keyword `typedef`, with the trivia around it. */
export abstract class Typedef extends Terminal {
  readonly kind: "Typedef";
}

/** The keyword `readonly`, with the trivia around it. */
export abstract class ReadOnly extends Terminal {
  readonly kind: "ReadOnly";
}

/** The keyword `mixin`, with the trivia around it. */
export abstract class Mixin extends Terminal {
  readonly kind: "Mixin";
}

/** The keyword `implements`, with the trivia around it. */
export abstract class Implements extends Terminal {
  readonly kind: "Implements";
}

/** The keyword `legacycaller`, with the trivia around it. */
export abstract class LegacyCaller extends Terminal {
  readonly kind: "LegacyCaller";
}

/** The keyword `constructor`, with the trivia around it. */
export abstract class Constructor extends Terminal {
  readonly kind: "Constructor";
}

/** The symbol `(`, with the trivia around it. */
export abstract class OpenParen extends Terminal {
  readonly kind: "OpenParen";
}

/** The symbol `)`, with the trivia around it. */
export abstract class CloseParen extends Terminal {
  readonly kind: "CloseParen";
}

/** The symbol `[`, with the trivia around it. */
export abstract class OpenBracket extends Terminal {
  readonly kind: "OpenBracket";
}

/** The symbol `]`, with the trivia around it. */
export abstract class CloseBracket extends Terminal {
  readonly kind: "CloseBracket";
}

/** The symbol `{`, with the trivia around it. */
export abstract class OpenBrace extends Terminal {
  readonly kind: "OpenBrace";
}

/** The symbol `}`, with the trivia around it. */
export abstract class CloseBrace extends Terminal {
  readonly kind: "CloseBrace";
}

/** The symbol `,`, with the trivia around it. */
export abstract class Comma extends Terminal {
  readonly kind: "Comma";
}

/** The symbol `-`, with the trivia around it. */
export abstract class Minus extends Terminal {
  readonly kind: "Minus";
}

/** The symbol `.`, with the trivia around it. */
export abstract class Dot extends Terminal {
  readonly kind: "Dot";
}

/** The symbol `...`, with the trivia around it. */
export abstract class Ellipsis extends Terminal {
  readonly kind: "Ellipsis";
}

/** The symbol `:`, with the trivia around it. */
export abstract class Colon extends Terminal {
  readonly kind: "Colon";
}

/** The symbol `;`, with the trivia around it. */
export abstract class SemiColon extends Terminal {
  readonly kind: "SemiColon";
}

/** The symbol `<`, with the trivia around it. */
export abstract class LessThan extends Terminal {
  readonly kind: "LessThan";
}

/** The symbol `=`, with the trivia around it. */
export abstract class Assign extends Terminal {
  readonly kind: "Assign";
}

/** The symbol `>`, with the trivia around it. */
export abstract class GreaterThan extends Terminal {
  readonly kind: "GreaterThan";
}

/** The symbol `?`, with the trivia around it. */
export abstract class QMark extends Terminal {
  readonly kind: "QMark";
}

/** The keyword `or`, with the trivia around it. */
export abstract class Or extends Terminal {
  readonly kind: "Or";
}

/** The keyword `optional`, with the trivia around it. */
export abstract class Optional extends Terminal {
  readonly kind: "Optional";
}

/** The keyword `unrestricted`, with the trivia around it. */
export abstract class Unrestricted extends Terminal {
  readonly kind: "Unrestricted";
}

/** The keyword `symbol`, with the trivia around it. */
export abstract class Symbol extends Terminal {
  readonly kind: "Symbol";
}

/** The keyword `any`, with the trivia around it. */
export abstract class Any extends Terminal {
  readonly kind: "Any";
}

/** The keyword `boolean`, with the trivia around it. */
export abstract class Boolean extends Terminal {
  readonly kind: "Boolean";
}

/** The keyword `byte`, with the trivia around it. */
export abstract class Byte extends Terminal {
  readonly kind: "Byte";
}

/** The keyword `double`, with the trivia around it. */
export abstract class Double extends Terminal {
  readonly kind: "Double";
}

/** The keyword `false`, with the trivia around it. */
export abstract class False extends Terminal {
  readonly kind: "False";
}

/** The keyword `float`, with the trivia around it. */
export abstract class Float extends Terminal {
  readonly kind: "Float";
}

/** The keyword `long`, with the trivia around it. */
export abstract class Long extends Terminal {
  readonly kind: "Long";
}

/** The keyword `null`, with the trivia around it. */
export abstract class Null extends Terminal {
  readonly kind: "Null";
}

/** The keyword `object`, with the trivia around it. */
export abstract class Object extends Terminal {
  readonly kind: "Object";
}

/** The keyword `octet`, with the trivia around it. */
export abstract class Octet extends Terminal {
  readonly kind: "Octet";
}

/** The keyword `sequence`, with the trivia around it. */
export abstract class Sequence extends Terminal {
  readonly kind: "Sequence";
}

/** The keyword `short`, with the trivia around it. */
export abstract class Short extends Terminal {
  readonly kind: "Short";
}

/** The keyword `true`, with the trivia around it. */
export abstract class True extends Terminal {
  readonly kind: "True";
}

/** The keyword `unsigned`, with the trivia around it. */
export abstract class Unsigned extends Terminal {
  readonly kind: "Unsigned";
}

/** The keyword `undefined`, with the trivia around it. */
export abstract class Undefined extends Terminal {
  readonly kind: "Undefined";
}

/** The keyword `record`, with the trivia around it. */
export abstract class Record extends Terminal {
  readonly kind: "Record";
}
