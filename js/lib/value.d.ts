// What all values of the typed tree have.

/** A part of a text: where it begins, and the place behind its end. */
export interface Span {
  readonly start: number;
  readonly end: number;
}

/** A place as people count it. Both begin at 1; the column is in characters. */
export interface Position {
  readonly line: number;
  readonly column: number;
}

/** The class of some values, for `find` and `instanceof`. None can be made by `new`. */
export type Kind<V> = abstract new (...none: never[]) => V;

/** What was read of a text. Its parts are made when they are asked for, and once. */
export abstract class Value {
  /** The name of its class, as `InterfaceDefinition` or `Definition.Interface`. */
  readonly kind: string;
  /** What was read, without whitespace and comments around it, in UTF-16 units: for a slice of a string. */
  readonly span: Span;
  /** The same in bytes of UTF-8: for a part of a Buffer. */
  readonly byteSpan: Span;
  /** The line and the column at which it begins. */
  readonly position: Position;
  /** The part of the text at `span`. */
  readonly text: string;
  /** The value that it is in; null of a definition. */
  readonly parent: Value | null;
  /** The comments right in front of it: up to an empty line, and none that trails something else. */
  readonly comments: string[];
  /** The comments behind it on its line, where nothing else follows them there. */
  readonly trailing: string[];
  /** What its docstring says, or else the comments in front of it without their signs; empty without both. */
  readonly doc: string;
  /** The value and all below it, each before those below it. */
  walk(): Generator<Value, void>;
  /** Those of `walk` that are of a class, as `find(Identifier)`. */
  find<V extends Value>(kind: Kind<V>): Generator<V, void>;
  /** Whether another value is of the same class and says the same, wherever both are. */
  equals(other: unknown): boolean;
  /** The value as JSON on one line, with weedle2's names. */
  jsonText(): string;
  /** The same as an object. */
  toJSON(): unknown;
}

/** A word or a sign that is always spelled the same. */
export abstract class Terminal extends Value {}

/** A variant of an enum, with what it holds as `value`. */
export abstract class Choice<E extends string = string, N extends string = string, V = unknown> extends Value {
  readonly kind: `${E}.${N}`;
  /** The name of the variant, as `Interface`. */
  readonly variant: N;
  /** What it holds. */
  readonly value: V;
}

/** Items with separators between them. It is iterable. */
export abstract class Listed<T = unknown, S = unknown> extends Value implements Iterable<T> {
  /** The items. */
  readonly list: readonly T[];
  /** A separator: the first one, or one with no text at the end of the items. */
  readonly separator: S;
  [Symbol.iterator](): IterableIterator<T>;
}

/** What has a point or an exponent, or is the word `Infinity`, `-Infinity` or `NaN`. */
export interface DecimalNumber {
  /** The number nearest to it. */
  readonly number: number;
}

/** What is a whole number. */
export interface WholeNumber {
  /** The number nearest to it, as 31 of `0x1F`. */
  readonly number: number;
  /** The very number. */
  readonly bigint: bigint;
}
