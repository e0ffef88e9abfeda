// A parser of WebIDL, with the typed tree of weedle2.

import { Kind, Position, Span, Value } from "./lib/value.js";
import { Definition, Docstring, Identifier } from "./lib/written/values.js";
import { Role } from "./lib/written/roles.js";
import type * as today from "./today.js";

export * from "./lib/value.js";
export * from "./lib/written/values.js";
export * as term from "./lib/written/term.js";
export * as today from "./today.js";
export { Role };

/** The version of the package. */
export declare const version: string;

/** The names of the grammar's rules, by their numbers. */
export declare const RULES: readonly string[];

/** A grammar by which a text is read: weedle2's rules, or those of today's WebIDL, as of `[Exposed=*] interface A {};`. */
export type Dialect = "weedle2" | "today";

/** How a text is read. */
export interface Options<D extends Dialect = Dialect> {
  /** The grammar; weedle2's where it is left out. */
  readonly dialect?: D;
}

/** The same where today's grammar is meant. */
export interface Today {
  readonly dialect: "today";
}

/** What today's rules give of a text: a definition, or a docstring that none follows. */
export type TodayPiece = today.Definition | Docstring | today.LastDocstring;

/**
 * The definitions of a text, as `parse("Request includes Body;")[0]`.
 *
 * Parts are made when they are asked for. With `{ dialect: "today" }` the rules are those of today's WebIDL, and the
 * classes those of `today` where weedle2 hasn't the same. It throws `Refused` where the grammar doesn't read the whole
 * text, `NotUtf8` of bytes that aren't UTF-8 or a string with a lone surrogate, `NoMemory` where memory is refused, a
 * RangeError of more than 4 GB, and a TypeError of what is no text, no options or no dialect.
 */
export declare function parse(text: string | Uint8Array, options: Today): TodayDefinitions;
export declare function parse(text: string | Uint8Array, options: Options<"weedle2">): Definitions;
export declare function parse(text: string | Uint8Array, options: Options): Definitions | TodayDefinitions;
export declare function parse(text: string | Uint8Array): Definitions;

/** The node of a whole text, whose children are its definitions. It throws what `parse` throws. */
export declare function syntax(text: string | Uint8Array, options: Options): Node;
export declare function syntax(text: string | Uint8Array): Node;

/**
 * The formatted text: a string of a string, a Buffer of bytes.
 *
 * Whitespace is moved, and nothing else changes: the answer is read by the same rules, with the same words, strings and
 * comments. A text of whitespace and comments alone stays as it is. It throws what `parse` throws.
 */
export declare function format<T extends string | Uint8Array>(text: T, options: Options): T extends string ? string : T;
export declare function format<T extends string | Uint8Array>(text: T): T extends string ? string : T;

/**
 * The parts of a text, read or unread, whatever errors it has. It throws what `parse` throws, but never `Refused`. Why a
 * part is unread is found when it is asked for.
 *
 * By today's rules whitespace, comments and docstrings that no definition follows are parts of their own, and it throws a
 * RangeError of a text with errors that nests too deep.
 */
export declare function recover(text: string | Uint8Array, options: Today): TodayRecovered;
export declare function recover(text: string | Uint8Array, options: Options<"weedle2">): Recovered;
export declare function recover(text: string | Uint8Array, options: Options): Recovered | TodayRecovered;
export declare function recover(text: string | Uint8Array): Recovered;

/** The parts of a text, one behind another: together they are the text. */
export declare class Recovered {
  private constructor();
  /** The parts. */
  readonly parts: Part[];
  /** The whole text. */
  readonly text: string;
  /** Why each unread part is so, in the order of the text. */
  readonly errors: Refused[];
  /** The definitions that are read whole. */
  readonly definitions: Definition[];
}

/** The same where the rules are today's. */
export interface TodayRecovered extends Omit<Recovered, "definitions"> {
  /** The definitions that are read whole. */
  readonly definitions: today.Definition[];
}

/** A part of a text: a rule that is read, or an unread stretch. */
export declare class Part {
  private constructor();
  /** The name of the rule that is read; of an unread part that of the one that fails where it begins. */
  readonly rule: string;
  /** Whether it is read. */
  readonly isRead: boolean;
  /** Whether it is a whole definition. */
  readonly isDefinition: boolean;
  /** All that it takes, whitespace and comments included, in UTF-16 units; nothing where something is missing. */
  readonly span: Span;
  /** The same in bytes of UTF-8. */
  readonly byteSpan: Span;
  /** The byte at which the definition begins that it belongs to: parts of one definition have the same. */
  readonly byteDefinition: number;
  /** The line and the column at which it begins. */
  readonly position: Position;
  /** The part of the text at `span`. */
  readonly text: string;
  /** The node of the rule, of depth 0; null of an unread part. */
  readonly node: Node | null;
  /** Its value, as `parse` gives it; null where there is none. */
  readonly value: Value | null;
  /** Why it is unread, this part alone; null where it is read. */
  readonly refusal: Refused | null;
}

/** The definitions of a text: an array, of which `map` and the like give plain ones. */
export declare class Definitions extends Array<Definition> {
  private constructor();
  /** The whole text. */
  readonly text: string;
  /** The node of the whole text, as `syntax` gives it; it isn't read again. */
  readonly syntax: Node;
  /** All values, each before those below it. */
  walk(): Generator<Value, void>;
  /** Those of `walk` that are of a class, as `find(InterfaceDefinition)`; of another function what an array finds. */
  find<S extends Definition>(
    predicate: (value: Definition, index: number, all: Definition[]) => value is S,
    self?: unknown,
  ): S | undefined;
  find(
    predicate: (value: Definition, index: number, all: Definition[]) => unknown,
    self?: unknown,
  ): Definition | undefined;
  find<V extends Value>(kind: Kind<V>): Generator<V, void>;
  /** Each name of the text and what it stands for, in the order of the text. */
  names(): Generator<Name, void>;
}

/** The same of a text that is read by today's rules: its definitions, and the docstrings that none follows. */
export interface TodayDefinitions extends Array<TodayPiece> {
  /** The whole text. */
  readonly text: string;
  /** The node of the whole text, as `syntax` gives it; it isn't read again. */
  readonly syntax: Node;
  /** All values, each before those below it. */
  walk(): Generator<Value, void>;
  /** Those of `walk` that are of a class, as `find(today.InterfaceDefinition)`; of another function what an array finds. */
  find<S extends TodayPiece>(
    predicate: (value: TodayPiece, index: number, all: TodayPiece[]) => value is S,
    self?: unknown,
  ): S | undefined;
  find(
    predicate: (value: TodayPiece, index: number, all: TodayPiece[]) => unknown,
    self?: unknown,
  ): TodayPiece | undefined;
  find<V extends Value>(kind: Kind<V>): Generator<V, void>;
  /** Each name of the text and what it stands for, in the order of the text. */
  names(): Generator<Name, void>;
}

/**
 * A name in a text, and what it stands for.
 *
 * In `interface _A {};` the text is `A`, the role `Interface`, and the span from 10 to 12 has the underscore in it.
 */
export declare class Name {
  private constructor();
  /** Its letters, without an underscore in front. */
  readonly text: string;
  /** What it stands for. */
  readonly role: Role;
  /** The value of the name. */
  readonly value: Identifier;
  /** Where it is, with an underscore in front, in UTF-16 units. */
  readonly span: Span;
  /** The same in bytes of UTF-8. */
  readonly byteSpan: Span;
  /** The line and the column at which it begins. */
  readonly position: Position;
}

/** A rule that was read, and the part of the text that it took. */
export declare class Node {
  private constructor();
  /** The number of the rule, as include/weedle.h has it. */
  readonly rule: number;
  /** The name of the rule, as `interface_definition`. */
  readonly name: string;
  /** How many nodes it is in. */
  readonly depth: number;
  /** All that was read, whitespace and comments around words included, in UTF-16 units. */
  readonly span: Span;
  /** The same in bytes of UTF-8. */
  readonly byteSpan: Span;
  /** The line and the column at which it begins. */
  readonly position: Position;
  /** The part of the text at `span`. */
  readonly text: string;
  /** The nodes right below it. Where there are some, they take all its text in turn. */
  readonly children: Node[];
  /** Whether no node is below it. */
  readonly isLeaf: boolean;
  /** The node right above it; null of the whole text's. */
  readonly parent: Node | null;
  /** The comments in it, line comments with their LF. Docstrings, from `///` on, are none. */
  readonly comments: Node[];
  /** The node and all below it, each before those below it. */
  walk(): Generator<Node, void>;
  /** The nodes of `walk` whose rule has this name; a RangeError where none has. */
  find(name: string): Generator<Node, void>;
  /** Whether another is the same node of the same reading. */
  equals(other: unknown): boolean;
}

/** Kinds of hints: what would fix a text, or what it lacks. */
export type HintKind =
  | "Keyword"
  | "Missing"
  | "Extra"
  | "WrongSign"
  | "WordOrder"
  | "Docstring"
  | "OpenString"
  | "SplitString"
  | "ByteOrderMark"
  | "NoDefinitions";

/**
 * A text that the grammar doesn't read whole. Its message is the one that weedle_check prints; where today's rules read the
 * text whole its last line says how they are asked for.
 *
 * Of `interface A {}; enum E { "a" "b" };` the second definition, from 16 on, isn't read: the reading comes to line 1,
 * column 30, where a `,` or a `}` would go on.
 */
export declare class Refused extends SyntaxError {
  private constructor();
  /** The dialect whose rules refuse the text. */
  readonly dialect: Dialect;
  /** Whether weedle2's rules refuse the text, and today's read it whole; false of a part. */
  readonly isReadToday: boolean;
  /** Where the remaining input begins, in UTF-16 units: at the first definition that isn't read. */
  readonly start: number;
  /** The same in bytes of UTF-8. */
  readonly byteStart: number;
  /** The furthest place to which the reading comes, in UTF-16 units; `start` where memory ran out for more. */
  readonly place: number;
  /** The same in bytes of UTF-8. */
  readonly bytePlace: number;
  /** The line of that place, from 1 on. */
  readonly line: number;
  /** Its column in characters, from 1 on. */
  readonly column: number;
  /** What would have been read there, as "`,` or `}`"; empty where memory ran out for it. */
  readonly expected: string;
  /** All that would have been read there, as ["`,`", "`}`"]. */
  readonly words: readonly string[];
  /** What would fix the text, as "1:15: `attribute` in place of `atribute`?", or null. */
  readonly hint: string | null;
  /** Which kind of hint that is. */
  readonly hintKind: HintKind | null;
  /** What it speaks of, the word, the sign or the lines, in UTF-16 units; empty where something is missing. */
  readonly hintSpan: Span | null;
  /** The same in bytes of UTF-8. */
  readonly hintByteSpan: Span | null;
}

/** Bytes that aren't UTF-8, or a string with a lone surrogate, which UTF-8 hasn't. */
export declare class NotUtf8 extends TypeError {
  private constructor();
  /** The byte up to which the text is UTF-8. */
  readonly byteStart: number;
}

/** Memory was refused. */
export declare class NoMemory extends RangeError {
  private constructor();
}
