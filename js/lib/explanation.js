"use strict";

/**
 * Why a text is refused, as the library says it.
 * @module
 */

const { Dialect } = require("./dialects.js");
const { Status, library } = require("./library.js");

/** Kinds of hints, by their numbers: what `enum weedle_hint` of include/weedle.h has. */
const HINTS = Object.freeze([
  null,
  "Keyword",
  "Missing",
  "Extra",
  "WrongSign",
  "WordOrder",
  "Docstring",
  "OpenString",
  "SplitString",
  "ByteOrderMark",
  "NoDefinitions",
]);
/** No room for nodes: they are counted. */
const NO_NODES = new Uint32Array(0);
/** How many words a message has at most. */
const SHOWN = 6;

/** Words in a row, as a message has them: six at most, and how many more there are. */
function inARow(words) {
  const shown = words.length > SHOWN ? [...words.slice(0, SHOWN), `${words.length - SHOWN} more`] : words;
  const [first, last] = [shown.slice(0, -1), shown.slice(-1)];
  return first.length ? `${first.join(", ")} or ${last}` : last.join();
}

/** Whether weedle2's rules were meant of a text, and today's read it whole. */
function isReadToday(text) {
  if (text.dialect === "today") {
    return false;
  }
  const { status } = library.syntax(Dialect.today, text.bytes, NO_NODES);
  return status === Status.READ || status === Status.NO_ROOM;
}

/**
 * What would go on where the reading from a byte on comes furthest, or that of a part; nothing where memory runs out, or
 * where the text nests too deep for it.
 */
function wordsOf(text, start, part) {
  const dialect = Dialect[text.dialect];
  const found = part
    ? library.expectedPart(dialect, text.bytes, part)
    : library.expected(dialect, text.bytes, start);
  return found.words.split("\0").slice(0, -1);
}

/**
 * Where and why a text is refused whose remaining input begins at `start`, or why the part is unread that begins there; no
 * more than that where memory runs out, or where the text nests too deep for it.
 * @returns {{place: number, hint: string | null, hintKind: string | null, hintPlace: number, hintLength: number,
 *   message: string}} places in bytes
 */
function explanationOf(text, start, part) {
  const dialect = Dialect[text.dialect];
  const found = part
    ? library.explainPart(dialect, text.bytes, part)
    : library.explain(dialect, text.bytes, start);
  const { status, place, message, hint, hintKind, hintPlace, hintLength } = found;
  if (status !== Status.REFUSED) {
    const { line, column } = text.position(start);
    const why = status === Status.TOO_DEEP ? "it nests too deep" : "memory ran out";
    const said = `${line}:${column}: unread from here on; ${why} for more`;
    const none = { hint: null, hintKind: null, hintPlace: start, hintLength: 0 };
    return { place: start, ...none, message: said };
  }
  return {
    place,
    hint: hint.trimEnd() || null,
    hintKind: HINTS[hintKind],
    hintPlace,
    hintLength,
    message: message.replace(/\n$/, ""),
  };
}

module.exports = { explanationOf, inARow, isReadToday, wordsOf };
