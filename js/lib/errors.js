"use strict";

/**
 * Why a text gives no tree.
 * @module
 */

const { explanationOf, inARow, isReadToday, wordsOf } = require("./explanation.js");

/** What is said of a text that weedle2's rules refuse and today's read whole, and how a program in JavaScript says so. */
const [READ_TODAY, IN_JAVASCRIPT] = ["today's WebIDL reads it", 'dialect: "today"'];

/** The message of what is refused, without the last line that says so. */
let saidOf;

/** A text that the grammar doesn't read whole, or a part of one that is unread. */
class Refused extends SyntaxError {
  #text;
  #part;
  #said;
  #words;

  static {
    saidOf = (refused) => refused.#said;
  }

  constructor(text, start, part = null) {
    const { place, hint, hintKind, hintPlace, hintLength, message } = explanationOf(text, start, part);
    super(message);
    const { line, column } = text.position(place);
    this.#text = text;
    this.#part = part;
    this.#said = message;
    Object.assign(this, { line, column, hint, hintKind, dialect: text.dialect });
    this.isReadToday = part === null && isReadToday(text);
    this.message = this.isReadToday ? `${message}\n${READ_TODAY}: ${IN_JAVASCRIPT}` : message;
    this.hintByteSpan = hintKind && { start: hintPlace, end: hintPlace + hintLength };
    this.hintSpan = hintKind && { start: text.units(hintPlace), end: text.units(hintPlace + hintLength) };
    Object.assign(this, { start: text.units(start), place: text.units(place), byteStart: start, bytePlace: place });
  }

  get name() {
    return "Refused";
  }

  get words() {
    return (this.#words ??= Object.freeze(wordsOf(this.#text, this.byteStart, this.#part)));
  }

  get expected() {
    return inARow(this.words);
  }
}

/** Bytes that aren't UTF-8, or a string with a lone surrogate, which UTF-8 hasn't. */
class NotUtf8 extends TypeError {
  constructor(place) {
    super(`the text isn't UTF-8 from byte ${place} on`);
    this.byteStart = place;
  }

  get name() {
    return "NotUtf8";
  }
}

/** Memory was refused. */
class NoMemory extends RangeError {
  constructor(text) {
    super(`no memory to read ${text.bytes.length} bytes`);
  }

  get name() {
    return "NoMemory";
  }
}

module.exports = { NoMemory, NotUtf8, READ_TODAY, Refused, saidOf };
