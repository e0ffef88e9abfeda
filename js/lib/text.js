"use strict";

/**
 * A text as it was given, with its bytes, and where its lines and characters begin.
 * @module
 */

const LINE_FEED = 0x0a;
/** After how many bytes the units before are known. */
const STEP = 64;

/** Whether a byte begins a character. */
const begins = (byte) => (byte & 0xc0) !== 0x80;

/** The first index of a list whose item is greater, by halves. */
function behind(list, value) {
  let [low, high] = [0, list.length];
  while (low < high) {
    const middle = (low + high) >>> 1;
    if (list[middle] > value) {
      high = middle;
    } else {
      low = middle + 1;
    }
  }
  return low;
}

/** A text that was given as a string or as bytes. All places that it is asked for are in bytes of its UTF-8. */
class Text {
  #string;
  #isAscii;
  #lines;
  #before;

  /**
   * @param {string | Uint8Array} given
   * @param {"weedle2" | "today"} dialect by which it is read
   */
  constructor(given, dialect) {
    this.dialect = dialect;
    if (typeof given === "string") {
      this.#string = given;
      this.bytes = Buffer.from(given);
    } else if (given instanceof Uint8Array) {
      // a copy, which nobody writes to while it is read, nor later
      this.bytes = Buffer.from(given);
    } else {
      throw new TypeError(`a text is a string or a Uint8Array, not ${given === null ? "null" : typeof given}`);
    }
  }

  /** The text as a string. */
  get string() {
    this.#string ??= this.bytes.toString("utf8");
    return this.#string;
  }

  /** Whether each character has one byte. */
  get isAscii() {
    this.#isAscii ??= this.string.length === this.bytes.length;
    return this.#isAscii;
  }

  /** The byte at which a lone surrogate of the given string is, or -1. UTF-8 has none. */
  get surrogate() {
    const at = this.isAscii ? -1 : this.string.search(/\p{Surrogate}/u);
    return at < 0 ? -1 : Buffer.byteLength(this.string.slice(0, at));
  }

  /** How many UTF-16 units come before a place. */
  units(place) {
    if (this.isAscii) {
      return place;
    }
    this.#before ??= this.#countBefore();
    const step = Math.floor(place / STEP);
    return this.#before[step] + this.#unitsIn(step * STEP, place);
  }

  /** A span of bytes in UTF-16 units. */
  inUnits({ start, end }) {
    if (this.isAscii) {
      return { start, end };
    }
    const first = this.units(start);
    const isShort = end - start < STEP;
    return { start: first, end: isShort ? first + this.#unitsIn(start, end) : this.units(end) };
  }

  /** A part of the text. */
  slice(span) {
    const { start, end } = this.inUnits(span);
    return this.string.slice(start, end);
  }

  /** The bytes of a part, a character each. */
  raw(start, end) {
    return this.bytes.latin1Slice(start, Math.min(end, this.bytes.length));
  }

  /** The place behind such signs, from a place on. */
  skip(place, signs) {
    let at = place;
    while (at < this.bytes.length && signs.includes(String.fromCharCode(this.bytes[at]))) {
      at++;
    }
    return at;
  }

  /** The place before such signs, from a place back. */
  skipBack(place, signs) {
    let at = place;
    while (at > 0 && signs.includes(String.fromCharCode(this.bytes[at - 1]))) {
      at--;
    }
    return at;
  }

  /** The line and the column of a place; both begin at 1, and the column is in characters. */
  position(place) {
    this.#lines ??= this.#lineStarts();
    const line = behind(this.#lines, place);
    let column = 1;
    for (let at = this.#lines[line - 1]; at < place; at++) {
      column += begins(this.bytes[at]) ? 1 : 0;
    }
    return { line, column };
  }

  /** How many units the characters have that begin in a part. */
  #unitsIn(start, end) {
    let count = 0;
    for (let at = start; at < end; at++) {
      const byte = this.bytes[at];
      count += begins(byte) ? (byte >= 0xf0 ? 2 : 1) : 0;
    }
    return count;
  }

  /** How many units come before each place that is a multiple of STEP. */
  #countBefore() {
    const found = new Uint32Array(Math.floor(this.bytes.length / STEP) + 1);
    for (let step = 1; step < found.length; step++) {
      found[step] = found[step - 1] + this.#unitsIn((step - 1) * STEP, step * STEP);
    }
    return found;
  }

  #lineStarts() {
    const found = [0];
    for (let at = this.bytes.indexOf(LINE_FEED); at >= 0; at = this.bytes.indexOf(LINE_FEED, at + 1)) {
      found.push(at + 1);
    }
    return found;
  }
}

module.exports = { Text };
