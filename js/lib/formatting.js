"use strict";

/**
 * A formatted text.
 * @module
 */

const { Dialect } = require("./dialects.js");
const { Status, library } = require("./library.js");
const { faultOf, textOf } = require("./reading.js");

/** Whitespace, or a comment: `///` begins a docstring. */
const TRIVIA = /[ \t\r\n]+|\/\/(?!\/)[^\n]*|\/\*[^]*?\*\//y;

/** Whether a text is whitespace and comments alone, as `// a`, or empty. */
function isBlank(string) {
  let place = 0;
  do {
    TRIVIA.lastIndex = place;
    place += TRIVIA.exec(string)?.[0].length ?? 0;
  } while (TRIVIA.lastIndex !== 0 && place < string.length);
  return place === string.length;
}

/** The formatted text, as a string of a string, and as a Buffer of bytes. */
function format(given, options) {
  const text = textOf(given, options);
  let laidOut = library.format(Dialect[text.dialect], text.bytes);
  const { status, rest } = laidOut;
  const isRefused = status === Status.REFUSED;
  // today's rules read what weedle2's refuse there
  const stays = (isRefused || Buffer.isBuffer(laidOut)) && isBlank(text.string);
  if (stays) {
    laidOut = text.bytes;
  } else if (!Buffer.isBuffer(laidOut)) {
    throw faultOf(text, status, rest);
  }
  return typeof given === "string" ? laidOut.toString("utf8") : laidOut;
}

module.exports = { format };
