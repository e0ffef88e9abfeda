"use strict";

/**
 * The dialects: the grammars by which a text may be read.
 * @module
 */

/** Their numbers, as `enum weedle_dialect` of include/weedle.h has them. */
const Dialect = Object.freeze({ weedle2: 0, today: 1 });
const NAMES = Object.keys(Dialect);

/**
 * The dialect that the options of a call name: weedle2's where they name none.
 *
 * A number isn't looked at: it is what `texts.map(parse)` gives a call behind the text.
 */
function dialectOf(options) {
  if (options === undefined || typeof options === "number") {
    return "weedle2";
  }
  if (options === null || typeof options !== "object") {
    throw new TypeError(`the options are an object, not ${options === null ? "null" : typeof options}`);
  }
  const { dialect = "weedle2" } = options;
  if (!NAMES.includes(dialect)) {
    throw new TypeError(`no dialect has the name ${JSON.stringify(dialect)}: they are ${NAMES.join(" and ")}`);
  }
  return dialect;
}

module.exports = { Dialect, dialectOf };
