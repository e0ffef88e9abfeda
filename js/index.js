"use strict";

/**
 * A parser of WebIDL: the proved parser of this repository, with the typed tree of weedle2.
 *
 * `parse` gives the definitions of a text, each with its parts as fields; `syntax` gives the nodes, rule by rule;
 * `format` lays a text out. What isn't WebIDL is `Refused`, with line, column and what was expected there; `recover` gives
 * all that can be read of it, and all its errors.
 * index.d.ts has what each gives. With `{ dialect: "today" }` a text is read by the rules of today's WebIDL; `today` has
 * the classes of what their tree has and weedle2's hasn't.
 * @module
 */

const { NoMemory, NotUtf8, Refused } = require("./lib/errors.js");
const { format } = require("./lib/formatting.js");
const { Name } = require("./lib/names.js");
const { Node, syntax } = require("./lib/nodes.js");
const { Definitions, parse } = require("./lib/parsing.js");
const { Part, Recovered, recover } = require("./lib/recovery.js");
const { Choice, Listed, Terminal, Value } = require("./lib/value.js");
const { RULES } = require("./lib/written/grammar.js");
const term = require("./lib/written/term.js");
const today = require("./today.js");
const { version } = require("./package.json");

module.exports = {
  Choice,
  Definitions,
  Listed,
  Name,
  NoMemory,
  Node,
  NotUtf8,
  Part,
  RULES,
  Recovered,
  Refused,
  Terminal,
  Value,
  format,
  parse,
  recover,
  syntax,
  term,
  today,
  version,
  ...require("./lib/written/values.js"),
};
