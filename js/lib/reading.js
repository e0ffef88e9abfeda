"use strict";

/**
 * The reading of a text, with an exception for each way in which it may have no tree.
 * @module
 */

const { Dialect, dialectOf } = require("./dialects.js");
const { NoMemory, NotUtf8, Refused } = require("./errors.js");
const { Status, library } = require("./library.js");
const { Text } = require("./text.js");
const { STRIDE, Tree } = require("./tree.js");

/** How many nodes there is room for at first: most texts have 0.8 to 1.6 a byte. */
const [NODES_A_BYTE, LEAST_NODES] = [1.75, 64];

/** What is thrown of a text for which the library has this status. */
function faultOf(text, status, rest) {
  switch (status) {
    case Status.REFUSED:
      return new Refused(text, rest);
    case Status.NOT_UTF8:
      return new NotUtf8(rest);
    case Status.NO_MEMORY:
      return new NoMemory(text);
    case Status.TOO_LONG:
      return new RangeError(`a text of ${text.bytes.length} bytes is longer than nodes can hold`);
    case Status.TOO_DEEP:
      return new RangeError("the text nests too deep for today's rules to divide it into parts");
    default:
      return new Error(`the library gives the status ${status}`);
  }
}

/** A text that was given, which has to be Unicode, with the dialect of some options. */
function textOf(given, options) {
  const text = new Text(given, dialectOf(options));
  if (typeof given === "string" && text.surrogate >= 0) {
    throw new NotUtf8(text.surrogate);
  }
  return text;
}

/** Room for so many nodes, or null where there is no memory for it. */
function roomFor(nodes) {
  try {
    return new Uint32Array(nodes * STRIDE);
  } catch (fault) {
    if (fault instanceof RangeError) {
      return null;
    }
    throw fault;
  }
}

/** The nodes of a text. A text that has more of them than most is read again with as much room as it takes. */
function treeOf(given, options) {
  const text = textOf(given, options);
  const dialect = Dialect[text.dialect];
  let room = roomFor(Math.ceil(text.bytes.length * NODES_A_BYTE) + LEAST_NODES) ?? new Uint32Array(0);
  let found = library.syntax(dialect, text.bytes, room);
  if (found.status === Status.NO_ROOM) {
    room = roomFor(found.count);
    if (room === null) {
      throw new NoMemory(text);
    }
    found = library.syntax(dialect, text.bytes, room);
  }
  if (found.status !== Status.READ) {
    throw faultOf(text, found.status, found.rest);
  }
  return new Tree(text, room.subarray(0, found.count * STRIDE));
}

/** How many numbers a part has, and for how many parts there is room at first beside one for each byte. */
const [PART_STRIDE, LEAST_PARTS] = [5, 64];

/** Room for so many parts and nodes. */
function roomsFor(text, parts, nodes) {
  const rooms = [roomFor((parts * PART_STRIDE) / STRIDE), roomFor(nodes)];
  if (rooms.includes(null)) {
    throw new NoMemory(text);
  }
  return rooms;
}

/** The numbers of the parts of a text, each a Uint32Array, and the nodes of those that are read. */
function partsOf(given, options) {
  const text = textOf(given, options);
  const [dialect, { length }] = [Dialect[text.dialect], text.bytes];
  // a multiple of what makes the room of parts one of whole nodes
  const many = STRIDE * Math.ceil((length + LEAST_PARTS) / STRIDE);
  let [parts, nodes] = roomsFor(text, many, Math.ceil(length * NODES_A_BYTE) + LEAST_NODES);
  let found = library.recover(dialect, text.bytes, parts, nodes);
  if (found.status === Status.NO_ROOM) {
    [parts, nodes] = roomsFor(text, STRIDE * Math.ceil(found.parts / STRIDE), found.nodes);
    found = library.recover(dialect, text.bytes, parts, nodes);
  }
  if (found.status !== Status.READ) {
    throw faultOf(text, found.status, found.rest);
  }
  const starts = Array.from({ length: found.parts }, (_, at) => at * PART_STRIDE);
  const numbers = starts.map((at) => parts.slice(at, at + PART_STRIDE));
  return { numbers, tree: new Tree(text, nodes.subarray(0, found.nodes * STRIDE)) };
}

module.exports = { faultOf, partsOf, textOf, treeOf };
