"use strict";

/**
 * Ways over the values of a tree: all of them, those of a class, and the one above.
 * @module
 */

const { innerOf, kindAt, made, rulesOf, rulesOfAll } = require("./making.js");

/** The values of the nodes from one up to another, in preorder. */
function* valuesIn(tree, node, behind) {
  const wanted = rulesOfAll();
  for (let at = node; at < behind; at++) {
    if (wanted[tree.rule(at)] === 1) {
      yield made(tree, at);
      const inner = innerOf(tree, at);
      if (inner !== null) {
        yield inner;
      }
    }
  }
}

/** Those of a class among them. */
function* valuesOf(tree, node, behind, kind) {
  const wanted = rulesOf(kind);
  for (let at = node; at < behind; at++) {
    if (wanted[tree.rule(at)] === 1) {
      if (isOf(kindAt(tree, at), kind)) {
        yield made(tree, at);
      }
      const inner = innerOf(tree, at);
      if (inner !== null && isOf(inner.constructor, kind)) {
        yield inner;
      }
    }
  }
}

/** Whether a class is another, or derives from it. */
const isOf = (one, other) => one === other || one.prototype instanceof other;

/** The value that a node is in, or null. */
function parentOf(tree, node) {
  const values = rulesOfAll();
  let [below, above] = [node, tree.above(node)];
  while (above !== below) {
    if (values[tree.rule(above)] === 1) {
      return innerOf(tree, above) ?? made(tree, above);
    }
    [below, above] = [above, tree.above(above)];
  }
  return null;
}

module.exports = { parentOf, valuesIn, valuesOf };
