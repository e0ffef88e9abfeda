"use strict";

/**
 * The definitions of a text.
 * @module
 */

const { made } = require("./making.js");
const { namesOf } = require("./names.js");
const { Node } = require("./nodes.js");
const { treeOf } = require("./reading.js");
const { Value } = require("./value.js");
const { valuesIn, valuesOf } = require("./walking.js");
require("./written/makers.js");

/** Makes the definitions of a tree. */
let definitionsOf;

/** The definitions of a text: an array, of which `map` and the like give plain ones. */
class Definitions extends Array {
  #tree;

  static {
    definitionsOf = (tree) => {
      const found = new Definitions();
      found.#tree = tree;
      // what today's rules read between definitions gives no value, but for docstrings
      found.push(...tree.children(0).map((node) => made(tree, node)).filter((it) => it !== null));
      return found;
    };
  }

  static get [Symbol.species]() {
    return Array;
  }

  get text() {
    return this.#tree.text.string;
  }

  get syntax() {
    return new Node(this.#tree, 0);
  }

  walk() {
    return valuesIn(this.#tree, 0, this.#tree.count);
  }

  find(wanted, ...more) {
    const isClass = wanted === Value || wanted.prototype instanceof Value;
    return isClass ? valuesOf(this.#tree, 0, this.#tree.count, wanted) : super.find(wanted, ...more);
  }

  names() {
    return namesOf(this.#tree);
  }
}

/** The definitions of a text. */
const parse = (text, options) => definitionsOf(treeOf(text, options));

module.exports = { Definitions, parse };
