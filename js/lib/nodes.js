"use strict";

/**
 * The syntax tree: each rule that was read, with its place.
 * @module
 */

const { inspect } = require("node:util");

const { COMMENTS } = require("./comments.js");
const { treeOf } = require("./reading.js");
const { NUMBERS, RULES } = require("./written/grammar.js");

/** A rule that was read, and the part of the text that it took. */
class Node {
  #tree;
  #node;

  constructor(tree, node) {
    this.#tree = tree;
    this.#node = node;
  }

  get rule() {
    return this.#tree.rule(this.#node);
  }

  get name() {
    return RULES[this.rule];
  }

  get depth() {
    return this.#tree.depth(this.#node);
  }

  get byteSpan() {
    return this.#tree.wholeSpan(this.#node);
  }

  get span() {
    return this.#tree.text.inUnits(this.byteSpan);
  }

  get position() {
    return this.#tree.text.position(this.byteSpan.start);
  }

  get text() {
    return this.#tree.text.slice(this.byteSpan);
  }

  get children() {
    return this.#tree.children(this.#node).map((it) => new Node(this.#tree, it));
  }

  get isLeaf() {
    return this.#tree.child(this.#node, 0) < 0;
  }

  get parent() {
    const above = this.#tree.above(this.#node);
    return above === this.#node ? null : new Node(this.#tree, above);
  }

  walk() {
    return this.#those(() => true);
  }

  find(name) {
    const wanted = NUMBERS[name];
    if (wanted === undefined) {
      throw new RangeError(`no rule has the name ${JSON.stringify(name)}`);
    }
    return this.#those((rule) => rule === wanted);
  }

  get comments() {
    return [...this.#those((rule) => COMMENTS.includes(rule))];
  }

  equals(other) {
    return other instanceof Node && other.#tree === this.#tree && other.#node === this.#node;
  }

  /** Those of it and the nodes below it that have such a rule. */
  *#those(isWanted) {
    const tree = this.#tree;
    const behind = tree.behind(this.#node);
    for (let at = this.#node; at < behind; at++) {
      if (isWanted(tree.rule(at))) {
        yield new Node(tree, at);
      }
    }
  }

  [inspect.custom]() {
    return `<${this.name} ${this.span.start}..${this.span.end}>`;
  }
}

/** The node of a whole text, whose children are its definitions. */
const syntax = (text, options) => new Node(treeOf(text, options), 0);

module.exports = { Node, syntax };
