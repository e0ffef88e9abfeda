"use strict";

/**
 * The nodes of a text: an array of numbers in preorder, and the ways about in it.
 * @module
 */

const { NUMBERS } = require("./written/grammar.js");

/** How many numbers a node has, and which is which. */
const STRIDE = 4;
const [RULE, DEPTH, START, END] = [0, 1, 2, 3];
const TRIVIA = NUMBERS.trivia;
/** A docstring's line: whitespace, `///` and what follows it up to an LF. */
const [DOC_LINE, DOC_TEXT] = [NUMBERS.doc_line, NUMBERS.past_lf];

/** A text that was read, with its nodes, and the values that were made of them. */
class Tree {
  #numbers;
  #behind;
  #above;

  /**
   * @param {import("./text.js").Text} text
   * @param {Uint32Array} numbers four a node: its rule, its depth, and the bytes from which to which it goes
   */
  constructor(text, numbers) {
    this.text = text;
    this.#numbers = numbers;
    this.count = numbers.length / STRIDE;
    /** The value of each node, where it was made. */
    this.values = new Array(this.count);
  }

  rule(node) {
    return this.#numbers[node * STRIDE + RULE];
  }

  depth(node) {
    return this.#numbers[node * STRIDE + DEPTH];
  }

  start(node) {
    return this.#numbers[node * STRIDE + START];
  }

  end(node) {
    return this.#numbers[node * STRIDE + END];
  }

  /** The first node behind a node and all below it. */
  behind(node) {
    this.#behind ??= this.#link();
    return this.#behind[node];
  }

  /** The node right above a node; of one in no other it is that itself. */
  above(node) {
    if (!this.#above) {
      this.#above = Uint32Array.from({ length: this.count }, (_, node) => node);
      this.#link((child, parent) => (this.#above[child] = parent));
    }
    return this.#above[node];
  }

  /** The child of this number, or -1. */
  child(node, number) {
    const end = this.behind(node);
    let child = node + 1;
    for (let at = 0; at < number && child < end; at++) {
      child = this.#behind[child];
    }
    return child < end ? child : -1;
  }

  /** The nodes in no other. */
  roots() {
    const found = [];
    for (let node = 0; node < this.count; node = this.behind(node)) {
      found.push(node);
    }
    return found;
  }

  /** The nodes right below a node. */
  children(node) {
    const found = [];
    const end = this.behind(node);
    for (let child = node + 1; child < end; child = this.#behind[child]) {
      found.push(child);
    }
    return found;
  }

  /** All that a node takes, in bytes, whitespace and comments included. */
  wholeSpan(node) {
    return { start: this.start(node), end: this.end(node) };
  }

  /** What a node takes, in bytes, without whitespace and comments before and behind it. */
  span(node) {
    return { start: this.coreStart(node), end: this.#coreEnd(node) };
  }

  /** Where the first word of a node begins. */
  coreStart(node) {
    const start = this.start(node);
    const end = start === this.end(node) ? node : this.behind(node);
    for (let other = node; other < end && this.start(other) === start; other++) {
      if (this.rule(other) === TRIVIA) {
        return this.end(other);
      }
      if (this.rule(other) === DOC_LINE) {
        return this.end(other + 1);
      }
    }
    return start;
  }

  /** Where the last word of a node ends. */
  #coreEnd(node) {
    const end = this.end(node);
    const first = end === this.start(node) ? this.count : node;
    for (let other = this.behind(node) - 1; other > first; other--) {
      if (this.rule(other) === TRIVIA) {
        return this.end(other) === end ? this.start(other) : end;
      }
      if (this.rule(other) === DOC_TEXT) {
        return end - 1;
      }
    }
    return end;
  }

  /** Which node follows each and all below it; calls `child(node, parent)` for each in one. */
  #link(child = () => {}) {
    const behind = new Uint32Array(this.count).fill(this.count);
    // the nodes that the next one may be in, by their depths
    const open = [];
    for (let node = 0; node < this.count; node++) {
      const depth = this.depth(node);
      while (open.length > depth) {
        behind[open.pop()] = node;
      }
      if (depth > 0) {
        child(node, open[depth - 1]);
      }
      open.push(node);
    }
    return behind;
  }
}

module.exports = { STRIDE, Tree };
