"use strict";

/**
 * Error recovery: the parts of a text, each read or unread.
 * @module
 */

const { inspect } = require("node:util");

const { Refused } = require("./errors.js");
const { made, rulesOfAll } = require("./making.js");
const { Node } = require("./nodes.js");
const { partsOf } = require("./reading.js");
const { NUMBERS, RULES } = require("./written/grammar.js");
require("./written/makers.js");

/** The numbers of a part, in their order. */
const [RULE, IS_READ, START, END, OF_DEFINITION] = [0, 1, 2, 3, 4];

/** The rules of definitions, and that of a piece of a text by today's rules: a definition, or what is between two. */
const [DEFINITIONS, PIECE] = [[NUMBERS.definition, NUMBERS.today_definition], NUMBERS.today_piece];

/** A part of a text: a rule that is read, or an unread stretch. */
class Part {
  #tree;
  #numbers;
  #node;
  #refusal;

  constructor(tree, numbers, node) {
    this.#tree = tree;
    this.#numbers = numbers;
    this.#node = node;
  }

  get rule() {
    return RULES[this.#numbers[RULE]];
  }

  get isRead() {
    return this.#numbers[IS_READ] === 1;
  }

  get byteSpan() {
    return { start: this.#numbers[START], end: this.#numbers[END] };
  }

  get span() {
    return this.#tree.text.inUnits(this.byteSpan);
  }

  get byteDefinition() {
    return this.#numbers[OF_DEFINITION];
  }

  get position() {
    return this.#tree.text.position(this.byteSpan.start);
  }

  get text() {
    return this.#tree.text.slice(this.byteSpan);
  }

  get node() {
    return this.isRead ? new Node(this.#tree, this.#node) : null;
  }

  get value() {
    const rule = this.#numbers[RULE];
    const isValue = this.isRead && (rule === PIECE || rulesOfAll()[rule] === 1);
    return isValue ? made(this.#tree, this.#node) : null;
  }

  get isDefinition() {
    const rule = this.#numbers[RULE] === PIECE && this.isRead ? this.#tree.rule(this.#node + 1) : this.#numbers[RULE];
    return this.isRead && DEFINITIONS.includes(rule);
  }

  get refusal() {
    if (this.isRead) {
      return null;
    }
    return (this.#refusal ??= new Refused(this.#tree.text, this.byteSpan.start, this.#numbers));
  }

  [inspect.custom]() {
    return `<${this.isRead ? "" : "no "}${this.rule} ${this.span.start}..${this.span.end}>`;
  }
}

/** The parts of a text, one behind another: together they are the text. */
class Recovered {
  #tree;

  constructor(tree, numbers) {
    const roots = tree.roots().values();
    this.#tree = tree;
    this.parts = numbers.map((it) => new Part(tree, it, it[IS_READ] ? roots.next().value : -1));
  }

  get text() {
    return this.#tree.text.string;
  }

  get errors() {
    return this.parts.filter((it) => !it.isRead).map((it) => it.refusal);
  }

  get definitions() {
    return this.parts.filter((it) => it.isDefinition).map((it) => it.value);
  }
}

/** The parts of a text, read or unread, whatever errors it has. */
function recover(text, options) {
  const { tree, numbers } = partsOf(text, options);
  return new Recovered(tree, numbers);
}

module.exports = { Part, Recovered, recover };
