"use strict";

/**
 * The names of a text, and what they stand for.
 * @module
 */

const { made } = require("./making.js");
const { NUMBERS, RULES } = require("./written/grammar.js");
const { LATER, ROLES } = require("./written/roles.js");

const byRule = (roles) => RULES.map((name) => roles[name]);
const [FIRST_ROLES, LATER_ROLES] = [byRule(ROLES), byRule(LATER)];

/** A name in a text, and what it stands for. */
class Name {
  #tree;

  constructor(tree, node, role) {
    this.#tree = tree;
    this.role = role;
    this.value = made(tree, node);
    const [, underscore, letters] = tree.children(node);
    this.byteSpan = { start: tree.start(underscore), end: tree.end(letters) };
  }

  get text() {
    return this.value.value;
  }

  get span() {
    return this.#tree.text.inUnits(this.byteSpan);
  }

  get position() {
    return this.#tree.text.position(this.byteSpan.start);
  }
}

/** The names of a tree, in their order: each right below the rule that says its role. */
function* namesOf(tree) {
  let last = -1;
  for (let node = 0; node < tree.count; node++) {
    if (tree.rule(node) === NUMBERS.identifier) {
      const above = tree.above(node);
      const rule = tree.rule(above);
      const role = (above === last && LATER_ROLES[rule]) || FIRST_ROLES[rule];
      last = above;
      yield new Name(tree, node, role);
    }
  }
}

module.exports = { Name, namesOf };
