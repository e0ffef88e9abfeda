"use strict";

/**
 * How the value of a node is made, by its rule. `lib/written/makers.js` says what each rule makes.
 * @module
 */

const { NUMBERS, RULES } = require("./written/grammar.js");
const { ByChoice, Form, ITEMS, FOLLOWING, Option, THROUGH } = require("./writing.js");

/** Makes a value of a class; of a list that class is told the class of its separators. */
class One {
  constructor(kind, separator) {
    this.kind = kind;
    this.separator = separator;
  }

  get kinds() {
    return [this.kind];
  }

  kindAt() {
    return this.kind;
  }

  make(tree, node) {
    return new this.kind(tree, node, this.separator);
  }

  get form() {
    return this.kind.form(this.separator);
  }
}

/** Makes the variant for the rule that was chosen. */
class Variants {
  constructor(classes) {
    this.classes = new Map(Object.entries(classes).map(([rule, kind]) => [NUMBERS[rule], kind]));
  }

  get kinds() {
    return [...this.classes.values()];
  }

  kindAt(tree, node) {
    return this.classes.get(tree.rule(node + 1));
  }

  make(tree, node) {
    return new (this.kindAt(tree, node))(tree, node);
  }

  get form() {
    return new Map([...this.classes].map(([rule, kind]) => [rule, kind.form()]));
  }
}

/**
 * Makes the variant of a factored row, in which docstrings and attributes are in front of what was chosen. What the variant
 * holds has these too, and is at the same node.
 */
class Kinds extends Variants {
  constructor(pairs) {
    const all = Object.entries(pairs);
    super(Object.fromEntries(all.map(([rule, [variant]]) => [rule, variant])));
    this.structs = new Map(all.map(([rule, [, struct]]) => [NUMBERS[rule], struct]));
  }

  get kinds() {
    return [...this.classes.values(), ...this.structs.values()];
  }

  kindAt(tree, node) {
    return this.classes.get(tree.rule(chosenIn(tree, node)));
  }

  /** The class of what the variant holds. */
  structAt(tree, node) {
    return this.structs.get(tree.rule(chosenIn(tree, node)));
  }

  get form() {
    const forms = [...this.classes].map(([rule, kind]) => [rule, kind.form().around(this.structs.get(rule).form())]);
    return new ByChoice(new Map(forms));
  }
}

/** The node of what was chosen in a factored row, whose last part is the choice. */
const chosenIn = (tree, node) => tree.children(node).pop() + 1;

/** What makes no value of a class: a list, a tuple, or what may be absent. */
class Other {
  kinds = [];
}

/** Makes what may be absent, or null. */
class Maybe extends Other {
  form = new Option("null");

  make(tree, node) {
    const below = tree.child(node, 0);
    return below < 0 ? null : made(tree, below);
  }
}

/** Makes a list of items that are one behind another. */
class Many extends Other {
  form = new Form("[", [""], "]", [", "]);

  make(tree, node) {
    return Object.freeze(tree.children(node).map((it) => made(tree, it)));
  }
}

/** Makes a list of all parts, each of its own type. In JSON it may have a name. */
class Together extends Many {
  constructor(name) {
    super();
    if (name) {
      this.form = new Form(`{"${name}": [`, [""], "]}", [", "]);
    }
  }
}

/** Makes a list of the definitions of a text, and of the docstrings that none follows. */
class Pieces extends Many {
  make(tree, node) {
    return Object.freeze(super.make(tree, node).filter((it) => it !== null));
  }
}

/** Makes what is below a node of one part, or null. What was chosen in a factored row is no value of its own. */
class Through extends Other {
  form = THROUGH;

  make(tree, node) {
    return isMade(tree.rule(node + 1)) && tree.child(node, 1) < 0 ? made(tree, node + 1) : null;
  }
}

/** Makes what is in the part of this number. */
class Within extends Other {
  form = THROUGH;

  constructor(number) {
    super();
    this.number = number;
  }

  make(tree, node) {
    return made(tree, tree.child(node, this.number));
  }
}

/** A part of a list with separators, which has no value: its items and what follows the first of them. */
class Between extends Other {
  constructor(form) {
    super();
    this.form = form;
  }
}

/** What each rule makes, by its number. */
const makers = [];

/** Says what rules make, by their names. */
function tellMakers(named) {
  for (const [rule, maker] of Object.entries(named)) {
    makers[NUMBERS[rule]] = typeof maker === "function" ? new One(maker) : maker;
  }
}

/** The value of a node: the same one, however often it is asked for. */
function made(tree, node) {
  const { values } = tree;
  let value = values[node];
  if (value === undefined) {
    value = makers[tree.rule(node)].make(tree, node);
    values[node] = value;
  }
  return value;
}

/** Whether a value is made for a rule: nothing is for a rule of whitespace or comments. */
const isMade = (rule) => makers[rule] !== undefined;

/** What the variant at a node holds where its row is a factored one, which is at that node too; else null. */
const innerOf = (tree, node) => (makers[tree.rule(node)] instanceof Kinds ? made(tree, node).value : null);

/** What the variant of a factored row holds, made anew. */
function structOf(tree, node) {
  return new (makers[tree.rule(node)].structAt(tree, node))(tree, node);
}

/** The class of a node's value, where it has one that is no list. */
const kindAt = (tree, node) => makers[tree.rule(node)].kindAt(tree, node);

const known = new Map();

/** By the number of a rule, 1 where a value that it gives may have such a class. */
function flags(name, isWanted) {
  let found = known.get(name);
  if (!found) {
    found = Uint8Array.from(RULES, (_, rule) => (makers[rule]?.kinds.some(isWanted) ? 1 : 0));
    known.set(name, found);
  }
  return found;
}

/** The rules that may give a value of a class, or of one that derives from it. */
const rulesOf = (kind) => flags(kind, (it) => it === kind || it.prototype instanceof kind);

/** The rules that give a value of any class. */
const rulesOfAll = () => flags("all", () => true);

let forms;

/** How the value of each rule is written as JSON, by its number. */
function formsOf() {
  forms ??= RULES.map((_, rule) => makers[rule]?.form ?? null);
  return forms;
}

module.exports = {
  Between, FOLLOWING, ITEMS, Kinds, Many, Maybe, One, Pieces, Through, Together, Variants, Within, chosenIn, formsOf,
  innerOf, isMade, kindAt, made, rulesOf, rulesOfAll, structOf, tellMakers,
};
