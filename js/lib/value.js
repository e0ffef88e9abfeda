"use strict";

/**
 * What all values of the typed tree have. Their classes are in `lib/written`.
 * @module
 */

const { inspect } = require("node:util");

const { commentsBefore, commentsBehind, docOf } = require("./comments.js");
const { chosenIn, formsOf, made, structOf } = require("./making.js");
const { parentOf, valuesIn, valuesOf } = require("./walking.js");
const { entries, listed, wrapped, write } = require("./writing.js");

/** The tree and the node of a value; the value's part of a number, or null where there is none. */
let treeOf, nodeOf, part;
/** The same of what the variant of a factored row holds: its parts in front of the choice come first. */
let chosenPart;

/** What was read of a text. Its parts are made when they are asked for, and once. */
class Value {
  #tree;
  #node;

  static {
    treeOf = (value) => value.#tree;
    nodeOf = (value) => value.#node;
    part = (value, number) => {
      const child = value.#tree.child(value.#node, number);
      return child < 0 ? null : made(value.#tree, child);
    };
    chosenPart = (value, number) => {
      const tree = value.#tree;
      const fronts = tree.children(value.#node).length - 1;
      const [node, at] = number < fronts ? [value.#node, number] : [chosenIn(tree, value.#node), number - fronts];
      return made(tree, tree.child(node, at));
    };
  }

  /** The names of its fields, each with its name in JSON. */
  static fields = {};

  constructor(tree, node) {
    this.#tree = tree;
    this.#node = node;
  }

  get kind() {
    return this.constructor.name;
  }

  get byteSpan() {
    return this.#tree.span(this.#node);
  }

  get span() {
    return this.#tree.text.inUnits(this.byteSpan);
  }

  get position() {
    return this.#tree.text.position(this.byteSpan.start);
  }

  get text() {
    return this.#tree.text.slice(this.byteSpan);
  }

  get parent() {
    return parentOf(this.#tree, this.#node);
  }

  get comments() {
    return commentsBefore(this.#tree, this.byteSpan.start);
  }

  get trailing() {
    return commentsBehind(this.#tree, this.byteSpan.end);
  }

  get doc() {
    return docOf(this);
  }

  walk() {
    return valuesIn(this.#tree, this.#node, this.#tree.behind(this.#node));
  }

  find(kind) {
    return valuesOf(this.#tree, this.#node, this.#tree.behind(this.#node), kind);
  }

  equals(other) {
    const isLike = other instanceof Value && other.constructor === this.constructor;
    return other === this || (isLike && other.jsonText() === this.jsonText());
  }

  jsonText() {
    return write(this.#tree, this.#node, formsOf());
  }

  toJSON() {
    return JSON.parse(this.jsonText());
  }

  [inspect.custom](depth, options) {
    const more = { ...options, depth: options.depth === null ? null : depth - 1 };
    return depth < 0 ? `[${this.kind}]` : `${this.kind} ${inspect(this.shown(), more)}`;
  }

  /** What `console.log` shows of it: its fields, except for words that are the same in each such value. */
  shown() {
    const names = Object.keys(this.constructor.fields);
    const pairs = names.map((name) => [name, this[name]]);
    return Object.fromEntries(pairs.filter(([, it]) => !(it instanceof Terminal)));
  }

  /** How it is written as JSON. */
  static form() {
    return entries(Object.values(this.fields));
  }
}

/** A word or a sign that is always spelled the same. */
class Terminal extends Value {
  static form() {
    const text = `"${this.name}"`;
    return () => text;
  }

  [inspect.custom]() {
    return this.kind;
  }
}

/** A part of the text that is kept, as a name. `value` is what it says. */
class Leaf extends Value {
  static fields = { value: "value" };
  /** The number of the part that is kept. */
  static kept = 0;

  get value() {
    return this.constructor.read(treeOf(this), nodeOf(this));
  }

  [inspect.custom](depth, options) {
    return `${this.kind} ${inspect(this.value, options)}`;
  }

  static form() {
    return (tree, node) => `{"${this.name}": ${JSON.stringify(this.read(tree, node))}}`;
  }

  /** What the value of a node says. */
  static read(tree, node) {
    return tree.text.slice(tree.wholeSpan(tree.child(node, this.kept)));
  }
}

/** A name. Its place is that of `value`: an underscore that leads it is before that. */
class Name extends Leaf {
  get byteSpan() {
    const tree = treeOf(this);
    return tree.wholeSpan(tree.child(nodeOf(this), this.constructor.kept));
  }
}

/** The lines of a docstring, without their `///`, joined by LF. */
class Lines extends Leaf {
  static read(tree, node) {
    const [first, others] = tree.children(node);
    const texts = [first, ...tree.children(others)].map((line) => tree.children(line).pop());
    return texts.map((it) => tree.text.slice(tree.wholeSpan(it)).slice(0, -1)).join("\n");
  }
}

/** `true` or `false`. */
class Truth extends Leaf {
  static read(tree, node) {
    return tree.text.slice(tree.span(node)) === "true";
  }
}

/** A whole number. */
class Whole extends Leaf {
  /** What precedes its digits in JavaScript, but not in WebIDL. */
  static prefix = "";

  get bigint() {
    const isNegative = this.value.startsWith("-");
    const size = BigInt(this.constructor.prefix + this.value.slice(isNegative ? 1 : 0));
    return isNegative ? -size : size;
  }

  get number() {
    return Number(this.bigint);
  }
}

/** A number with a point or an exponent. */
class Decimal extends Leaf {
  get number() {
    return Number(this.value);
  }
}

/** A value of one part, which has no name of its own. */
class Wrapped extends Value {
  static fields = { value: "value" };

  get value() {
    return part(this, 0);
  }

  shown() {
    return this.value;
  }

  static form() {
    return wrapped(this.name);
  }
}

/** One of several variants, each a class of its own with what it holds as `value`. */
class Choice extends Wrapped {
  /** The class of a variant, which in JSON may have another name. */
  static variant(name, nameInJson = name) {
    const kind = class extends this {
      get variant() {
        return name;
      }

      static form() {
        return wrapped(nameInJson);
      }
    };
    Object.defineProperty(kind, "name", { value: `${this.name}.${name}` });
    return kind;
  }
}

/** A variant of a factored row, which is at the same node as what it holds. */
class Factored extends Choice {
  #value;

  get value() {
    return (this.#value ??= structOf(treeOf(this), nodeOf(this)));
  }
}

/** What such a variant holds: what is in front of the choice is a part of it too. */
class Chosen extends Value {
  get parent() {
    return made(treeOf(this), nodeOf(this));
  }

  *walk() {
    const all = super.walk();
    // the variant that holds it
    all.next();
    yield* all;
  }

  *find(kind) {
    const variant = this.parent;
    for (const it of super.find(kind)) {
      if (it !== variant) {
        yield it;
      }
    }
  }

  jsonText() {
    return write(treeOf(this), nodeOf(this), formsOf(), this.constructor.form());
  }
}

/** A whole number, in one of several bases. */
class WholeChoice extends Choice {
  get number() {
    return this.value.number;
  }

  get bigint() {
    return this.value.bigint;
  }
}

/** A number with a point or an exponent, or a word for what has no end or is none. */
class DecimalChoice extends Choice {
  get number() {
    return { NegInfinity: -Infinity, Infinity, NaN }[this.variant] ?? this.value.number;
  }
}

/** Items with separators between them. */
class Listed extends Value {
  static fields = { list: "list", separator: "separator" };
  #Separator;
  #list;
  #separator;

  constructor(tree, node, Separator) {
    super(tree, node);
    this.#Separator = Separator;
  }

  get list() {
    this.#list ??= Object.freeze(this.#nodes().map((it) => made(treeOf(this), it)));
    return this.#list;
  }

  get separator() {
    this.#separator ??= this.#between();
    return this.#separator;
  }

  [Symbol.iterator]() {
    return this.list[Symbol.iterator]();
  }

  /** The node of the items and what separates them. */
  listing() {
    return nodeOf(this);
  }

  #nodes() {
    const tree = treeOf(this);
    const [first, tail] = tree.children(this.listing());
    return tail === undefined ? [] : [first, ...tree.children(tail).filter((_, number) => number % 2 === 1)];
  }

  /** A separator: the first one, or one with no text at the end of the items. */
  #between() {
    const tree = treeOf(this);
    const tail = tree.child(this.listing(), 1);
    const found = tail < 0 ? -1 : tree.child(tail, 0);
    return found < 0 ? new this.#Separator(tree, tail < 0 ? nodeOf(this) : tail) : made(tree, found);
  }

  static form(Separator) {
    return listed(["", ""], Separator.name);
  }
}

/** The same, one item at least, and one further separator where present. */
class FilledList extends Listed {
  listing() {
    return treeOf(this).child(nodeOf(this), 0);
  }

  static form(Separator) {
    return listed([""], Separator.name);
  }
}

module.exports = {
  Choice,
  Chosen,
  Decimal,
  DecimalChoice,
  Factored,
  FilledList,
  Leaf,
  Lines,
  Listed,
  Name,
  Terminal,
  Truth,
  Value,
  Whole,
  WholeChoice,
  Wrapped,
  chosenPart,
  nodeOf,
  part,
  treeOf,
};
