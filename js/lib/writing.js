"use strict";

/**
 * Values as JSON, as docs/USING.md has it.
 *
 * A value is written in one pass over its nodes, which are in preorder. So nothing here calls itself, values may
 * nest as deep as they will, and their parts aren't made for it.
 * @module
 */

/**
 * How a value is written that has parts: what is around them, and before each.
 *
 * `fronts` come before the first parts, and `others` in turn before all that follow; null leaves a part out. Where
 * parts are lacking, `absent` is written in their place, if it isn't null.
 */
class Form {
  constructor(opening, fronts, closing, others = [], absent = null) {
    this.opening = opening;
    this.closing = closing;
    this.fronts = fronts;
    this.others = others;
    this.absent = absent;
  }

  /** What precedes the part of this number. */
  front(number) {
    const { fronts, others } = this;
    return number < fronts.length ? fronts[number] : others[(number - fronts.length) % others.length];
  }

  /** What follows so many parts. */
  end(number) {
    if (this.absent === null || number >= this.fronts.length) {
      return this.closing;
    }
    return this.fronts.slice(number).map((it) => it + this.absent).join("") + this.closing;
  }

  /** The form of what has one part, which is at the same node: that of the part within this one. */
  around(inner) {
    const { fronts, others, absent } = inner;
    return new Form(this.opening + this.front(0) + inner.opening, fronts, inner.closing + this.closing, others, absent);
  }
}

/** How the values of a factored row are written, by the rule that was chosen behind what is in front. */
class ByChoice {
  constructor(forms) {
    this.forms = forms;
  }

  at(tree, node) {
    return this.forms.get(tree.rule(tree.children(node).pop() + 1));
  }
}

/** What has no text of its own: what is below it belongs to what is around. */
const THROUGH = Symbol("through");

/** How a value is written that may be absent: what stands for it then. */
class Option {
  constructor(absent) {
    this.absent = absent;
  }
}

const PRESENT = new Form("", [""], "");
/** An item and those behind it; and these, each behind a separator. */
const ITEMS = new Form("", ["", ""], "");
const FOLLOWING = new Form("", [], "", [null, ", "]);

/** The form of an object by its entries' names. */
function entries(names) {
  const fronts = names.map((name, at) => `${at ? ", " : ""}"${name}": `);
  return new Form("{", fronts, "}", [], "null");
}

/** The form of a value of one part. */
const wrapped = (name) => new Form(`{"${name}": `, [""], "}");

/** The form of a list with separators, whose items follow these. What stands behind them is left out. */
const listed = (fronts, separator) => new Form('{"list": [', fronts, `], "separator": "${separator}"}`, [null]);

/** The form of a node, or its whole text. */
function formOf(form, tree, node) {
  if (form instanceof Map) {
    return form.get(tree.rule(node + 1));
  }
  if (form instanceof ByChoice) {
    return form.at(tree, node);
  }
  if (form instanceof Option) {
    return tree.child(node, 0) < 0 ? form.absent : PRESENT;
  }
  return typeof form === "function" ? form(tree, node) : form;
}

/**
 * The value of a node as text. A form is a Form, an Option, a Map by the rule below, a ByChoice, THROUGH, or gives the whole
 * text. The node may have one of its own.
 */
function write(tree, root, forms, own = null) {
  const behind = tree.behind(root);
  const pieces = [];
  const frames = [{ form: PRESENT, depth: tree.depth(root) - 1, parts: 0 }];
  // what is deeper belongs to a value that is written, or left out
  let limit = tree.depth(root);
  for (let node = root; node < behind; node++) {
    const depth = tree.depth(node);
    const form = depth > limit ? null : forms[tree.rule(node)];
    limit = Math.min(limit, depth);
    if (form === THROUGH) {
      end(pieces, frames, depth);
      limit = Infinity;
    } else if (form !== null && isWanted(pieces, frames, depth)) {
      const found = node === root && own ? own : formOf(form, tree, node);
      if (typeof found === "string") {
        pieces.push(found);
      } else {
        pieces.push(found.opening);
        frames.push({ form: found, depth, parts: 0 });
        limit = Infinity;
      }
    }
  }
  end(pieces, frames, -1);
  return pieces.join("");
}

/** Ends the values that no more part belongs to. */
function end(pieces, frames, depth) {
  while (frames.length && frames[frames.length - 1].depth >= depth) {
    const { form, parts } = frames.pop();
    pieces.push(form.end(parts));
  }
}

/** Goes on to a part of this depth: writes what precedes it, unless it is left out. */
function isWanted(pieces, frames, depth) {
  end(pieces, frames, depth);
  const frame = frames[frames.length - 1];
  const front = frame.form.front(frame.parts++);
  if (front !== null) {
    pieces.push(front);
  }
  return front !== null;
}

module.exports = { ByChoice, FOLLOWING, Form, ITEMS, Option, THROUGH, entries, listed, wrapped, write };
