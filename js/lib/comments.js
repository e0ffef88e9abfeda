"use strict";

/**
 * The comments of a value: those in front of it, and those behind it on its line.
 * @module
 */

const { NUMBERS } = require("./written/grammar.js");

const COMMENTS = [NUMBERS.line_comment, NUMBERS.block_comment];
const LINE_FEED = "\n";
const BLANK = " \t\r\n";
/** What may be between a value and a comment that trails it. */
const SIGNS = " \t,;";
/** What a comment has on each line beside what it says: whitespace, asterisks, and the signs of its ends. */
const [FRONT, BACK] = [/^\s*(?:\*+(?!\/))?[ \t]?/, /\s+$/];

const known = new WeakMap();

/** The spans of a tree's comments, in bytes; a line comment has its LF. */
function spansOf(tree) {
  let found = known.get(tree);
  if (!found) {
    found = [];
    for (let node = 0; node < tree.count; node++) {
      if (COMMENTS.includes(tree.rule(node))) {
        found.push(tree.wholeSpan(node));
      }
    }
    known.set(tree, found);
  }
  return found;
}

/** How many spans begin before a place, by halves. */
function begunBefore(spans, place) {
  let [low, high] = [0, spans.length];
  while (low < high) {
    const middle = (low + high) >>> 1;
    if (spans[middle].start < place) {
      low = middle + 1;
    } else {
      high = middle;
    }
  }
  return low;
}

/** The comments right in front of a place: no empty line is between, nor do they trail a word. */
function commentsBefore(tree, place) {
  const spans = spansOf(tree);
  const found = [];
  let start = place;
  for (let at = begunBefore(spans, start) - 1; at >= 0; at--) {
    const isNext = tree.text.skipBack(start, BLANK) <= spans[at].end;
    // a line comment has its LF
    if (!isNext || countLines(tree, spans[at].end - 1, start) > 1 || trails(tree, spans[at], start)) {
      break;
    }
    found.push(textOf(tree, spans[at]));
    start = spans[at].start;
  }
  return found.reverse();
}

/** How many lines end in a part. */
const countLines = (tree, start, end) => tree.text.raw(start, end).split(LINE_FEED).length - 1;

/** Whether a comment trails what precedes it on its line; the next thing begins at `start`. */
function trails(tree, span, start) {
  const front = tree.text.skipBack(span.start, " \t\r");
  const isFirst = front === 0 || tree.text.raw(front - 1, front) === LINE_FEED;
  return !isFirst && countLines(tree, span.start, start) > 0;
}

/** The comments behind a place on its line, where nothing but the line's end follows them. */
function commentsBehind(tree, place) {
  const spans = spansOf(tree);
  const found = [];
  let end = place;
  for (let at = begunBefore(spans, end); at < spans.length; at++) {
    if (tree.text.skip(end, SIGNS) < spans[at].start) {
      break;
    }
    found.push(textOf(tree, spans[at]));
    end = spans[at].end;
    if (countLines(tree, spans[at].start, end) > 0) {
      return found;
    }
  }
  const behind = tree.text.skip(end, " \t\r");
  return ["", LINE_FEED].includes(tree.text.raw(behind, behind + 1)) ? found : [];
}

/** A comment without the end of its line. */
const textOf = (tree, span) => tree.text.slice(span).replace(/[\r\n]+$/, "");

/** The lines of what a comment says, without its signs. */
function said(comment) {
  const inner = comment.startsWith("/*") ? comment.slice(2, -2) : comment.slice(2);
  return inner.split("\n").map((line) => line.replace(FRONT, "").replace(BACK, ""));
}

/** The docstrings in front of a definition, a member or a value of an enum. */
function docstringsOf(value) {
  const isValue = typeof value === "object" && value !== null;
  if (!isValue || value.docstring) {
    return isValue ? [value.docstring] : [];
  }
  // of what is between braces they are behind its members
  return "body" in value || !value.docstrings ? [] : value.docstrings;
}

/** What the docstrings of a value say, or else what the comments in front of it say; empty without both. */
function docOf(value) {
  const own = docstringsOf(value);
  const found = own.length ? own : docstringsOf(value.value);
  if (found.length) {
    return found.flatMap((it) => it.value.split("\n")).map((line) => line.replace(/^ /, "")).join("\n");
  }
  return value.comments.flatMap(said).join("\n").replace(/^\n+|\n+$/g, "");
}

module.exports = { COMMENTS, commentsBefore, commentsBehind, docOf };
