#!/usr/bin/env node
// Renames a definition wherever files of WebIDL name it: node rename.js OLD NEW FILE..

import fs from "node:fs";
import { Refused, parse } from "weedle";

/** What a name stands for that is no definition's, though it may be spelled the same. */
const OTHERS = ["Const", "Attribute", "Operation", "DictionaryMember", "Argument", "ExtendedAttribute"];

/** @type {(text: string, from: string, to: string) => string} The text with the definition's other name. */
function renamed(text, from, to) {
  const names = [...parse(text).names()];
  const meant = new Set(names.filter((name) => name.text === from && !OTHERS.includes(name.role)));
  const ends = [0, ...[...meant].map((name) => name.span.end)];
  const pieces = [...meant].map((name, at) => text.slice(ends[at], name.span.start) + to);
  const found = pieces.join("") + text.slice(ends[ends.length - 1]);
  // a name that is a word of WebIDL may still be read, as something else
  const wanted = names.map((name) => `${name.role} ${meant.has(name) ? to.replace(/^_/, "") : name.text}`);
  if ([...parse(found).names()].map((name) => `${name.role} ${name.text}`).join() !== wanted.join()) {
    throw new RangeError(`${to} isn't a name everywhere`);
  }
  return found;
}

const [from = "", to = "", ...files] = process.argv.slice(2);
for (const file of files) {
  try {
    fs.writeFileSync(file, renamed(fs.readFileSync(file, "utf8"), from, to));
  } catch (fault) {
    if (!(fault instanceof Refused || fault instanceof RangeError)) throw fault;
    console.error(`${file}:${fault.message}`);
    process.exitCode = 1;
  }
}
