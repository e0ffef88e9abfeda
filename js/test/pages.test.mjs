// The programs of docs/JAVASCRIPT.md, docs/COMING.md and README.md: each prints what its page says, and tsc passes over those in TypeScript.

import assert from "node:assert/strict";
import fs from "node:fs";
import path from "node:path";
import test from "node:test";

import { HOME, TOP, inRoom, run, wanting } from "./support.mjs";

const PAGES = ["docs/JAVASCRIPT.md", "docs/COMING.md", "js/README.md"]
  .map((it) => path.join(TOP, it))
  .filter((it) => fs.existsSync(it));
/** A program, and what it prints: on the next line in code, or in a piece of its own. */
const PROGRAM = /```js\n(.*?)```\n\nprints(?: `(.*?)`|\n\n```text\n(.*?)```)/gs;
const TYPED = /```ts\n(.*?)```/gs;

/** Calls a function in a project that has the package, with a file of this text. */
function inProject(name, text, act) {
  return inRoom((room) => {
    fs.mkdirSync(path.join(room, "node_modules"));
    fs.symlinkSync(HOME, path.join(room, "node_modules/weedle"));
    fs.writeFileSync(path.join(room, name), text);
    return act(room);
  });
}

for (const page of PAGES) {
  const text = fs.readFileSync(page, "utf8");

  test(`the programs of ${path.basename(page)}`, () => {
    const found = [...text.matchAll(PROGRAM)];
    assert.equal(found.length, text.split("```js\n").length - 1);
    for (const [, program, line, piece] of found) {
      const done = inProject("a.mjs", program, (room) => run(process.execPath, ["a.mjs"], { cwd: room }));
      assert.deepEqual(done, { status: 0, out: piece ?? `${line}\n`, err: "" });
    }
  });

  test(`the programs in TypeScript of ${path.basename(page)}`, { skip: wanting("tsc") }, () => {
    for (const [, program] of text.matchAll(TYPED)) {
      const words = ["--strict", "--noEmit", "--target", "es2021", "--module", "node16", "a.mts"];
      const done = inProject("a.mts", program, (room) => run("tsc", words, { cwd: room }));
      assert.deepEqual([done.status, done.out], [0, ""]);
    }
  });
}
