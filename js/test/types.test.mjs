// The declarations for TypeScript: over them programs that have to pass `tsc --strict`, and the examples.

import assert from "node:assert/strict";
import fs from "node:fs";
import path from "node:path";
import test from "node:test";

import { HOME, TOP, inRoom, run, wanting } from "./support.mjs";

const skip = wanting("tsc");
const EXAMPLES = path.join(TOP, "examples/javascript");
const STRICT = ["--strict", "--noEmit", "--target", "es2021", "--lib", "es2021,dom"];

/** Runs tsc over files that are copied into a project which has the package. */
function checked(files, ...words) {
  return inRoom((room) => {
    fs.mkdirSync(path.join(room, "node_modules"));
    fs.symlinkSync(HOME, path.join(room, "node_modules/weedle"));
    const names = Object.entries(files).map(([name, from]) => (fs.copyFileSync(from, path.join(room, name)), name));
    return run("tsc", [...STRICT, ...words, ...names.filter((it) => it !== "package.json")], { cwd: room });
  });
}

const PROGRAM = path.join(HOME, "test/types.ts");
const NODE16 = ["--module", "node16", "--moduleResolution", "node16"];

test("a program as a module, as CommonJS, and by the older way to find packages", { skip }, () => {
  const wanted = { status: 0, out: "", err: "" };
  assert.deepEqual(checked({ "a.mts": PROGRAM, "b.cts": PROGRAM }, ...NODE16), wanted);
  assert.deepEqual(checked({ "a.ts": PROGRAM }, "--module", "commonjs", "--moduleResolution", "node"), wanted);
});

test("the examples", { skip: skip || (!fs.existsSync(EXAMPLES) && "the examples aren't here") }, () => {
  const names = ["dts.js", "rename.js", "package.json"];
  const files = Object.fromEntries(names.map((name) => [name, path.join(EXAMPLES, name)]));
  const node = { "node.d.ts": path.join(HOME, "test/node.d.ts") };
  assert.deepEqual(checked({ ...files, ...node }, "--allowJs", "--checkJs", ...NODE16), { status: 0, out: "", err: "" });
});
