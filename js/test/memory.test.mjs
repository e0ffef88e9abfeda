// Each request for memory that the addon makes, refused in turn: the answer, or NoMemory, and never a crash.
//
// tools/run/refuse_request.c refuses them, and test/refuse.c says which, which a C compiler builds.

import assert from "node:assert/strict";
import fs from "node:fs";
import path from "node:path";
import test from "node:test";

import { ADDON, HOME, TOP, inRoom, run, wanting } from "./support.mjs";

const HEADERS = process.env.NODE_INCLUDE ?? path.resolve(process.execPath, "../../include/node");
const lacking = !fs.existsSync(path.join(HEADERS, "node_api.h")) && "Node's headers aren't here";
const skip = wanting("cc", "sh") || lacking;
/** What is read: a statement, what nests so deep that a table is filled, and two texts that are refused. */
const READ = ["A includes B;", `typedef ${"sequence<".repeat(70)}long${">".repeat(70)} A;`];
const REFUSED = ["interface A {};\ninterface B {", `A includes B; typedef ${"(".repeat(70)}`];
const SAID = [/^2:14: expected/, /^1:93: expected/];
const NO_ROOM = ["2:1: unread from here on; memory ran out for more", "1:15: unread from here on; memory ran out for more"];
/** Prints, for each text, what comes of it where the first request is refused, the second, and so on to the last. */
const SWEEP = `
const { format, parse } = require(process.argv[1]);
const { made, refuse } = require(process.argv[2]);

function answer(text) {
  try {
    format(text);
    return parse(text)[0].jsonText();
  } catch (fault) {
    return fault.name === "NoMemory" ? fault.name : fault.message;
  }
}

function sweep(text) {
  for (const found = []; ; ) {
    refuse(found.length + 1);
    found.push(answer(text));
    const count = made();
    refuse(0);
    if (count < found.length) {
      return found;
    }
  }
}

console.log(JSON.stringify(JSON.parse(process.argv[3]).map(sweep)));
`;

/** What came of some texts. */
function swept(texts) {
  return inRoom((room) => {
    const [tool, addon] = [path.join(room, "refuse_request.so"), path.join(room, "refuse.node")];
    for (const [out, source] of [[tool, `${TOP}/tools/run/refuse_request.c`], [addon, `${HOME}/test/refuse.c`]]) {
      const built = run("cc", ["-O2", "-shared", "-fPIC", "-DNAPI_VERSION=8", `-I${HEADERS}`, "-o", out, source, "-ldl"]);
      assert.deepEqual([built.status, built.err], [0, ""]);
    }
    const env = { ...process.env, LD_PRELOAD: tool, REFUSED_OBJECT: path.basename(ADDON) };
    const done = run(process.execPath, ["-e", SWEEP, HOME, addon, JSON.stringify(texts)], { env });
    assert.deepEqual([done.status, done.err], [0, ""]);
    return JSON.parse(done.out);
  });
}

test("each request of a text that is read", { skip }, () => {
  for (const [...found] of swept(READ)) {
    assert.match(found.pop(), /"/);
    assert.ok(found.length > 3);
    // where the room for the nodes is refused, they are counted, and a smaller one is asked for
    assert.ok(found.every((it) => it === "NoMemory" || it.includes('"')), found);
    assert.ok(found.filter((it) => it === "NoMemory").length > 2);
  }
});

test("each request of a text that is refused", { skip }, () => {
  for (const [number, [...found]] of swept(REFUSED).entries()) {
    assert.match(found.pop(), SAID[number]);
    const others = found.filter((it) => !SAID[number].test(it));
    assert.deepEqual(new Set(others), new Set(["NoMemory", NO_ROOM[number]]));
  }
});

test("little memory", { skip: wanting("sh") }, () => {
  const read = `try { require(${JSON.stringify(HOME)}).parse("typedef long A;".repeat(4_000_000)); } catch (fault) { console.log(fault.name); }`;
  const done = run("sh", ["-c", `ulimit -v 4000000; exec "${process.execPath}" -e '${read}'`]);
  assert.equal(done.out, "NoMemory\n", done.err);
});

test("a program that reads again and again holds no more", () => {
  const read = `
    const { parse } = require(${JSON.stringify(HOME)});
    const bytes = Buffer.from("interface A { attribute long x; };\\n".repeat(10_000));
    const held = (times) => {
      for (let at = 0; at < times; at++) {
        parse(bytes).at(-1).value.members.body[0].value.identifier.span;
      }
      return process.memoryUsage.rss() / 1e6;
    };
    const before = held(30);
    console.log(held(150) - before);
  `;
  const done = run(process.execPath, ["-e", read]);
  assert.ok(Number(done.out) < 200, `${done.out} ${done.err}`);
});
