// Texts that are made to be slow or deep, and texts that are none.
//
// The families are those of tests/families.txt, with what the grammar's rows say of each.

import assert from "node:assert/strict";
import fs from "node:fs";
import path from "node:path";
import test from "node:test";

import { NotUtf8, Refused, format, parse, syntax } from "../index.mjs";
import { TOP } from "./support.mjs";

/** How long a text may take, in seconds of a processor: read, refused with a message, and read as a tree. */
const MOST_SECONDS = 6;
const DEEP = `typedef ${"sequence<".repeat(10_000)}long${">".repeat(10_000)} A;`;
const PIECE = /(?:(\d+)\*)?"((?:[^"\\]|\\.)*)"(?: |$)/gy;
const SIGNS = { n: "\n", r: "\r", t: "\t" };

/** The bytes of pieces, as `20*"ab" "c"`. */
function bytesOf(field) {
  const unquoted = (text) =>
    text.replace(/\\(?:x(..)|(.))/g, (_, hex, sign) => (hex ? String.fromCharCode(Number.parseInt(hex, 16)) : SIGNS[sign] ?? sign));
  const pieces = [...field.matchAll(PIECE)];
  assert.equal(pieces.map((it) => it[0]).join(""), field);
  return Buffer.concat(
    pieces.map(([, times, text]) => Buffer.from(unquoted(text).repeat(Number(times ?? 1)), "latin1")),
  );
}

/** What is said of a text, and up to which byte it is read or UTF-8. */
function said(bytes) {
  try {
    assert.ok(parse(bytes).length > 0);
    return ["read", syntax(bytes).byteSpan.end];
  } catch (fault) {
    if (fault instanceof Refused) {
      assert.match(fault.message, /\n/);
      return ["refused", fault.byteStart];
    }
    assert.ok(fault instanceof NotUtf8, fault);
    return ["not UTF-8", fault.byteStart];
  }
}

const families = fs
  .readFileSync(path.join(TOP, "tests/families.txt"), "utf8")
  .split("\n")
  .filter((line) => line && !line.startsWith("#"))
  .map((line) => line.split("\t"));

for (const [name, kind, front, back = ""] of families) {
  test(`family: ${name}`, () => {
    const bytes = Buffer.concat([bytesOf(front), bytesOf(back)]);
    const before = process.cpuUsage();
    assert.deepEqual(said(bytes), [kind, bytesOf(front).length]);
    const { user, system } = process.cpuUsage(before);
    assert.ok((user + system) / 1e6 < MOST_SECONDS, `${(user + system) / 1e6} s`);
  });
}

test("types in one another", () => {
  const [[one], [other]] = [parse(DEEP), parse(DEEP)];
  assert.equal(one.jsonText().split('"sequence": "Sequence"').length - 1, 10_000);
  assert.ok(one.equals(other));
  assert.ok(!one.equals(parse(DEEP.replace("long", "short"))[0]));
  let type = one.value.type.type;
  let depth = 0;
  while (type.value.value.variant === "Sequence") {
    type = type.value.value.value.type.generics.body;
    depth += 1;
  }
  assert.deepEqual([depth, type.text], [10_000, "long"]);
  assert.equal([...one.walk()].filter((it) => it.kind === "SequenceType").length, 10_000);
  assert.equal(type.parent.parent.text, "sequence<long>");
});

test("a million parentheses", () => {
  assert.throws(() => parse(`typedef ${"(".repeat(1_000_000)}`), (fault) => fault instanceof Refused && fault.start === 0);
});

test("a hundred million blanks", () => {
  const [definition] = parse(`typedef long A;${" ".repeat(100_000_000)}`);
  assert.deepEqual(definition.span, { start: 0, end: 15 });
});

test("a long text whose characters have more than one byte", () => {
  const text = `// ${"é".repeat(1_000_000)}\n${"interface 𝒜 {};".replace("𝒜", "A").repeat(20_000)}`;
  const found = parse(text);
  assert.equal(found.length, 20_000);
  assert.equal(text.slice(found[19_999].span.start, found[19_999].span.end), "interface A {};");
});

test("what is no text", () => {
  for (const given of [undefined, null, 5, ["interface A {};"], {}, new ArrayBuffer(4), new Uint16Array(4), Symbol.iterator]) {
    for (const call of [parse, syntax, format]) {
      assert.throws(() => call(given), (fault) => fault instanceof TypeError && !(fault instanceof NotUtf8));
    }
  }
});

test("what isn't UTF-8", () => {
  // the places are those at which Python's `bytes.decode` ends
  for (const [bytes, place] of [["ff", 0], ["696e7465726661636520417b7d3bc3", 14], ["2f2f20eda080", 3]]) {
    for (const call of [parse, syntax, format]) {
      assert.throws(() => call(Buffer.from(bytes, "hex")), (fault) => fault instanceof NotUtf8 && fault.byteStart === place);
    }
  }
});

test("a lone surrogate", () => {
  for (const [text, place] of [["interface A {}; // \ud800", 19], ["// é\udc00", 5], ["// \ud83d\ude00\ud83d", 7]]) {
    for (const call of [parse, syntax, format]) {
      assert.throws(() => call(text), (fault) => fault instanceof NotUtf8 && fault.byteStart === place);
    }
  }
  assert.equal(parse("// \ud83d\ude00\nA includes B;").length, 1);
});

test("bytes that change once they are read", () => {
  const bytes = Buffer.from("interface Window {};");
  const [definition] = parse(bytes);
  bytes.fill(0);
  assert.equal(definition.value.identifier.value, "Window");
  const shared = new Uint8Array(new SharedArrayBuffer(16));
  shared.set(Buffer.from("A includes B;   "));
  assert.equal(parse(shared)[0].variant, "IncludesStatement");
  assert.equal(parse(bytes.subarray(0, 0)).length, 0);
});
