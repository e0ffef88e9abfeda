// Several threads at once, each with a package of its own over the one addon.

import assert from "node:assert/strict";
import test from "node:test";
import { Worker } from "node:worker_threads";

import { parse } from "../index.mjs";
import { HOME } from "./support.mjs";

const DEEP = `typedef ${"sequence<".repeat(10_000)}long${">".repeat(10_000)} A;`;
const TEXTS = ["interface A { attribute long x; };".repeat(500), 'enum E { "a", "b" };'.repeat(500), DEEP, "A includes"];
/** Reads its text three times, and answers what came. */
const READER = `
const { parentPort, workerData } = require("node:worker_threads");
const { format, parse } = require(workerData.home);
const said = () => {
  try {
    return parse(workerData.text).map((it) => it.jsonText()).join("\\n") + format(workerData.text).length;
  } catch (fault) {
    return fault.message;
  }
};
const found = [said(), said(), said()];
parentPort.postMessage(found.every((it) => it === found[0]) ? found[0] : "not the same each time");
`;

/** What a thread says of a text, with so many MB of stack. */
const inThread = (text, stackSizeMb = 4) =>
  new Promise((resolve, reject) => {
    const worker = new Worker(READER, { eval: true, workerData: { home: HOME, text }, resourceLimits: { stackSizeMb } });
    worker.once("message", resolve).once("error", reject);
  });

test("threads side by side", async () => {
  const wanted = await Promise.all(TEXTS.map((text) => inThread(text)));
  const found = await Promise.all([...TEXTS, ...TEXTS].map((text) => inThread(text)));
  assert.deepEqual(found, [...wanted, ...wanted]);
  assert.match(wanted[0], /^\{"Interface": /);
  assert.match(wanted[3], /^1:11: expected /);
  assert.ok(wanted[2].startsWith(parse(DEEP)[0].jsonText()));
});

test("a thread that ends while its nodes are in use", async () => {
  const text = `const { parse } = require(${JSON.stringify(HOME)}); globalThis.kept = parse("A includes B;".repeat(50000)); process.exit(0);`;
  const ended = (worker) => new Promise((resolve) => worker.once("exit", resolve));
  const codes = await Promise.all(Array.from({ length: 6 }, () => ended(new Worker(text, { eval: true }))));
  assert.deepEqual(codes, [0, 0, 0, 0, 0, 0]);
});
