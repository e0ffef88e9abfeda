#!/usr/bin/env node
// Measures the package: nanoseconds of processor time a byte, the least and the median of some rounds.
//
//     node js/bench.mjs [--rounds N] FOLDER|FILE..
//
// The texts are those of the files, or of all *.webidl and *.idl files below a folder, that are read whole: joined, and
// one by one. What each way takes has the reading in it. How much work the machine had beside is told at the end.

import fs from "node:fs";
import os from "node:os";
import path from "node:path";
import { parseArgs } from "node:util";

import { Refused, Value, parse, syntax } from "./index.mjs";

/** What is done with a text. */
const WAYS = {
  "syntax, up to the root": (text) => syntax(text),
  "syntax, each node with its rule and its place": (text) => {
    let sum = 0;
    for (const node of syntax(text).walk()) {
      sum += node.rule + node.byteSpan.end;
    }
    return sum;
  },
  "parse, up to the definitions": (text) => parse(text),
  "parse, all values walked": (text) => {
    let count = 0;
    for (const value of parse(text).walk()) {
      count += value instanceof Value ? 1 : 0;
    }
    return count;
  },
  "parse, each field of each value": (text) => touch(parse(text)),
  "parse, names with their roles": (text) => [...parse(text).names()].length,
  "parse, as JSON": (text) => parse(text).map((it) => it.jsonText()).length,
};

/** How many values there are, by all fields of all values. */
function touch(definitions) {
  let count = 0;
  const waiting = [...definitions];
  while (waiting.length) {
    const it = waiting.pop();
    if (Array.isArray(it)) {
      waiting.push(...it);
    } else if (it instanceof Value) {
      count += 1;
      for (const name of Object.keys(it.constructor.fields)) {
        waiting.push(it[name]);
      }
    }
  }
  return count;
}

/** The files of a folder and those below it, or the file itself. */
function filesOf(place) {
  if (!fs.statSync(place).isDirectory()) {
    return [place];
  }
  const below = fs.readdirSync(place).sort().flatMap((name) => filesOf(path.join(place, name)));
  return below.filter((name) => /\.(webidl|idl)$/.test(name));
}

/** Whether a text is read whole. */
function isRead(text) {
  try {
    syntax(text);
    return true;
  } catch (fault) {
    if (fault instanceof Refused) {
      return false;
    }
    throw fault;
  }
}

/** Nanoseconds of processor time that a way takes for some texts. */
function nanoseconds(way, texts) {
  const before = process.cpuUsage();
  texts.forEach(way);
  const { user, system } = process.cpuUsage(before);
  return (user + system) * 1000;
}

/** Prints what each way takes a byte. */
function measure(name, texts, rounds) {
  const bytes = texts.reduce((sum, text) => sum + text.length, 0);
  console.log(`${name}, ${bytes} bytes:`);
  for (const [what, way] of Object.entries(WAYS)) {
    const taken = Array.from({ length: rounds }, () => nanoseconds(way, texts) / bytes).sort((a, b) => a - b);
    const [least, median] = [taken[0], taken[rounds >> 1]].map((it) => it.toFixed(0));
    console.log(`  ${what}: ${least} ns a byte, median ${median}`);
  }
}

const { values: options, positionals } = parseArgs({
  allowPositionals: true,
  options: { rounds: { type: "string", default: "9" } },
});
const texts = positionals.flatMap(filesOf).map((name) => fs.readFileSync(name)).filter(isRead);
const joined = Buffer.concat(texts.flatMap((text) => [text, Buffer.from("\n")]));
measure("joined", [joined], Number(options.rounds));
measure(`${texts.length} files one by one`, texts, Number(options.rounds));
console.log(`load: ${os.loadavg()[0].toFixed(1)} on ${os.cpus().length} processors, Node ${process.version}`);
