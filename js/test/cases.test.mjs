// The texts of tests/, each with what is wanted of it: values, places and words.
//
// Values are weedle2's own, or by the grammar's rows where three rules were changed on purpose (tests/README.md). JSON
// has to be theirs byte for byte in the port's names.

import assert from "node:assert/strict";
import fs from "node:fs";
import path from "node:path";
import test from "node:test";

import { Refused, format, parse } from "../index.mjs";
import { FOLDERS, PROGRAM, casesOf, inPortsWords, inRoom, jsonText, run, wanting } from "./support.mjs";

const skip = wanting("python3");
/** How many texts the program is given at once. */
const TOGETHER = 500;

const isRead = (it) => it.wanted.rest === undefined;
const linesOf = (it) => it.wanted.value.map((value) => jsonText(inPortsWords(value)));

/** What is thrown of a text. */
function refusalOf(text) {
  try {
    parse(text);
  } catch (fault) {
    return fault;
  }
  return null;
}

function assertRead({ text, wanted }, lines) {
  for (const given of [text, Buffer.from(text)]) {
    const found = parse(given);
    assert.deepEqual(found.map((it) => it.jsonText()), lines, text);
    assert.deepEqual(found.map(({ position: { line, column } }) => `${line}:${column}`), wanted.at, text);
  }
}

function assertRefused({ text, wanted }) {
  const refused = refusalOf(text);
  assert.ok(refused instanceof Refused, text);
  const hint = wanted.hint ?? "";
  assert.deepEqual([refused.byteStart, refused.bytePlace], [wanted.rest, wanted.place], text);
  assert.equal(`${refused.line}:${refused.column}`, wanted.at, text);
  const readToday = refused.isReadToday ? `today's WebIDL reads it: dialect: "today"\n` : "";
  assert.equal(`${refused.message}\n`, `${wanted.at}: ${wanted.says}\n${wanted.shows}${hint}${readToday}`, text);
  assert.equal(refused.hint, hint.replace(/\n$/, "") || null, text);
  assert.ok(refused.expected !== "" && wanted.says.includes(refused.expected), text);
  assert.equal(Buffer.byteLength(text.slice(0, refused.start)), wanted.rest, text);
  assert.equal(Buffer.byteLength(text.slice(0, refused.place)), wanted.place, text);
}

for (const folder of FOLDERS) {
  test(`tests/${folder}`, { skip }, () => {
    const cases = casesOf(folder);
    for (const it of cases.filter(isRead)) {
      assertRead(it, linesOf(it));
    }
    cases.filter((it) => !isRead(it)).forEach(assertRefused);
    assert.ok(cases.length >= 10);
  });

  test(`tests/${folder} through the program`, { skip }, () => {
    const whole = casesOf(folder).filter(isRead);
    for (let start = 0; start < whole.length; start += TOGETHER) {
      const some = whole.slice(start, start + TOGETHER);
      const { status, out, err } = inRoom((room) => {
        some.forEach((it) => fs.writeFileSync(path.join(room, `${it.name}.webidl`), it.text));
        return run(process.execPath, [PROGRAM, "--json", ...some.map((it) => `${it.name}.webidl`)], { cwd: room });
      });
      const front = (it) => (some.length > 1 ? `{"file":"${it.name}.webidl","definition":` : "");
      const lines = some.flatMap((it) => linesOf(it).map((line) => `${front(it)}${line}${front(it) && "}"}\n`));
      assert.deepEqual([status, err], [0, ""]);
      assert.equal(out, lines.join(""));
    }
  });

  test(`tests/${folder} laid out`, { skip }, () => {
    for (const { text } of casesOf(folder).filter(isRead)) {
      const laidOut = format(text);
      const said = (it) => parse(it).map((value) => value.jsonText());
      assert.deepEqual(said(laidOut), said(text));
      assert.equal(format(laidOut), laidOut);
    }
  });
}
