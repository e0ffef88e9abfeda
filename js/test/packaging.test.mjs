// What a stranger gets: the package as `npm pack` makes it, installed with no network into an empty project.

import assert from "node:assert/strict";
import fs from "node:fs";
import path from "node:path";
import test from "node:test";

import * as weedle from "../index.mjs";
import * as today from "../today.mjs";
import { ADDON, HOME, TARGET, TOP, inRoom, python, run, wanting } from "./support.mjs";

const skip = wanting("npm", "sh", "tar");
const TEXT = "interface Window { readonly attribute Storage store; };";
// An installed package looks for an addon of its own.
delete process.env.WEEDLE_NODE;

const COMMON = `
const { Refused, parse, syntax, term, version } = require("weedle");
const [definition] = parse(${JSON.stringify(TEXT)});
console.log(version, definition.value.identifier.value, term.Promise.name, syntax("").name, Refused.name);
`;
const MODULE = `
import { createRequire } from "node:module";
import * as all from "weedle";
import { Definition, parse } from "weedle";
const [definition] = parse(${JSON.stringify(TEXT)});
const same = createRequire(import.meta.url)("weedle");
const today = await import("weedle/today");
const [read] = parse("[Exposed=*] interface A {};", { dialect: "today" });
console.log(definition instanceof Definition.Interface, Object.keys(same).every((name) => all[name] === same[name]));
console.log(read instanceof today.Definition.Interface, same.today.Definition === today.Definition);
`;
const TYPED = `
import { Definition, parse } from "weedle";
import { Definition as Today } from "weedle/today";
const definition: Definition | undefined = parse("")[0];
const [first] = parse("", { dialect: "today" });
export const list: number = first instanceof Today.Interface ? first.value.attributes.length : 0;
export const name: string = definition instanceof Definition.Interface ? definition.value.identifier.value : "";
`;

/** Runs npm with no network and a folder of its own for what it keeps. */
const npm = (room, words) =>
  run("npm", [...words, "--offline", "--no-audit", "--no-fund", "--no-update-notifier"], {
    cwd: room,
    env: { ...process.env, npm_config_cache: path.join(room, ".npm"), HOME: room },
  });

/** Makes a copy of what of the repository is packed. */
function copy(into) {
  const filter = (it) => !/\/(node_modules|test)$/.test(it);
  for (const name of ["js", "LICENSE", "include", "prebuilt", "c/out/libweedle.a"]) {
    if (fs.existsSync(path.join(TOP, name))) {
      fs.cpSync(path.join(TOP, name), path.join(into, name), { recursive: true, filter });
    }
  }
}

/** Calls a function with an empty project into which the package is installed. */
function inProject(act) {
  inRoom((room) => {
    copy(path.join(room, "repository"));
    const packed = npm(room, ["pack", path.join(room, "repository/js"), "--silent"]);
    assert.equal(packed.status, 0, packed.err);
    fs.writeFileSync(path.join(room, "package.json"), "{}");
    const installed = npm(room, ["install", path.join(room, packed.out.trim())]);
    assert.equal(installed.status, 0, installed.err);
    act(room);
  });
}

/** What a program in a project prints. */
function printed(room, name, text) {
  fs.writeFileSync(path.join(room, name), text);
  const done = run(process.execPath, [name], { cwd: room });
  assert.deepEqual([done.status, done.err], [0, ""]);
  return done.out;
}

test("installed with no network", { skip }, () => {
  inProject((room) => {
    assert.equal(printed(room, "a.cjs", COMMON), `${weedle.version} Window Promise definitions Refused\n`);
    assert.equal(printed(room, "a.mjs", MODULE), "true true\ntrue true\n");
    fs.writeFileSync(path.join(room, "a.webidl"), "interface A {");
    const npx = npm(room, ["exec", "weedle", "a.webidl"]);
    assert.deepEqual([npx.status, npx.out.split("\n").slice(-2)], [1, ["1 file, 1 refused", ""]]);
    const folder = path.join(room, "node_modules/weedle");
    assert.equal(fs.readFileSync(path.join(folder, "LICENSE"), "utf8"), fs.readFileSync(path.join(TOP, "LICENSE"), "utf8"));
    assert.ok(!fs.existsSync(path.join(folder, "test")));
  });
});

test("types of an installed package", { skip: skip || wanting("tsc") }, () => {
  inProject((room) => {
    for (const name of ["a.mts", "b.cts"]) {
      fs.writeFileSync(path.join(room, name), TYPED);
    }
    const done = run("tsc", ["--strict", "--noEmit", "--target", "es2021", "--module", "node16", "a.mts", "b.cts"], { cwd: room });
    assert.deepEqual([done.status, done.out], [0, ""]);
  });
});

test("built anew by a C compiler where the addon doesn't load", { skip: skip || wanting("cc") }, () => {
  inProject((room) => {
    const addon = path.join(room, `node_modules/weedle/native/${TARGET}/weedle.node`);
    fs.writeFileSync(addon, "none");
    const done = run(process.execPath, ["-e", 'require("weedle")'], { cwd: room });
    assert.match(done.err, /weedle can't load .*weedle\.node .*builds it by a C compiler/);
    assert.equal(npm(room, ["rebuild", "weedle"]).status, 0);
    assert.equal(printed(room, "a.cjs", COMMON).split(" ")[1], "Window");
  });
});

test("an addon that isn't there, or is of another version", { skip: wanting("sh") }, () => {
  const load = (home, env) => run(process.execPath, ["-e", `require(${JSON.stringify(home)})`], { env: { ...process.env, ...env } });
  assert.match(load(HOME, { WEEDLE_NODE: "/none" }).err, /it looked for \/none, which WEEDLE_NODE names\. js\/build\.sh/);
  inRoom((room) => {
    fs.cpSync(HOME, room, { recursive: true, filter: (it) => !/^\/(node_modules|test)/.test(it.slice(HOME.length)) });
    const grammar = path.join(room, "lib/written/grammar.js");
    fs.writeFileSync(grammar, fs.readFileSync(grammar, "utf8").replace(/VERSION = 0x\w+/, "VERSION = 0x010203"));
    assert.match(load(room, { WEEDLE_NODE: ADDON }).err, /has version 0x\w{6} and \d+ rules, and this package 0x010203/);
    ["weedle.node", `native/${TARGET}/weedle.node`].forEach((it) => fs.rmSync(path.join(room, it), { force: true }));
    assert.match(load(room, {}).err, /weedle finds no addon: it looked for .*weedle\.node, .*prebuilt/);
  });
});

test("each class that is exported is declared, and the other way round", { skip: wanting("tsc") }, () => {
  inRoom((room) => {
    fs.mkdirSync(path.join(room, "node_modules"));
    fs.symlinkSync(HOME, path.join(room, "node_modules/weedle"));
    const isType = new Set(["ArgumentList", "DictionaryMembers", "EnumValueList", "ExtendedAttributeList", "IdentifierList"]);
    const names = Object.keys(weedle).filter((name) => name !== "default");
    assert.ok(names.length > 100 && !names.some((name) => isType.has(name)));
    const all = [
      ...names.map((name) => `weedle.${name}`),
      ...Object.keys(weedle.term).map((name) => `weedle.term.${name}`),
      ...names.flatMap((name) => variantsOf(weedle[name]).map((it) => `weedle.${name}.${it}`)),
      ...Object.keys(today).map((name) => `weedle.today.${name}`),
      ...Object.keys(today).flatMap((name) => variantsOf(today[name]).map((it) => `weedle.today.${name}.${it}`)),
    ];
    fs.writeFileSync(path.join(room, "a.mts"), `import * as weedle from "weedle";\nexport const all: unknown[] = [${all.join()}];\n`);
    const done = run("tsc", ["--strict", "--noEmit", "--target", "es2021", "--module", "node16", "a.mts"], { cwd: room });
    assert.deepEqual([done.status, done.out], [0, ""]);
    for (const [file, all] of [["values", weedle], ["today", today]]) {
      const declared = fs.readFileSync(path.join(HOME, `lib/written/${file}.d.ts`), "utf8");
      for (const [, name] of declared.matchAll(/^export (?:abstract class|declare const) (\w+)/gm)) {
        assert.ok(name in all, name);
      }
    }
  });
});

/** The variants of an enum. */
const variantsOf = (kind) =>
  typeof kind === "function" && kind.prototype instanceof weedle.Choice ? Object.keys(kind).filter((it) => /^[A-Z]/.test(it)) : [];

test("each field that a class has is declared, with its doc", () => {
  for (const [file, all] of [["values", weedle], ["today", today]]) {
    const declared = fs.readFileSync(path.join(HOME, `lib/written/${file}.d.ts`), "utf8");
    for (const [name, kind] of Object.entries(all)) {
      const isStruct = typeof kind === "function" && Object.hasOwn(kind, "fields") && !/^(Value|Choice|Listed)$/.test(name);
      const body = declared.split(new RegExp(`^export abstract class ${name}\\b.*\\{$`, "m"))[1]?.split("\n}")[0] ?? "";
      for (const field of isStruct ? Object.keys(kind.fields) : []) {
        assert.match(body, new RegExp(`(\\*/|^ {3}\\*/)\\n  readonly ${field}: `, "m"), `${name}.${field}`);
      }
    }
  }
});

test("the version is the repository's", { skip: wanting("python3") }, () => {
  const found = "import re\nprint(re.search(r'^## (\\d+\\.\\d+\\.\\d+) ', open('CHANGELOG.md').read(), re.M)[1])";
  assert.equal(String(python(`import os\nos.chdir(${JSON.stringify(TOP)})\n${found}`)).trim(), weedle.version);
});
