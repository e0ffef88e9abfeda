// What the tests share: the texts of tests/, other programs, and folders that go when they are done with.

import { execFileSync, spawnSync } from "node:child_process";
import fs from "node:fs";
import os from "node:os";
import path from "node:path";
import { fileURLToPath } from "node:url";

/** The folder of the package, and the repository that it stands in. */
export const HOME = fileURLToPath(new URL("..", import.meta.url)).replace(/\/$/, "");
export const TOP = path.dirname(HOME);
export const PROGRAM = path.join(HOME, "bin/weedle.js");
/** What a program may write at most. */
const MOST_OUTPUT = 1 << 30;

/** The folder of what is built for this Node's processor. */
export const TARGET = `${process.arch === "arm64" ? "aarch64" : "x86_64"}-linux`;

/** The addon that the package takes. */
export const ADDON = [
  process.env.WEEDLE_NODE, `${HOME}/weedle.node`, `${HOME}/native/${TARGET}/weedle.node`,
  `${TOP}/prebuilt/${TARGET}/weedle.node`,
].find((it) => it && fs.existsSync(it));

/** Whether a command is there. */
export const isThere = (command) => spawnSync("sh", ["-c", `command -v ${command}`]).status === 0;

/** `skip` of a test that wants a command. */
export const wanting = (...commands) => {
  const lacking = commands.find((it) => !isThere(it));
  return lacking ? `there is no ${lacking}` : false;
};

/** Runs a command: its status and what it writes. */
export function run(command, words, options = {}) {
  const done = spawnSync(command, words, { maxBuffer: MOST_OUTPUT, ...options });
  return { status: done.status, out: String(done.stdout), err: String(done.stderr) };
}

/** What Python prints of a program. */
export function python(program, ...words) {
  const env = { ...process.env, PYTHONPATH: `${TOP}/tools` };
  return execFileSync("python3", ["-c", program, ...words], { env, maxBuffer: MOST_OUTPUT });
}

/** A file of TOML, as an object. */
export const tomlOf = (name) =>
  JSON.parse(python("import json,sys,tomllib\nprint(json.dumps(tomllib.load(open(sys.argv[1],'rb'))))", `${TOP}/tests/${name}`));

/** Calls a function with a new folder, which goes then. */
export function inRoom(act) {
  const room = fs.mkdtempSync(path.join(os.tmpdir(), "weedle-"));
  try {
    return act(room);
  } finally {
    fs.rmSync(room, { recursive: true });
  }
}

/** The files of a tar archive, by their names. */
function* filesIn(archive) {
  const field = (at, length) => archive.toString("latin1", at, at + length).replace(/\0.*$/s, "");
  for (let at = 0; field(at, 100); ) {
    const size = Number.parseInt(field(at + 124, 12), 8);
    yield [field(at, 100), archive.subarray(at + 512, at + 512 + size)];
    at += 512 + Math.ceil(size / 512) * 512;
  }
}

/** What the rows of the grammar say of texts by today's rules: of each the values as lines of JSON, or null. */
export function todayByRows(texts) {
  const program = `
import json, sys
from rows.today_values import TodayTable
from shared.tree_json import plain
table = TodayTable()
for text in json.load(open(sys.argv[1], encoding="utf-8")):
    end = table.ends.end_of(text.encode(), "TODAY_DEFINITIONS")
    is_whole = end == len(text.encode())
    print(json.dumps([json.dumps(plain(it), ensure_ascii=False) for it in table.read(text)[1]] if is_whole else None))
`;
  const lines = inRoom((room) => {
    const file = path.join(room, "texts.json");
    fs.writeFileSync(file, JSON.stringify(texts));
    return String(python(program, file)).trimEnd().split("\n");
  });
  return lines.map((line) => JSON.parse(line));
}

/** The cases of a folder of tests/: each with its name, its text and what is wanted of it. */
export function casesOf(folder) {
  const unpack = "import lzma,sys\nsys.stdout.buffer.write(lzma.open(sys.argv[1]).read())";
  const files = new Map(filesIn(python(unpack, `${TOP}/tests/${folder}.tar.xz`)));
  const names = [...files.keys()].filter((it) => it.endsWith(".json")).map((it) => it.replace(/\.json$/, ""));
  return names.sort().map((name) => ({
    name,
    text: String(files.get(`${name}.webidl`)),
    wanted: JSON.parse(files.get(`${name}.json`)),
  }));
}

/** The folders of cases, but for the real files, which aren't there. */
export const FOLDERS = fs
  .readdirSync(path.join(TOP, "tests"))
  .filter((it) => it.endsWith(".tar.xz") && it !== "real.tar.xz")
  .map((it) => it.replace(".tar.xz", ""));

/** JSON as Python's `json.dumps` lays it out: a blank behind each comma and colon. */
export function jsonText(value) {
  if (Array.isArray(value)) {
    return `[${value.map(jsonText).join(", ")}]`;
  }
  if (value === null || typeof value !== "object") {
    return JSON.stringify(value);
  }
  const pairs = Object.entries(value).map(([name, it]) => `${JSON.stringify(name)}: ${jsonText(it)}`);
  return `{${pairs.join(", ")}}`;
}

/** JSON of weedle2 in the words of the port, which has two names otherwise. */
export function inPortsWords(value) {
  if (Array.isArray(value)) {
    return value.map(inPortsWords);
  }
  if (value === null || typeof value !== "object") {
    return value;
  }
  const pairs = Object.entries(value).map(([name, it]) => [name === "Type" ? "Type_" : name, inPortsWords(it)]);
  const { record, generics, ...others } = Object.fromEntries(pairs);
  if (record === undefined) {
    return Object.fromEntries(pairs);
  }
  return { record_: record, generics: { ...generics, body: { RecordTypes: generics.body } }, ...others };
}
