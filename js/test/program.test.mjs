// The program: as weedle_check, by its runs in tests/runs.toml, and its options.

import assert from "node:assert/strict";
import fs from "node:fs";
import path from "node:path";
import test from "node:test";

import { version } from "../index.mjs";
import { PROGRAM, TOP, inRoom, python, run, wanting } from "./support.mjs";

const INCLUDES =
  '{"IncludesStatement": {"attributes": null, "lhs_identifier": {"Identifier": "Request"}, "includes": "Includes", ' +
  '"rhs_identifier": {"Identifier": "Body"}, "semi_colon": "SemiColon"}}';
/** Runs the program over the runs of weedle_check that ask for nothing that it hasn't; prints what differs. */
const AS_WEEDLE_CHECK = `
import sys
from run.worked_runs import runs

def is_alike(run):
    has_options = any(it.startswith("-") and it != "-" for it in run.keys.get("arguments", ()))
    is_other = has_options or run.memory or "nests" in run.keys.get("stdout", "")
    return run.program == "weedle_check" and not is_other

some = [it for it in runs() if is_alike(it)]
for it in some:
    came = it.came(sys.argv[1])
    if came != it.wanted():
        print(it.what, came, it.wanted(), sep="\\n")
print(len(some))
`;

const weedle = (words, input = "", options = {}) => run(process.execPath, [PROGRAM, ...words], { input, ...options });

test("the runs of weedle_check", { skip: wanting("python3") }, () => {
  const found = String(python(AS_WEEDLE_CHECK, PROGRAM));
  assert.match(found, /^\d+\n$/);
  assert.ok(Number(found) > 20);
});

test("JSON says which file where there are several", () => {
  const named = (name) => `{"file":${JSON.stringify(name).replace("é", "\\u00e9")},"definition":${INCLUDES}}\n`;
  inRoom((room) => {
    const [one, other] = [path.join(room, "one"), path.join(room, 'oth"é')];
    fs.writeFileSync(one, "Request includes Body;Request includes Body;");
    fs.writeFileSync(other, "Request includes Body;");
    assert.equal(weedle(["--json", one]).out, `${INCLUDES}\n${INCLUDES}\n`);
    assert.deepEqual(weedle([one, "--json", other]), { status: 0, out: named(one).repeat(2) + named(other), err: "" });
    assert.equal(weedle(["--json", other, "-"], "Request includes Body;").out, named(other) + named("<stdin>"));
  });
});

test("nodes, and a layout", () => {
  const { status, out } = weedle(["--syntax"], "A includes é;".replace("é", "B"));
  assert.equal(status, 0);
  assert.deepEqual(out.split("\n").slice(0, 6), [
    "definitions 0..13", "  definition 0..13", "    includes_statement_definition 0..13",
    '      opt_extended_attribute_list 0..0 ""', "      identifier 0..2", '        trivia 0..0 ""',
  ]);
  const laidOut = "interface A {\n  attribute long x;\n};\n";
  assert.deepEqual(weedle(["--format"], "interface A{attribute long x;};"), { status: 0, out: laidOut, err: "" });
  assert.equal(weedle(["--format"], " // A\n").out, " // A\n");
});

test("what is refused beside an option is said on standard error", () => {
  const said = `<stdin>:1:13: expected \`;\`\nA includes B\n${" ".repeat(12)}^\n1:13: \`;\` missing here?\n`;
  for (const option of ["--json", "--syntax", "--format"]) {
    assert.deepEqual(weedle([option], "A includes B"), { status: 1, out: "", err: said });
  }
});

test("other arguments, help and version", () => {
  for (const words of [["--tree"], ["--json", "--syntax"], ["--json=x"]]) {
    const { status, out, err } = weedle(words);
    assert.deepEqual([status, out], [5, ""]);
    assert.match(err, /^usage: weedle .*\nweedle: /);
  }
  assert.deepEqual(weedle(["--version"]), { status: 0, out: `weedle ${version}\n`, err: "" });
  assert.match(weedle(["--help"]).out, /^usage: weedle /);
});

test("an output that can't be written", { skip: !fs.existsSync("/dev/full") && "there is no /dev/full" }, () => {
  const full = fs.openSync("/dev/full", "w");
  const done = weedle([], "", { stdio: ["pipe", full, "pipe"] });
  fs.closeSync(full);
  assert.deepEqual([done.status, done.err], [4, "cannot write output\n"]);
});

test("who reads no further", { skip: wanting("sh") }, () => {
  const input = "Request includes Body;".repeat(20_000);
  for (const option of ["--json", "--syntax", "--format"]) {
    const done = run("sh", ["-c", `"${process.execPath}" "${PROGRAM}" ${option} | head -c 100 >/dev/null`], { input });
    assert.deepEqual([done.status, done.err], [0, ""]);
  }
});

test("a long output goes through a pipe that is slow", { skip: wanting("sh") }, () => {
  const input = "Request includes Body;".repeat(20_000);
  const done = run("sh", ["-c", `"${process.execPath}" "${PROGRAM}" --json | (sleep 1; wc -c)`], { input });
  assert.equal(Number(done.out), 20_000 * (INCLUDES.length + 1));
});

test("the same as the Python package", { skip: wanting("python3") }, () => {
  const file = path.join(TOP, "examples/pages.webidl");
  const env = { ...process.env, PYTHONPATH: path.join(TOP, "python") };
  for (const option of ["--json", "--syntax", "--format"]) {
    const wanted = run("python3", ["-m", "weedle", option, file], { env });
    assert.deepEqual(weedle([option, file]), wanted);
  }
});
