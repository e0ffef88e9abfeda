// The examples in JavaScript, over texts by hand: a stranger's project with the package in its node_modules.

import assert from "node:assert/strict";
import fs from "node:fs";
import path from "node:path";
import test from "node:test";

import { HOME, TOP, inRoom, run } from "./support.mjs";

const EXAMPLES = path.join(TOP, "examples/javascript");
const PAGES = path.join(TOP, "examples/pages.webidl");
const skip = !fs.existsSync(EXAMPLES) && "the examples aren't here";
/** How many lines each has at most. */
const MOST_LINES = { "dts.js": 150, "rename.js": 35 };
const WEB = `
// A window.
[Exposed=Window]
interface Window : EventTarget {
  constructor(optional long x = 5);
  readonly attribute (long or DOMString?) size; // trails
  /**
   * Reads it.
   */
  Promise<undefined> read(record<DOMString, sequence<long>> all, any... more);
  static attribute unrestricted double scale;
  const long MOST = 5;
  iterable<long>;
};
interface mixin Sized { attribute unsigned long? default; };
Window includes Sized;
enum Mode { "a", "b-c" };
dictionary Options : Base { required Mode mode; long no-cache = 1; };
typedef (long or Mode) Either;
callback Done = undefined (Window window);
namespace Math { FrozenArray<long> list(long in); };
`;
const DECLARED = `/** A window. */
interface Window extends EventTarget, Sized {
  readonly size: number | string | null;
  /** Reads it. */
  read(all_: Record<string, Array<number>>, ...more_: Array<any>): Promise<void>;
}
interface WindowConstructor {
  new (x_?: number): Window;
  scale: number;
  readonly MOST: 5;
}
interface Sized {
  default: number | null;
}
type Mode = "a" | "b-c";
interface Options extends Base {
  mode: Mode;
  "no-cache"?: number;
}
type Either = number | Mode;
type Done = (window_: Window) => void;
interface Math {
  list(in_: number): ReadonlyArray<number>;
}
`;

/** Runs an example over a file with a text, in a project of its own: what came, and the file. */
function example(name, text, ...words) {
  return inRoom((room) => {
    fs.mkdirSync(path.join(room, "node_modules"));
    fs.symlinkSync(HOME, path.join(room, "node_modules/weedle"));
    for (const it of [name, "package.json"]) {
      fs.copyFileSync(path.join(EXAMPLES, it), path.join(room, it));
    }
    fs.writeFileSync(path.join(room, "a.webidl"), text);
    const done = run(process.execPath, [name, ...words, "a.webidl"], { cwd: room });
    return { ...done, text: fs.readFileSync(path.join(room, "a.webidl"), "utf8") };
  });
}

test("each is as short as it is told to be", { skip }, () => {
  for (const [name, most] of Object.entries(MOST_LINES)) {
    const lines = fs.readFileSync(path.join(EXAMPLES, name), "utf8").split("\n").length - 1;
    assert.ok(lines <= most, `${name} has ${lines} lines`);
  }
});

test("dts.js", { skip }, () => {
  const { status, out, err } = example("dts.js", WEB);
  assert.deepEqual([status, err], [0, "a.webidl:13:3: left out: iterable<long>;\n"]);
  assert.equal(out, DECLARED);
  assert.equal(example("dts.js", fs.readFileSync(PAGES, "utf8")).status, 0);
  const refused = example("dts.js", "interface A {");
  assert.deepEqual([refused.status, refused.out, refused.err.split("\n")[0].slice(0, 13)], [1, "", "a.webidl:1:14"]);
});

test("rename.js", { skip }, () => {
  const text = "interface A : A { A A(A? A); }; // A é\nA includes A; [A=A] interface B {};\n";
  const done = example("rename.js", text, "A", "_interface");
  assert.deepEqual([done.status, done.err], [0, ""]);
  assert.equal(
    done.text,
    "interface _interface : _interface { _interface A(_interface? A); }; // A é\n" +
      "_interface includes _interface; [A=_interface] interface B {};\n",
  );
  const crlf = "// é𝒜\r\ninterface _A {};\r\n";
  assert.equal(example("rename.js", crlf, "A", "B").text, crlf.replace("_A", "B"));
});

test("rename.js refuses a word that is read as something else", { skip }, () => {
  for (const [name, said] of [["long", "long isn't a name everywhere"], ["x y", "1:"], ["any", "any isn't a name everywhere"]]) {
    const text = "dictionary D { A x; };";
    const done = example("rename.js", text, "A", name);
    assert.deepEqual([done.status, done.text], [1, text]);
    assert.ok(done.err.startsWith(`a.webidl:${said}`), done.err);
  }
});
