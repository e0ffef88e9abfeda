"""Runs the examples of examples/python, those of docs/PYTHON.md, docs/COMING.md and README, and those of
docstrings.

Expected is what a person writes for the same interfaces in TypeScript, as its library lib.dom.d.ts
has them, what the Web's design principles say of names, and what the page says.
"""

import doctest
import os
import re
import subprocess
import sys
import tempfile
import unittest
from pathlib import Path

from support import HOME, TOP
import weedle
from weedle import nodes

WINDOW = """\
// A window.
// Of a page.
[Exposed=Window]
interface Window : EventTarget {
  const unsigned short ELEMENT_NODE = 1; // of Node
  // kept for the session
  readonly attribute Storage sessionStorage;
  attribute (DOMString or sequence<long>?)? mixed;
  attribute (record<DOMString, (A or B)> or (record<DOMString, (C or B)> or B? or A)) nested;
  Promise<undefined> open(optional USVString url = "", any... rest);
  static record<DOMString, (Node or ArrayBuffer)> map(FrozenArray<double> xs);
  stringifier;
  iterable<DOMString, Node>;
  /// Opens one.
  constructor(optional DOMString name);
  maplike<DOMString, Node>;
};
partial interface Window { boolean? f(); };
enum Kind { "local", "" };
namespace Math { readonly attribute double pi; double max(double x, double y); };
dictionary Options { required long id; DOMString the-name; };
callback Handler = undefined (any default);
typedef (Node or DOMString)? Both;
Window includes Mixed;
"""
DECLARED = """\
/** A window.
 * Of a page. */
interface Window extends EventTarget {
  readonly ELEMENT_NODE: 1;
  /** kept for the session */
  readonly sessionStorage: Storage;
  mixed: string | Array<number> | null;
  nested: Record<string, A | B> | Record<string, C | B> | B | null | A;
  open(url?: string, ...rest: Array<any>): Promise<void>;
  toString(): string;
  [Symbol.iterator](): Iterator<[string, Node]>;
}
declare var Window: {
  prototype: Window;
  /** Opens one. */
  new (name?: string): Window;
  readonly ELEMENT_NODE: 1;
  map(xs: ReadonlyArray<number>): Record<string, Node | ArrayBuffer>;
};
interface Window {
  f(): boolean | null;
}
type Kind = "local" | "";
declare namespace Math {
  const pi: number;
  function max(x: number, y: number): number;
}
interface Options {
  id: number;
  "the-name"?: string;
}
type Handler = (default_: any) => void;
type Both = Node | string | null;
interface Window extends Mixed {}
"""
# A text, and its page in Markdown with links.
DOCUMENTED = """\
<a id="Kind"></a>

## Kind

<code>enum Kind</code> (4:1)

how it is

- <code>"local"</code>

- <code>""</code>

  none

<a id="Mixed"></a>

## Mixed

<code>interface mixin Mixed</code> (7:1)



<a id="Options"></a>

## Options

<code>dictionary Options</code> (6:1)



- <code>required <a href="#Kind">Kind</a> id;</code>

- <code>DOMString the-name;</code>

<a id="Window"></a>

## Window

Includes [Mixed](#Mixed).

<code>partial interface <a href="#Window">Window</a></code> (1:1)



- <code>sequence&lt;<a href="#Kind">Kind</a>&gt; f();</code>

"""
PAGE = """\
partial interface Window { sequence<Kind> f(); };
Window includes Mixed;
// how it is
enum Kind { "local", /* none */ "" };

dictionary Options { required Kind /* of which */ id; DOMString the-name; };
interface mixin Mixed {};
"""


# Python on a page, and what it says that is printed.
CODE = re.compile(r"^```python\n(.*?)^```$", re.M | re.S)
PRINTED = re.compile(r"^```python\n(.*?)^```\n\n```text\n(.*?)^```$", re.M | re.S)


class Pages(unittest.TestCase):
    def test_what_the_pages_print(self):
        printed = []
        for name, least in (("docs/PYTHON.md", 6), ("docs/COMING.md", 1)):
            page = (TOP / name).read_text(encoding="utf-8")
            found = PRINTED.findall(page)
            self.assertEqual(len(found), len(CODE.findall(page)), name)
            self.assertGreaterEqual(len(found), least, name)
            printed += found
        for code, said in printed:
            if "match it:" in code and sys.version_info < (3, 10):
                continue
            done = subprocess.run(
                [sys.executable, "-c", code], capture_output=True, text=True, check=False,
                env={**os.environ, "PYTHONPATH": str(HOME)},
            )
            self.assertEqual((done.stdout, done.stderr), (said, ""))

    def test_what_the_readme_prints(self):
        page = (TOP / "README.md").read_text(encoding="utf-8")
        codes = CODE.findall(page)
        self.assertEqual(len(codes), 1)
        done = subprocess.run(
            [sys.executable, "-c", codes[0]], capture_output=True, text=True, check=False,
            env={**os.environ, "PYTHONPATH": str(HOME)},
        )
        self.assertEqual(done.stderr, "")
        self.assertIn(f"It prints `{done.stdout.strip()}`.", page)

    def test_docstrings(self):
        for module in (weedle, nodes):
            failed, attempted = doctest.testmod(module)
            self.assertEqual((failed, attempted > 0), (0, True))


class Examples(unittest.TestCase):
    def run_example(self, name, text, *words):
        """Runs an example over a file with this text; its name is left out of what is written."""
        with tempfile.TemporaryDirectory() as room:
            file = Path(room, "given.webidl")
            file.write_text(text, encoding="utf-8")
            done = subprocess.run(
                [sys.executable, TOP / "examples/python" / name, *words, file], capture_output=True,
                check=False, text=True, env={**os.environ, "PYTHONPATH": str(HOME)},
            )
            out, err = (it.replace(f"{file}:", "") for it in (done.stdout, done.stderr))
            return done.returncode, out, err

    def test_declarations(self):
        expected = (0, DECLARED, "16:3: left out: maplike<DOMString, Node>;\n")
        self.assertEqual(self.run_example("dts.py", WINDOW), expected)

    def test_documentation(self):
        status, out, err = self.run_example("documentation.py", PAGE)
        self.assertEqual((status, out, err), (0, DOCUMENTED, ""))

    def test_renaming(self):
        status, out, err = self.run_example("rename.py", "interface A {};\n// A\ntypedef A T;\n", "A", "long")
        changes = [it for it in out.splitlines() if it[0] in "+-" and it[:3] not in ("+++", "---")]
        self.assertEqual((status, err), (0, ""))
        self.assertEqual(changes, ["-interface A {};", "+interface _long {};", "-typedef A T;", "+typedef _long T;"])
        status, out, err = self.run_example("rename.py", "interface A {};", "A", "a b")
        self.assertEqual((status, out, err), (1, "", " 'a b' would be read as something else than a name\n"))
        self.assertEqual(self.run_example("rename.py", "interface A {};", "B", "C"), (0, "", ""))

    def test_lines(self):
        # what the page says of them
        for name, most in (("dts.py", 150), ("documentation.py", 70), ("rename.py", 35)):
            lines = (TOP / "examples/python" / name).read_text(encoding="utf-8").count("\n")
            self.assertLessEqual(lines, most, name)
        self.assertLessEqual((HOME / "weedle/lint.py").read_text(encoding="utf-8").count("\n"), 400)

    def test_names(self):
        self.assertEqual(self.run_example("names.py", WINDOW.replace("the-name", "name")), (0, "", ""))
        status, out, _ = self.run_example(
            "names.py", "interface a { const long b = 1; attribute any C; };\nenum D { \"E\" };"
        )
        self.assertEqual(status, 1)
        places = [row.partition(" ")[0] for row in out.splitlines()]
        self.assertEqual(places, ["1:11:", "1:26:", "1:47:", "2:11:"])

    def test_a_refused_file(self):
        for name in ("dts.py", "names.py", "documentation.py"):
            self.assertEqual(self.run_example(name, "interface A {")[0], 1)


if __name__ == "__main__":
    unittest.main()
