"""The checker. Expected is what Web IDL says of each text, by hand; each problem has its code, its place and why."""

import json
import os
import subprocess
import sys
import tempfile
import unittest
from pathlib import Path

from support import HOME
from weedle.lint import Problem, lint

CLEAN = """\
[Exposed=Window] interface Node : EventTarget {
  constructor(optional Options options = {});
  constructor(Node node, optional Options options = {});
  undefined f(long a);
  undefined f(DOMString a);
  undefined f(long a, Node b);
  undefined f(long a, Text b, optional long c = 1);
  undefined f(boolean a, optional Options b = {}, optional any c);
  attribute (long or DOMString or sequence<long>)? mixed;
  attribute (Text or Shape or Handler or boolean) other;
  static undefined twice();
  undefined twice();
  undefined g(Needs needs);
  undefined h((BufferSource or Node) x, bigint y, WindowProxy? z, any... rest);
};
[Exposed=Window] interface EventTarget {};
[Exposed=Window] interface Shape {};
[Exposed=Window] interface Text : EventTarget {};
interface mixin Both { undefined both(); };
Node includes Both;
partial interface Node { undefined part(); };
partial interface mixin Both { undefined more(); };
dictionary Options : Base { boolean it = false; };
dictionary Base {};
dictionary Needs : Requires {};
dictionary Requires { required long id; };
callback Handler = undefined (long x);
enum Kind { "a", "b", "A" };
typedef (Kind or double) KindOrDouble;
"""
# A text, and each problem of it: the code, the line, the column, and a part of what is said.
TABLE = [
    ("interface A {};\nenum A { \"a\" };", [("duplicate-definition", 2, 6, "already, at x:1:11")]),
    ("interface A { attribute B? b; };", [("undefined-type", 1, 25, "the type B")]),
    ("typedef sequence<(B or long)> C;", [("undefined-type", 1, 19, "the type B")]),
    ("interface A : B {};", [("undefined-parent", 1, 15, "the parent B")]),
    ("interface A {}; A includes M; N includes A;",
     [("undefined-mixin", 1, 28, "M"), ("undefined-name", 1, 31, "N"), ("wrong-kind", 1, 42, "A is no interface mixin, but an interface")]),
    ("interface A {}; interface mixin M {}; A implements M; M implements B;",
     [("wrong-kind", 1, 52, "but an interface mixin"), ("wrong-kind", 1, 55, "no interface"), ("undefined-name", 1, 68, "B")]),
    ("interface A : B {}; interface B : C {}; interface C : A {};",
     [("inheritance-cycle", 1, 15, "A : B : C : A"), ("inheritance-cycle", 1, 35, "B : C : A : B"),
      ("inheritance-cycle", 1, 55, "C : A : B : C")]),
    ("interface A : A {};", [("inheritance-cycle", 1, 15, "A : A")]),
    ("interface A : D {}; dictionary D {};", [("wrong-kind", 1, 15, "the parent D is a dictionary")]),
    ("partial interface A {};", [("partial-without-definition", 1, 19, "nothing defines it")]),
    ("partial dictionary A {}; interface A {};", [("partial-without-definition", 1, 20, "it is an interface")]),
    ("interface mixin M {}; namespace N {}; typedef M A; typedef N B;",
     [("wrong-kind", 1, 47, "interface mixin M is no type"), ("wrong-kind", 1, 60, "namespace N")]),
    ("dictionary D {}; namespace N{any f(D d);};", [("dictionary-argument", 1, 38, "must be optional")]),
    ("dictionary D {}; namespace N{any f(optional D d);};", [("dictionary-argument", 1, 47, "needs the default {}")]),
    ("dictionary D {}; namespace N{any f(optional D? d = {});};", [("dictionary-argument", 1, 48, "is nullable")]),
    ("dictionary D {}; typedef (D or long) T; namespace N{any f(T d, optional long x);};",
     [("dictionary-argument", 1, 61, "must be optional")]),
    ("dictionary D {}; namespace N{any f(D d, long x);};", []),
    ("dictionary D {}; callback F = any (D d); callback interface C { any f(D d); };", []),
    ("dictionary D {}; [X(D d)] interface A {};", [("unknown-attribute", 1, 19, "X"), ("dictionary-argument", 1, 23, "d must be")]),
    ("callback F = any (optional long a, long b, long... c);", [("required-behind-optional", 1, 33, "a is optional")]),
    ("interface A { undefined f(long a); undefined f(double a); };",
     [("indistinguishable-overloads", 1, 36, "a call with 1 arguments may be of the f at x:1:15 too")]),
    ("interface A { undefined f(); undefined f(optional long a); };", [("indistinguishable-overloads", 1, 30, "0 arguments")]),
    ("interface A { undefined f(long a); undefined f(any... a); };", [("indistinguishable-overloads", 1, 36, "1 arguments")]),
    ("interface A { undefined f(long a, A b); undefined f(DOMString... a); };", []),
    ("interface A { undefined f(A a); undefined f(B a); }; interface B : A {};",
     [("indistinguishable-overloads", 1, 33, "1 arguments")]),
    ("interface A { undefined f(ArrayBufferView a); undefined f(Uint8Array a); };",
     [("indistinguishable-overloads", 1, 47, "1 arguments")]),
    ("interface A { undefined f(ArrayBuffer a); undefined f(Uint8Array a); };", []),
    ("interface A { constructor(long a); constructor(octet a); };", [("indistinguishable-overloads", 1, 36, "of the constructor at")]),
    ("interface A { undefined f(long a); }; partial interface A { undefined f(byte b); };",
     [("indistinguishable-overloads", 1, 61, "1 arguments")]),
    ("interface A {}; interface B {}; A includes M; B includes M; interface mixin M { undefined f(); undefined f(); };",
     [("indistinguishable-overloads", 1, 96, "0 arguments")]),
    ("interface A { attribute long x; undefined x(); };", [("duplicate-member", 1, 33, "A has x already, at x:1:15")]),
    ("interface A { attribute long x; }; A includes M; interface mixin M { attribute long x; };",
     [("duplicate-member", 1, 70, "A has x already, at x:1:15")]),
    ("dictionary D { long x; DOMString x; };", [("duplicate-member", 1, 24, "D has x already")]),
    ("typedef (long or double) T;", [("indistinguishable-union", 1, 9, "long and double")]),
    ("typedef (DOMString or E) T; enum E { \"a\" };", [("indistinguishable-union", 1, 9, "DOMString and E")]),
    ("typedef (A or (B or long)) T; interface A {}; interface B : A {};", [("indistinguishable-union", 1, 9, "A and B")]),
    ("typedef (D or record<DOMString, long>) T; dictionary D {};", [("indistinguishable-union", 1, 9, "D and record<DOMString, long>")]),
    ("typedef (object or A) T; interface A {};", [("indistinguishable-union", 1, 9, "object and A")]),
    ("typedef (sequence<long> or FrozenArray<any>) T;", [("indistinguishable-union", 1, 9, "sequence<long> and FrozenArray<any>")]),
    ("typedef (long? or DOMString?) T;", [("nullable-twice", 1, 9, "more than one")]),
    ("typedef (long? or DOMString)? T;", [("nullable-twice", 1, 9, "more than one")]),
    ("typedef (D or long)? T; dictionary D {};", [("nullable-twice", 1, 9, "a nullable union has a dictionary")]),
    ("typedef U T; typedef T U; typedef (T or long) V;", []),
    ("enum E { \"a\", \"b\", \"a\" };", [("duplicate-enum-value", 1, 20, "E has \"a\" already")]),
    ("[Foo=Bar] interface A {};", [("unknown-attribute", 1, 2, "Foo")]),
    ("interface A {};\ninterface B {", [("syntax", 2, 14, "expected")]),
    ("interface A { atribute long x; };", [("syntax", 1, 29, "expected `(` (1:15: `attribute` in place of `atribute`?)")]),
    ("interface A : B {}; interface B", [("syntax", 1, 32, "expected"), ("undefined-parent", 1, 15, "B")]),
    ("[X] typedef any A; // weedle-ignore", []),
    ("[X] typedef B A; // weedle-ignore: unknown-attribute", [("undefined-type", 1, 13, "B")]),
    ("[X] typedef B A; /* weedle-ignore: undefined-type , unknown-attribute */", []),
    ("// weedle-ignore: unknown-attribute\n[X] typedef any A;", []),
    ("/* weedle-ignore\n   for a while */\n[X] typedef any A;\n[Y] typedef any B;", [("unknown-attribute", 4, 2, "Y")]),
    ("[X] typedef any A; // weedle-ignore: undefined-type", [("unknown-attribute", 1, 2, "X")]),
    ("", []),
]


class Rules(unittest.TestCase):
    def test_a_clean_text(self):
        self.assertEqual(lint({"x": CLEAN.encode()}), [])

    def test_each_rule(self):
        codes = set()
        for text, wanted in TABLE:
            found = lint({"x": text.encode()})
            places = sorted((it.code, it.line, it.column) for it in found)
            self.assertEqual(places, sorted(it[:3] for it in wanted), (text, [str(it) for it in found]))
            for code, line, column, said in wanted:
                (it,) = [it for it in found if it[1:4] == (line, column, code)]
                self.assertIn(said, it.message, text)
            codes |= {it.code for it in found}
        self.assertEqual(len(codes), 17)

    def test_files_are_checked_together(self):
        files = {
            "b": b"interface A : B { attribute C c; };\n[X] partial interface C {};",
            "a": b"interface B {}; interface C {}; interface A {};",
        }
        self.assertEqual(lint(files), [
            Problem("b", 2, 2, "unknown-attribute", "unknown extended attribute X"),
            Problem("a", 1, 43, "duplicate-definition", "A is defined already, at b:1:11"),
        ])

    def test_extended_attributes_that_are_known(self):
        self.assertEqual(lint({"x": b"[X] typedef any A;"}, {"X"}), [])


class Program(unittest.TestCase):
    def setUp(self):
        room = tempfile.TemporaryDirectory()
        self.addCleanup(room.cleanup)
        self.room = Path(room.name)

    def run_lint(self, *words, given=b""):
        done = subprocess.run(
            [sys.executable, "-m", "weedle", "lint", *words], input=given, capture_output=True, check=False, cwd=self.room,
            env={**os.environ, "PYTHONPATH": str(HOME)},
        )
        return done.returncode, done.stdout.decode(), done.stderr.decode()

    def write(self, name, text):
        (self.room / name).write_text(text, encoding="utf-8")
        return name

    def test_a_problem(self):
        name = self.write("a.webidl", "interface A {};\ninterface A {};")
        said = "a.webidl:2:11: duplicate-definition: A is defined already, at a.webidl:1:11\n"
        self.assertEqual(self.run_lint(name), (1, said, ""))
        self.assertEqual(self.run_lint("--ignore", "duplicate-definition", name), (0, "", ""))

    def test_json(self):
        name = self.write("a.webidl", "[Ö] interface A {};".replace("Ö", "O"))
        status, out, _ = self.run_lint("--json", name)
        self.assertEqual((status, json.loads(out)), (1, {
            "file": "a.webidl", "line": 1, "column": 2, "code": "unknown-attribute", "message": "unknown extended attribute O",
        }))

    def test_known_attributes(self):
        known = self.write("known.txt", "O\nP Q\n")
        name = self.write("a.webidl", "[O, Q] interface A {};")
        self.assertEqual(self.run_lint("--known", known, name), (0, "", ""))

    def test_standard_input(self):
        self.assertEqual(self.run_lint("-", given=b"interface A : A {};"), (1, "-:1:15: inheritance-cycle: A : A\n", ""))

    def test_statuses(self):
        clean = self.write("clean.webidl", CLEAN)
        self.assertEqual(self.run_lint(clean), (0, "", ""))
        self.assertEqual(self.run_lint(clean, "nowhere.webidl")[:2], (2, ""))
        (self.room / "bytes.webidl").write_bytes(b"// \xff")
        self.assertEqual(self.run_lint("bytes.webidl")[0], 2)
        self.assertEqual(self.run_lint()[0], 2)
        self.assertEqual(self.run_lint("--nothing")[0], 2)


if __name__ == "__main__":
    unittest.main()
