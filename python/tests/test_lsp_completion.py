"""What the language server says goes on at a place, and what it is quick about.

Expected is what docs/GRAMMAR.md has at the place; `|` is the place in each text.
"""

import time
import unittest

from lsp_client import Client, places
from weedle.lsp.diagnostics import diagnostics
from weedle.lsp.sources import Source

KNOWN = """\
interface Node {}; interface mixin Shown {}; namespace Console {}; dictionary Options {}; enum Kind { "a" };
typedef long Count; callback Listener = undefined (); callback interface Filter {}; partial interface Lost {};
[Global=(Window,Worker), Exposed=Window] interface Window {};
"""
TYPES = {"Node", "Options", "Kind", "Count", "Listener", "Filter", "Window"}
BEGINNINGS = {"callback", "dictionary", "enum", "interface", "namespace", "partial", "typedef"}
# How long errors may take, in seconds of a processor: a tenth of that is usual.
MOST_OF_LARGE, MOST_OF_SMALL = 1.0, 0.1


class Completions(unittest.TestCase):
    @classmethod
    def setUpClass(cls):
        cls.page = Client()
        cls.addClassCleanup(cls.page.close)
        cls.page.initialize()

    def items(self, text, before=KNOWN):
        """What goes on at the `|` of a text."""
        text = before + text
        front, _, back = text.partition("|")
        self.page.open(front + back)
        line = front.count("\n")
        return self.page.at("textDocument/completion", line, len(front) - front.rfind("\n") - 1)

    def labels(self, text, before=KNOWN):
        return {it["label"] for it in self.items(text, before)}

    def test_where_a_definition_begins(self):
        for text, more in (("|", set()), ("|\ninterface A {};", {"A"}), ("// a\n|", set()), ("typedef long A; |", set())):
            self.assertEqual(self.labels(text), BEGINNINGS | {"Node", "Window"} | more, text)
        self.assertEqual(self.labels("", before="|"), BEGINNINGS)

    def test_of_a_word(self):
        found = self.items("interface A { attribute No|x x; };")
        self.assertEqual([it["label"] for it in found], ["Node"])
        self.assertEqual(places([found[0]["textEdit"]]), [(3, 24, 3, 27)])
        self.assertEqual(found[0]["textEdit"]["newText"], "Node")
        self.assertEqual((found[0]["kind"], found[0]["detail"]), (8, "interface, page.webidl"))
        self.assertEqual(self.labels("interface A { attr|"), {"attribute"})
        self.assertEqual(self.labels("interface A { ODE|"), {"Node"})

    def test_types(self):
        found = self.labels("interface A { attribute |")
        self.assertLessEqual(TYPES | {"long", "DOMString", "sequence", "any", "unsigned", "bigint"}, found)
        self.assertTrue(found.isdisjoint({"Shown", "Console", "Lost", "attribute", "readonly", "true", "interface"}), found)
        for text in (
            "typedef |", "typedef sequence<|", "interface A { undefined f(|", "interface A { undefined f(long a, optional |",
            "dictionary D { required |", "typedef (long or |", "callback F = |", "interface A { iterable<DOMString, |",
        ):
            self.assertLessEqual(TYPES | {"DOMString", "sequence"}, self.labels(text), text)
        self.assertEqual(self.labels("interface A { const |"), {
            "long", "unrestricted", "unsigned", "boolean", "byte", "double", "float", "octet", "short", "Count"})

    def test_words(self):
        for text, wanted in (
            ("interface A { readonly |", {"attribute", "maplike", "setlike"}),
            ("interface A { attribute unsigned |", {"long", "short"}),
            ("interface A { async |", {"iterable"}),
            ("dictionary D { boolean a = |", {"true", "false", "null", "Infinity", "NaN"}),
            ("interface A { attribute long |", {"long"}),
            ("interface A { attribute DOMString |", set()),
            ("enum E { |", set()), ("interface A { cons|", {"const", "constructor"}),
        ):
            self.assertEqual(self.labels(text), wanted, text)
        self.assertLessEqual(
            {"attribute", "const", "getter", "readonly", "static"}, self.labels("interface A { attribute long x; |"))
        self.assertLessEqual({"required", "long"}, self.labels("dictionary A { long x; |"))
        self.assertNotIn("attribute", self.labels("dictionary A { long x; |"))
        self.assertNotIn("static", self.labels("interface mixin A { |"))

    def test_what_a_head_speaks_of(self):
        for text, wanted in (
            ("interface A : |", {"Node", "Window"}), ("dictionary A : |", {"Options"}),
            ("partial interface |", {"mixin", "Node", "Window"}), ("partial interface mixin |", {"Shown"}),
            ("partial dictionary |", {"Options"}), ("partial namespace |", {"Console"}),
            ("Node includes |", {"Shown"}), ("Node implements |", {"Node", "Window"}), ("interface |", {"mixin"}),
            ("[A] partial dictionary |", {"Options"}), ("enum |", set()), ("Node |", {"includes", "implements"}),
        ):
            self.assertEqual(self.labels(text), wanted, text)

    def test_extended_attributes(self):
        for text in ("[|", "[A, |", "interface A { [|", "interface A { undefined f([|"):
            self.assertLessEqual({"Exposed", "SameObject", "Global"}, self.labels(text), text)
        self.assertEqual(self.labels("[Global=|"), {"Window", "Worker"})
        self.assertEqual(self.labels("[Global=(Worker, |"), {"Window", "Worker"})
        self.assertEqual(self.labels("[Exposed=|"), {"Window"})
        self.assertEqual(self.labels("[Other=|"), set())
        self.assertEqual(self.labels("[Exposed |"), set())
        self.assertLessEqual(TYPES, self.labels("[Constructor(|"))

    def test_none(self):
        for text in ("// |", "/* |", "/* | */", 'enum E { "|', 'enum E { "a|"', "interface A { attribute ; x |", "/// |"):
            self.assertEqual(self.labels(text), set(), text)

    def test_behind_what_is_not_ended(self):
        self.assertEqual(self.labels("interface A {\n  attribute long x;\n\npartial |"), self.labels("partial |"))
        self.assertIn("attribute", self.labels("interface A { attribute ; |"))
        self.assertIn("attribute", self.labels("interface A { undefined f(optional D d = {}); |"))


class Times(unittest.TestCase):
    def test_errors(self):
        text = 'interface A%d : B {\n  readonly attribute DOMString x; // x\n  undefined f(optional A y = {});\n};\n'
        for size, most in ((200_000, MOST_OF_LARGE), (3_000, MOST_OF_SMALL)):
            data = "".join(text % at for at in range(size // len(text)))
            for slip in (data, data.replace("undefined f", "undefined", 1), data[:-3], f"{data}interface"):
                began = time.process_time()
                found = diagnostics(Source("file:///a", slip.encode()))
                self.assertLess(time.process_time() - began, most)
                self.assertEqual(len(found), int(slip != data and "undefined(" not in slip))


if __name__ == "__main__":
    unittest.main()
