"""Tests rust_types.py and rust_rules.py, in a second.

The types are those that the crates declare, and weedle2's names, derives and signs those of its
documentation. That the text is as `cargo fmt` lays it out, rust/run_tests.sh says.
"""

import re
import unittest

from description.readings import Declared
from shared.crates import TOP
from write import rust_types
from write.python_types import Package
from write.rust_rules import tables
from write.rust_types import Writer


class Types(unittest.TestCase):
    @classmethod
    def setUpClass(cls):
        cls.writer = Writer(Package(Declared.of(TOP)))
        cls.texts = dict(rust_types.texts())

    def test_names_are_those_of_weedle2(self):
        self.assertIn("    Type(Type<'a>),\n", self.texts["types"])
        self.assertIn("    pub record: term::Record,\n", self.texts["types"])
        whole = "".join(self.texts.values())
        self.assertNotRegex(whole, r"\b(Type_|record_|ParenthesizedArgumentList|RecordTypes)\b")

    def test_what_is_derived(self):
        table = {
            "enum ConstType": "Clone", "enum IntegerType": "Clone, Copy",
            "struct Comma": "Clone, Copy, Debug, Default", "struct Docstring": "Clone",
        }
        rest = {"struct Comma": ", PartialEq, Eq, PartialOrd, Ord, Hash"}
        for declared, front in table.items():
            wanted = front + rest.get(declared, ", Debug, PartialEq, Eq, PartialOrd, Ord, Hash")
            found = re.search(rf"#\[derive\((.*)\)\]\npub {declared}\b", "".join(self.texts.values()))
            self.assertEqual(found[1], wanted, declared)

    def test_each_terminal_has_a_type_and_stands_in_the_macro(self):
        self.assertEqual(len(re.findall(r"^terminal!", self.texts["term"], re.M)), 84)
        self.assertEqual(len(re.findall(r"^    \(.*\) => \{$", self.texts["term"], re.M)), 84)
        for arm in ("(OpenParen)", "(;)", "(...)", "(or)", "(- Infinity)", "(DOMString)"):
            self.assertIn(f"    {arm} => {{\n", self.texts["term"])

    def test_each_public_item_has_a_doc(self):
        for name, text in self.texts.items():
            if name != "rules":
                for before in re.findall(r"(.*)\n(?:#\[.*\n)*    ?pub |(.*)\n(?:#\[.*\n)*pub ", text):
                    self.assertIn("///", "".join(before), name)


class Rules(unittest.TestCase):
    def test_a_rule_reads_no_two_generic_types(self):
        for name, table in tables().items():
            self.assertEqual(len(table), len(set(table.values())), name)
