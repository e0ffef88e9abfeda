"""Tests how declarations and doc lines are read, over made-up text, in a second."""

import unittest

from description.declarations import declared_in, type_of
from description.productions import forms, productions, unlike
from description.readings import Declared, Unread

TYPES = """
pub struct Braced<T> {
    pub open_brace: OpenBrace,
    pub body: T,
    pub close_brace: CloseBrace,
}
pub type Names<'a> = Punctuated<Identifier<'a>, Comma>;
"""


class Readings(unittest.TestCase):
    def setUp(self):
        words = "OpenBrace CloseBrace Comma Identifier Default Long".split()
        text = TYPES + "".join(f"pub struct {it};\n" for it in words)
        self.declared = Declared(declared_in(text))

    def rule(self, text):
        return self.declared.rule_of(type_of(text))

    def test_rules_of_types(self):
        self.assertEqual(self.rule("Option<Default<'a>>"), "OPT_DEFAULT")
        self.assertEqual(self.rule("Box<Default<'a>>"), "DEFAULT")
        self.assertEqual(self.rule("(Long, Long)"), "LONG_LONG")
        self.assertEqual(self.rule("Names<'a>"), "IDENTIFIER_LIST")

    def test_what_no_rule_reads(self):
        for text in ("Option<Long>", "Braced<Long>", "Lone"):
            self.assertRaises(Unread, self.rule, text)


class Productions(unittest.TestCase):
    def test_the_front_of_a_doc_line(self):
        told = productions("`a b` or `c`, also without `b`.")
        self.assertEqual(told, (["a b", "c"], ", also without `b`."))
        self.assertEqual(productions("`any`, or another type, as `long?`.")[0], ["any"])
        self.assertEqual(productions("The words `async` and `iterable`.")[0], ["async iterable"])
        told = productions("The word `a`, `b` or `c`, where one stands.")
        self.assertEqual(told, (["a", "b", "c"], ", where one stands."))
        self.assertEqual(productions("A type, as `long`."), ([], "A type, as `long`."))

    def test_forms(self):
        self.assertEqual(forms("DEFAULT"), {("=", "value")})
        self.assertEqual(forms("OPT_UNSIGNED"), {(), ("unsigned",)})
        self.assertEqual(forms("FLOAT_TYPE"), {("float",), ("unrestricted", "float")})
        self.assertIn(("(", "type", "or", "type", ")"), forms("UNION_TYPE"))

    def test_one_that_is_shown_both_ways(self):
        doc = (
            "`[extended attributes] type name` or `[extended attributes] optional type name = value`, "
            "the latter also without `= value`."
        )
        self.assertEqual(list(unlike(doc, "SINGLE_ARGUMENT", "`[extended attributes]`")), [])
        doc = "`[extended attributes] type name`, also without `[extended attributes]`."
        names = [text.split()[0] for text in unlike(doc, "SINGLE_ARGUMENT")]
        self.assertEqual(names, ["OPTIONAL", "DEFAULT"])
