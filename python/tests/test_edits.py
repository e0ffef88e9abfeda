"""Changes of a text. Expected is the text as a person changes it by hand."""

import doctest
import unittest

import support  # noqa: F401  (finds the package)
import weedle
from test_walks import COMMENTED
from weedle import Edits, Span, edits as edits_module

TEXT = """\
// é
interface A : B {  // kept
  attribute   A? a;
  A f(sequence<A> a, [A] long b);
};
partial interface A { const long A = 1; };
A includes M; enum E { "A" };
"""


class Changes(unittest.TestCase):
    def setUp(self):
        self.edits = Edits(TEXT)
        self.interface = self.edits.definitions[0].value

    def test_nothing(self):
        self.assertEqual(self.edits.apply(), TEXT)

    def test_replacing_a_value_a_name_a_node_and_bytes(self):
        name = next(it for it in self.edits.definitions.names() if it.text == "M")
        node = next(self.edits.definitions.syntax.find("string_lit"))
        self.edits.replace(self.interface.inheritance.identifier, "Base")
        self.edits.replace(name, b"N")
        self.edits.replace(node, '"é"')
        self.edits.replace(Span(3, 5), "e")
        expected = TEXT.replace("é", "e").replace(": B", ": Base").replace("includes M", "includes N").replace('"A"', '"é"')
        self.assertEqual(self.edits.apply(), expected.replace('"é" ', '"é"'))

    def test_inserting(self):
        first, second = self.interface.members.body
        self.edits.insert_before(first, "attribute long x;\n  ")
        self.edits.insert_before(first, "attribute long y;\n  ")
        self.edits.insert_behind(first, " // é")
        self.edits.insert_before((len(TEXT.encode()), len(TEXT.encode())), "// end")
        expected = TEXT.replace("attribute   A? a;", "attribute long x;\n  attribute long y;\n  attribute   A? a; // é") + "// end"
        self.assertEqual(self.edits.apply(), expected)

    def test_deleting(self):
        self.edits.delete(self.interface.members.body[0])
        self.edits.delete(self.interface.inheritance)
        self.assertEqual(self.edits.apply(), TEXT.replace("attribute   A? a;", "").replace(": B", ""))

    def test_bytes_give_bytes(self):
        edits = Edits(TEXT.encode())
        edits.replace(edits.definitions[0].value.identifier, "C")
        self.assertEqual(edits.apply(), TEXT.encode().replace(b"interface A :", b"interface C :"))

    def test_changes_that_overlap(self):
        self.edits.replace(self.interface.members, "{}")
        self.edits.delete(self.interface.members.body[0])
        with self.assertRaisesRegex(ValueError, "overlap at byte"):
            self.edits.apply()

    def test_changes_that_share_a_byte(self):
        edits = Edits("A includes B;")
        edits.replace((0, 1), "C")
        edits.replace((1, 2), "\n")
        self.assertEqual(edits.apply(), "C\nincludes B;")
        edits.replace((1, 3), " i")
        with self.assertRaisesRegex(ValueError, "overlap at byte 1"):
            edits.apply()

    def test_the_same_change_twice(self):
        self.edits.delete(self.interface.members.body[0])
        self.edits.delete(self.interface.members.body[0])
        with self.assertRaises(ValueError):
            self.edits.apply()

    def test_changes_side_by_side(self):
        edits = Edits("A includes B;C includes D;")
        one, other = edits.definitions
        edits.delete(one)
        edits.insert_behind(one, "E includes F;")
        edits.replace(other, "G includes H;")
        edits.insert_before(other, "// a\n")
        self.assertEqual(edits.apply(), "E includes F;// a\nG includes H;")

    def test_a_text_that_is_not_read(self):
        self.edits.replace(self.interface.identifier, "5")
        with self.assertRaises(weedle.Refused) as raised:
            self.edits.apply()
        self.assertEqual((raised.exception.line, raised.exception.column), (2, 11))

    def test_what_stands_elsewhere(self):
        other = weedle.parse("interface A {};")[0]
        with self.assertRaisesRegex(ValueError, "another text"):
            self.edits.delete(other)
        for span in ((-1, 0), (5, 4), (0, 10_000)):
            with self.assertRaises(ValueError):
                self.edits.replace(span, "")
        again = weedle.parse(TEXT)[0].value.members.body[0]
        self.edits.delete(again)
        self.assertEqual(self.edits.apply(), TEXT.replace("attribute   A? a;", ""))


class Renames(unittest.TestCase):
    def test_a_name(self):
        edits = Edits(TEXT)
        self.assertEqual(edits.renames("A", "Other"), 6)
        expected = """\
// é
interface Other : B {  // kept
  attribute   Other? a;
  Other f(sequence<Other> a, [A] long b);
};
partial interface Other { const long A = 1; };
Other includes M; enum E { "A" };
"""
        self.assertEqual(edits.apply(), expected)

    def test_all_else_stays_as_it_was(self):
        edits = Edits(COMMENTED)
        edits.renames("A", "C")
        self.assertEqual(edits.apply(), COMMENTED.replace("interface A :", "interface C :"))

    def test_a_name_with_an_underscore(self):
        edits = Edits("interface _interface {}; typedef _interface I;")
        self.assertEqual(edits.renames("interface", "Plain"), 2)
        self.assertEqual(edits.apply(), "interface Plain {}; typedef Plain I;")

    def test_a_word_of_the_grammar(self):
        edits = Edits("interface A {}; typedef A I;")
        self.assertEqual(edits.renames("A", "long"), 2)
        self.assertEqual(edits.apply(), "interface _long {}; typedef _long I;")

    def test_what_would_be_read_as_something_else(self):
        text = "interface A { attribute A a; };"
        for new in ("a b", "5", "", "B {}; interface C", "sequence<B>", "B?", "B/**/", "B//"):
            edits = Edits(text)
            with self.assertRaises(ValueError, msg=new):
                edits.renames("A", new)
        edits = Edits("typedef A T;")
        for new in ("unsigned long", "(B or C)", "Promise<B>"):
            with self.assertRaises(ValueError, msg=new):
                edits.renames("A", new)

    def test_with_another_change(self):
        edits = Edits("interface A {}; typedef A T;")
        edits.renames("A", "B")
        edits.insert_behind(edits.definitions[0], " /* the interface */")
        self.assertEqual(edits.apply(), "interface B {}; /* the interface */ typedef B T;")

    def test_a_name_that_is_not_there(self):
        edits = Edits(TEXT)
        self.assertEqual(edits.renames("Nowhere", "B"), 0)
        self.assertEqual(edits.apply(), TEXT)

    def test_the_example_of_its_docs(self):
        failed, attempted = doctest.testmod(edits_module)
        self.assertEqual((failed, attempted > 0), (0, True))


if __name__ == "__main__":
    unittest.main()
