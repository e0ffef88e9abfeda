"""Ways over values: all of them, those of a class, the one above, names with roles, and comments.

Expected are the values that the fields give, the names of tests/table.toml, which are by hand, and what
a person says of which comment speaks of what.
"""

import unittest

from support import TOP
import weedle
from test_values import WINDOW, all_values, read_texts
from shared.toml_files import loads
from weedle import Definition, Name, Role, Value, common, interface, term, types

COMMENTED = """\
/* licence */

// of A
// and more
[Exposed=Window] interface A : B { // behind the brace
  // of X
  const long X = 1; // trails X
  const long Y = 2; /* trails Y */ // and this
  /**
   * Of z,
   *   on two lines.
   */
  attribute long z;

  // of nobody

  attribute long w; /* of v */ attribute long v;
  undefined f(long a, // trails a
              long b /* trails b */
  );
  // at the end
}; // trails A
enum E {
  "a", // trails "a"
  // of b
  "b"
};
"""


class Walks(unittest.TestCase):
    def test_the_values_of_a_walk_are_those_of_the_fields(self):
        count = 0
        for text, definitions in read_texts():
            found = [it for it in definitions.walk() if not is_separator(it)]
            wanted = [it for it in all_values(definitions) if not is_separator(it)]
            self.assertEqual([type(it) for it in found], [type(it) for it in wanted], text)
            self.assertEqual([it.span for it in found], [it.span for it in wanted], text)
            count += len(found)
        self.assertGreater(count, 5_000)

    def test_a_walk_has_each_separator(self):
        (definition,) = weedle.parse("callback F = any (long a, long b, long c);")
        commas = [it for it in definition.walk() if isinstance(it, term.Comma)]
        self.assertEqual([it.position.column for it in commas], [25, 33])

    def test_a_class_is_found_with_those_that_derive_from_it(self):
        definitions = weedle.parse(WINDOW)
        for kind in (Value, Definition, Definition.Interface, interface.InterfaceMember, common.Identifier,
                     common.Parenthesized, weedle.Terminal, types.NonAnyType.Identifier, weedle.Choice):
            found = [(type(it), it.span) for it in definitions.find(kind)]
            wanted = [(type(it), it.span) for it in definitions.walk() if isinstance(it, kind)]
            self.assertTrue(wanted, kind)
            self.assertEqual(found, wanted, kind)
        self.assertEqual(list(definitions.find(Definition.Enum)), [])

    def test_what_stands_below_a_value_alone(self):
        first, second = weedle.parse("interface A { attribute B b; }; interface C {};")
        self.assertEqual([it.value for it in first.find(common.Identifier)], ["A", "B", "b"])
        self.assertEqual([it.value for it in second.find(common.Identifier)], ["C"])
        (name,) = second.value.identifier.walk()
        self.assertEqual(name, second.value.identifier)

    def test_a_parent_has_the_value_among_its_parts(self):
        for text, definitions in read_texts():
            for definition in definitions:
                self.assertIsNone(definition.parent)
                for it in definition.walk():
                    for child in parts_of(it):
                        self.assertEqual((type(child.parent), child.parent.span), (type(it), it.span), text)

    def test_a_tree_of_any_depth(self):
        depth = 300
        text = f"typedef {'sequence<' * depth}A{'>' * depth} T;"
        (definition,) = weedle.parse(text)
        it = next(definition.find(types.NonAnyType.Identifier))
        self.assertIsNone(definition._tree.levels)
        self.assertEqual(len(list(definition.find(types.SequenceType))), depth)
        above = []
        while it:
            above.append(type(it))
            it = it.parent
        self.assertEqual((above.count(types.SequenceType), above[-1]), (depth, Definition.Typedef))
        self.assertFalse([it for it in above if issubclass(it, weedle.Terminal)])


def is_separator(value):
    return isinstance(value, (term.Comma, term.Or))


def parts_of(value):
    """The values right below one, by its fields."""
    parts = [getattr(value, name) for name in value._names]
    for it in parts:
        if isinstance(it, (list, tuple)):
            parts += it
    return [it for it in parts if isinstance(it, Value) and not is_separator(it)]


class Lists(unittest.TestCase):
    def test_definitions_are_a_list_that_knows_its_text(self):
        definitions = weedle.parse(WINDOW)
        self.assertIsInstance(definitions, list)
        self.assertIsInstance(definitions, weedle.Definitions)
        self.assertEqual(definitions.text, WINDOW)
        self.assertEqual([it.name for it in definitions.syntax.children], ["definition"])

    def test_lists_with_separators_are_iterated(self):
        (definition,) = weedle.parse('enum E { "a", "b", "c" };')
        values = definition.value.values.body
        self.assertEqual([it.value.value for it in values], ["a", "b", "c"])
        self.assertEqual((len(values), values[1].value.value, len(values[1:])), (3, "b", 2))
        self.assertIn(values.list[2], values)
        (callback,) = weedle.parse("callback F = any ();")
        self.assertEqual(list(callback.value.arguments.body), [])

    def test_numbers(self):
        table = [
            ("long", "31", 31), ("long", "-0x1F", -31), ("long", "0X1f", 31), ("long", "-017", -15), ("long", "0", 0),
            ("float", "-.5E+1", -5.0), ("float", "5.", 5.0), ("float", "-Infinity", float("-inf")),
            ("float", "Infinity", float("inf")),
        ]
        for kind, text, number in table:
            (it,) = weedle.parse(f"interface A {{ const {kind} X = {text}; }};")
            value = it.value.members.body[0].value.const_value.value
            self.assertEqual((value.number, type(value.number)), (number, type(number)), text)
        (it,) = weedle.parse("interface A { const float X = NaN; };")
        self.assertNotEqual(*[it.value.members.body[0].value.const_value.value.number] * 2)


class Names(unittest.TestCase):
    def test_worked_texts(self):
        tables = [it for it in loads((TOP / "tests/table.toml").read_text(encoding="utf-8"))["text"] if "names" in it]
        roles = set()
        for it in tables:
            data = it["text"].encode()
            found = [(data[slice(*name.span)].decode(), name.role.value) for name in weedle.parse(data).names()]
            self.assertEqual(found, [tuple(name) for name in it["names"]], it["text"])
            roles |= {role for _, role in found}
        self.assertEqual(roles, {it.value for it in Role})

    def test_a_name_with_an_underscore(self):
        (name,) = weedle.parse("interface _A {};").names()
        self.assertEqual((name.text, name.span, name.position), ("A", (10, 12), (1, 11)))
        self.assertEqual((name.role, name.value.value), (Role.INTERFACE, "A"))
        self.assertEqual(repr(name), "Name(Role.INTERFACE, 'A')")

    def test_each_identifier_is_a_name(self):
        for text, definitions in read_texts():
            found = [name.value.span for name in definitions.names()]
            self.assertEqual(found, [it.span for it in definitions.find(common.Identifier)], text)

    def test_names_compare_by_what_they_say_and_where(self):
        one, other = weedle.parse("interface A {}; interface A {};").names()
        self.assertNotEqual(one, other)
        self.assertEqual(one, Name(Role.INTERFACE, one.value))


class Comments(unittest.TestCase):
    def setUp(self):
        self.interface, self.enum = weedle.parse(COMMENTED)
        self.members = self.interface.value.members.body

    def test_in_front(self):
        self.assertEqual(self.interface.comments, ["// of A", "// and more"])
        expected = [["// of X"], [], ["/**\n   * Of z,\n   *   on two lines.\n   */"], [], ["/* of v */"], []]
        self.assertEqual([it.comments for it in self.members], expected)
        self.assertEqual([it.comments for it in self.enum.value.values.body], [[], ["// of b"]])

    def test_behind(self):
        self.assertEqual(self.interface.trailing, ["// trails A"])
        expected = [["// trails X"], ["/* trails Y */", "// and this"], [], [], [], []]
        self.assertEqual([it.trailing for it in self.members], expected)
        self.assertEqual([it.trailing for it in self.enum.value.values.body], [['// trails "a"'], []])
        arguments = self.members[-1].value.args.body
        self.assertEqual([it.trailing for it in arguments], [["// trails a"], ["/* trails b */"]])

    def test_what_is_said(self):
        self.assertEqual(self.interface.doc, "of A\nand more")
        self.assertEqual(self.members[2].doc, "Of z,\n  on two lines.")
        self.assertEqual(self.members[3].doc, "")

    def test_a_docstring_comes_before_comments(self):
        _, it = weedle.parse("A includes B;\n// a\n/// b\n///  c\n///d\ninterface C {};")
        self.assertEqual((it.doc, it.value.doc, it.comments), ("b\n c\nd",) * 2 + (["// a"],))

    def test_line_ends_of_cr_and_lf(self):
        text = "// a\r\n\r\n// b\r\n// c\r\ninterface A {}; // d\r\n"
        (it,) = weedle.parse(text)
        self.assertEqual((it.comments, it.trailing, it.doc), (["// b", "// c"], ["// d"], "b\nc"))

    def test_a_comment_at_the_end_of_a_text(self):
        (it,) = weedle.parse("interface A {}; // d")
        self.assertEqual(it.trailing, ["// d"])

    def test_no_comment_is_of_two(self):
        definitions = weedle.parse(COMMENTED)
        everything = [*definitions, *self.members, *self.enum.value.values.body, *self.members[-1].value.args.body]
        found = [comment for it in everything for comment in it.comments + it.trailing]
        self.assertEqual(len(found), len(set(found)))


if __name__ == "__main__":
    unittest.main()
