"""The typed tree: its values, what they say, and where they stand.

Expected values are those of docs/USING.md, of weedle2's documentation, and the words of the grammar in
tools/description/webidl.py. That all values are weedle2's own is tested by test_weedle2.py.
"""

import dataclasses
import unittest

import support  # noqa: F401  (finds the package and the scripts)
import weedle
from description.names import upper
from description.webidl import BY_NAME
from measure.compare_with_weedle2 import worked_texts
from test_program import INCLUDES
from weedle import Definition, common, interface, term, types
from weedle._values import Terminal, Value

# Of docs/USING.md, "Values as JSON".
WINDOW = (
    "/// A page.\n// é\n[Exposed=Window]\ninterface _Window : EventTarget {\n"
    "  readonly attribute Storage sessionStorage; // kept\n"
    "  DOMString? f(optional unsigned long long x = 5);\n};\n"
)


def all_values(value):
    """A value and all below it, each before those below it."""
    waiting = [value]
    while waiting:
        it = waiting.pop()
        if isinstance(it, (list, tuple)):
            waiting += reversed(it)
        elif isinstance(it, Value):
            yield it
            waiting += [getattr(it, field.name) for field in reversed(dataclasses.fields(it))] if (
                dataclasses.is_dataclass(it)) else []


def read_texts():
    """The texts of the repository's tests that are read whole, with their definitions."""
    for text in sorted(set(worked_texts())):
        try:
            yield text, weedle.parse(text)
        except weedle.Refused:
            continue


class Trees(unittest.TestCase):
    def setUp(self):
        (self.definition,) = weedle.parse(WINDOW)
        self.window = self.definition.value

    def test_what_stands_in_a_definition(self):
        self.assertIsInstance(self.definition, Definition)
        self.assertIsInstance(self.definition, Definition.Interface)
        self.assertEqual(self.definition.variant, "Interface")
        self.assertIsInstance(self.window, weedle.InterfaceDefinition)
        self.assertEqual(self.window.identifier.value, "Window")
        self.assertEqual(self.window.docstring.value, " A page.")
        self.assertEqual(self.window.inheritance.identifier.value, "EventTarget")
        attribute, operation = self.window.members.body
        self.assertIsInstance(attribute, interface.InterfaceMember.Attribute)
        self.assertIsInstance(attribute.value.readonly, term.ReadOnly)
        self.assertIsNone(attribute.value.modifier)
        self.assertEqual(attribute.value.type_.type_.text, "Storage")
        (argument,) = operation.value.args.body.list
        self.assertEqual(argument.value.default.value.value.value.value, "5")

    def test_a_tuple_has_a_place(self):
        single = self.window.members.body[1].value.args.body.list[0].value.type_.type_.value
        long_long = single.value.value.type_.value.long_long
        self.assertEqual([type(it) for it in long_long], [term.Long, term.Long])
        self.assertEqual(long_long.text, "long long")

    def test_a_type_of_each_sort(self):
        table = [
            ("any", types.SingleType.Any), ("undefined", types.ReturnType.Undefined),
            ("record<DOMString, any>", types.NonAnyType.RecordType), ("(A or B)?", types.Type.Union),
            ("Promise<undefined>", types.NonAnyType.Promise), ("double", types.NonAnyType.FloatingPoint),
        ]
        for text, kind in table:
            (callback,) = weedle.parse(f"callback A = {text} ();")
            found = [it for it in all_values(callback.value.return_type) if isinstance(it, kind)]
            self.assertEqual([it.text for it in found[:1]], [text])

    def test_parts_are_made_when_they_are_asked_for(self):
        self.assertNotIn("members", vars(self.window))
        members = self.window.members
        self.assertIs(self.window.members, members)
        self.assertNotIn("body", vars(members))

    def test_an_empty_list_and_what_is_absent(self):
        (definition,) = weedle.parse("interface A {};")
        inner = definition.value
        self.assertEqual((inner.members.body, inner.docstring, inner.attributes, inner.inheritance), ([], None, None, None))

    def test_nothing_can_be_changed(self):
        with self.assertRaises(dataclasses.FrozenInstanceError):
            self.window.identifier = None

    def test_terminals_are_fields_but_not_shown(self):
        (includes,) = weedle.parse("A includes B;")
        names = [it.name for it in dataclasses.fields(includes.value)]
        self.assertEqual(names, ["attributes", "lhs_identifier", "includes", "rhs_identifier", "semi_colon"])
        self.assertIsInstance(includes.value.semi_colon, term.SemiColon)
        shown = "attributes=None, lhs_identifier=Identifier('A'), rhs_identifier=Identifier('B')"
        self.assertEqual(repr(includes), f"Definition.IncludesStatement(IncludesStatementDefinition({shown}))")

    def test_words_that_may_be_absent_are_shown(self):
        self.assertIn("readonly=ReadOnly(), ", repr(self.definition))

    def test_json(self):
        (includes,) = weedle.parse("Request includes Body;")
        self.assertEqual(includes.to_json(), INCLUDES)

    def test_json_says_what_is_absent(self):
        (callback,) = weedle.parse("callback A = undefined (long x);")
        self.assertIn('"optional": null, ', callback.to_json())
        self.assertIn('"default": null}', callback.to_json())

    def test_a_separator_has_a_place_or_none(self):
        table = [("A(a, b)", ","), ("A(a)", ""), ("A()", "")]
        for text, separator in table:
            (definition,) = weedle.parse(f"[{text.replace('a', 'any a').replace('b', 'any b')}] typedef any B;")
            found = definition.value.attributes.body.list[0].value.args.body.separator
            self.assertEqual((type(found), found.text), (term.Comma, separator))

    def test_many_values(self):
        (definition,) = weedle.parse("enum E {" + 10_000 * '"a",' + "};")
        self.assertEqual(len(definition.value.values.body.list), 10_000)

    def test_docstrings(self):
        (definition,) = weedle.parse("  /// a\n\t///\n///b\ninterface A {};")
        docstring = definition.value.docstring
        self.assertEqual(docstring.value, " a\n\nb")
        self.assertEqual(docstring.text, "/// a\n\t///\n///b")

    def test_the_empty_text_has_no_definitions(self):
        self.assertEqual(weedle.parse(""), [])
        self.assertEqual(weedle.parse(b""), [])


class Comparisons(unittest.TestCase):
    def test_values_are_equal_wherever_they_stand(self):
        one, other = weedle.parse("interface A { }; /* c */ interface A {};")
        self.assertEqual(one, other)
        self.assertEqual(hash(one), hash(other))
        self.assertNotEqual(one.span, other.span)

    def test_values_that_say_something_else_are_not(self):
        one, *others = weedle.parse(
            "interface A {}; interface B {}; partial interface A {}; callback interface A {};"
            "[X] interface A {}; interface A : B {};"
        )
        for other in others:
            self.assertNotEqual(one, other)

    def test_a_value_is_no_other_sort_of_value(self):
        (definition,) = weedle.parse("interface A {};")
        self.assertNotEqual(definition, definition.value)
        self.assertNotEqual(definition, definition.to_json())


class Places(unittest.TestCase):
    def test_lines_and_columns(self):
        (definition,) = weedle.parse(WINDOW)
        window = definition.value
        self.assertEqual(definition.position, (1, 1))
        self.assertEqual(window.identifier.position, (4, 12))
        self.assertEqual(window.members.body[0].position, (5, 3))
        self.assertEqual(window.members.body[0].text, "readonly attribute Storage sessionStorage;")

    def test_bytes_and_characters(self):
        given = "// é 日本\nenum E { \"é\" };"
        (definition,) = weedle.parse(given)
        value = definition.value.values.body.list[0].value
        start, end = value.span
        self.assertEqual(given.encode()[start:end].decode(), '"é"')
        start, end = value.char_span
        self.assertEqual(given[start:end], '"é"')
        self.assertEqual(value.position, (2, 10))

    def test_a_name_is_its_slice(self):
        (definition,) = weedle.parse("interface _interface {};")
        name = definition.value.identifier
        self.assertEqual((name.value, name.text, name.span), ("interface", "interface", (11, 20)))

    def test_bytes_have_the_places_of_their_text(self):
        (one,), (other,) = weedle.parse(WINDOW), weedle.parse(WINDOW.encode())
        for a, b in zip(all_values(one), all_values(other)):
            self.assertEqual((a.span, a.char_span, a.position, a.text), (b.span, b.char_span, b.position, b.text))

    def test_each_value_of_each_text(self):
        count = 0
        for text, definitions in read_texts():
            for definition in definitions:
                for value in all_values(definition):
                    self.assert_in_place(text, value)
                    count += 1
        self.assertGreater(count, 5_000)

    def assert_in_place(self, text, value):
        start, end = value.char_span
        self.assertEqual(text[start:end], value.text)
        line_start = text.rfind("\n", 0, start) + 1
        self.assertEqual(value.position, (text.count("\n", 0, start) + 1, start - line_start + 1))
        if isinstance(value, common.Identifier):
            self.assertEqual(value.text, value.value)
        if isinstance(value, Terminal) and value.text:
            self.assertEqual(value.text, spelled(value))

    def test_a_part_stands_in_its_whole(self):
        for _, definitions in read_texts():
            for value in definitions:
                for part in (getattr(value.value, it.name) for it in dataclasses.fields(value.value)):
                    if isinstance(part, Value):
                        self.assertLessEqual(value.span.start, part.span.start)
                        self.assertLessEqual(part.span.end, value.span.end)


def spelled(terminal):
    """How a terminal is spelled, by the rows of the grammar."""
    rows = [BY_NAME[it].row for it in BY_NAME[upper(type(terminal).__name__.rstrip("_"))].row[1]]
    return next(row[1] for row in rows if row[0] == "Bytes")


# What today's rules read whole of the texts with a hint: a docstring in front of a typedef, and a comment alone.
TODAY = frozenset(["/// a\ntypedef long T;", "// none"])


class Faults(unittest.TestCase):
    def test_a_refused_text(self):
        with self.assertRaises(weedle.Refused) as raised:
            weedle.parse("interface A {};\ninterface é {};")
        self.assertEqual(raised.exception.start, 16)
        self.assertIsInstance(raised.exception, ValueError)

    def test_a_hint(self):
        hints = {
            "interface A { atribute long x; };": "1:15: `attribute` in place of `atribute`?",
            "interface A {\n  attribute long x\n};": "2:19: `;` missing here?",
            "/// a\ntypedef long T;": "1:1: no docstring here",
            'enum E { "a };': "1:10: the string opens here",
            "\ufefftypedef long T;": "1:1: a byte order mark",
            "// none": "1:1: no definitions",
            'enum E { "a" "b" };': "1:13: `,` missing here?",
            "interface A { attribute long x;; };": "1:32: no `;` here",
            "dictionary D { const long X = 1; };": None,
        }
        for text, hint in hints.items():
            with self.assertRaises(weedle.Refused) as raised:
                weedle.parse(text)
            refused = raised.exception
            self.assertEqual(refused.hint, hint, text)
            said = [hint] * bool(hint) + ['today\'s WebIDL reads it: dialect="today"'] * (text in TODAY)
            self.assertEqual(refused.message.split("\n")[3:], said, text)

    def test_a_hint_where_memory_ran_out(self):
        refused = weedle.Refused(weedle._text.Text("interface A { atribute long x; };"), 0)
        refused.__dict__["_explanation"] = None
        self.assertIsNone(refused.hint)

    def test_what_is_not_utf_8(self):
        for data, place in ((b"\xff", 0), (b"interface A {};\xc3", 15), (b"// \xed\xa0\x80", 3)):
            with self.assertRaises(UnicodeDecodeError) as raised:
                weedle.parse(data)
            self.assertEqual(raised.exception.start, place)

    def test_a_lone_surrogate(self):
        with self.assertRaises(UnicodeEncodeError):
            weedle.parse("interface A {}; // \ud800")

    def test_what_is_no_text(self):
        for given in (None, 5, ["interface A {};"]):
            with self.assertRaises(TypeError):
                weedle.parse(given)


if __name__ == "__main__":
    unittest.main()
