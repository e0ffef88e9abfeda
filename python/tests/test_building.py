"""Values that are built of their parts, and values written as WebIDL.

Expected is what tests/prints.toml has by hand, to which Rattle's printer is held too, and what the text says that a value was
read of: what is built of the same parts says the same.
"""

import json
import pickle
import unittest

from support import TOP
import weedle
from test_values import WINDOW, all_values, read_texts
from test_walks import is_separator
from shared.toml_files import loads
from weedle import Definition, common, definitions, dictionary, interface, literal, term, types
from weedle._building import fields_of
from weedle._placed import UNPLACED

# WINDOW with another name, without its docstring and comments.
OTHER = """\
[Exposed=Window] interface Other : EventTarget {
  readonly attribute Storage sessionStorage;
  DOMString? f(optional unsigned long long x = 5);
};
"""
LONG = types.Type.Single(types.SingleType.NonAny(types.NonAnyType.Integer(
    types.MayBeNull(type_=types.IntegerType.Long(types.LongType()))
)))


def named(name):
    return common.Identifier(name)


def type_named(name, q_mark=None):
    it = types.NonAnyType.Identifier(types.MayBeNull(type_=named(name), q_mark=q_mark))
    return types.Type.Single(types.SingleType.NonAny(it))


def rebuilt(value):
    """A value that was built of the same parts."""
    if isinstance(value, list):
        return [rebuilt(it) for it in value]
    if isinstance(value, tuple):
        return tuple(rebuilt(it) for it in value)
    if value is None or isinstance(value, (str, bool)):
        return value
    given, _ = fields_of(type(value))
    parts = {name: rebuilt(getattr(value, name)) for name in given}
    return type(value)(**parts)


class Written(unittest.TestCase):
    def test_worked_texts(self):
        for it in loads((TOP / "tests/prints.toml").read_text(encoding="utf-8"))["print"]:
            text, written = (it[name].lstrip("\n") if name == "written" else it[name] for name in ("text", "written"))
            self.assertEqual(weedle.parse(text).to_webidl(), written, it["what"])

    def test_what_is_written_says_the_same(self):
        count = 0
        for text, found in read_texts():
            written = found.to_webidl()
            self.assertEqual(weedle.parse(written), found, text)
            self.assertEqual(weedle.format(written), written, text)
            for it in found:
                self.assertEqual(weedle.parse(it.to_webidl()), [it])
                self.assertEqual(it.value.to_webidl(), it.to_webidl())
                count += 1
        self.assertGreater(count, 200)

    def test_parts_take_a_line(self):
        table = [
            ("interface A { undefined f( [X=(a,b)]long x ,optional (A or  B)?y=[] , C... z ) ; };", interface.InterfaceMember,
             "undefined f([X=(a, b)] long x, optional (A or B)? y = [], C... z);"),
            ("interface A { getter B(long x); };", interface.InterfaceMember, "getter B (long x);"),
            ("interface A { async iterable< B,C >(); };", interface.InterfaceMember, "async iterable<B, C>();"),
            ("interface A : B { };", interface.Inheritance, ": B"),
            ("[A=B(long x),C] interface D {};", common.Bracketed, "[A=B(long x), C]"),
            ("typedef record< DOMString,sequence<long?> >  A;", types.RecordType, "record<DOMString, sequence<long?>>"),
            ("interface A {long x();};", common.Braced, "{ long x(); }"),
            ("interface A {};", common.Braced, "{}"),
            ('enum E{"a" , "b",};', common.Braced, '{ "a", "b" }'),
            ("typedef _long A;", types.MayBeNull, "_long"),
            ("typedef unsigned  long long A;", types.LongLongType, "unsigned long long"),
        ]
        for text, kind, written in table:
            it = next(weedle.parse(text).find(kind))
            self.assertEqual(it.to_webidl(), written)

    def test_deep_values(self):
        depth = 2_000
        text = f"typedef {'sequence<' * depth}A{'>' * depth} T;"
        (it,) = weedle.parse(text)
        self.assertEqual(it.value.type_.to_webidl(), text[8:-3])


class Built(unittest.TestCase):
    def test_each_value_is_built_of_its_parts(self):
        count = 0
        for text, found in read_texts():
            for it in all_values(found):
                other = rebuilt(it)
                self.assertIs(other._tree, UNPLACED)
                self.assertEqual(other.to_json(), it.to_json(), text)
                self.assertEqual(repr(other), repr(it), text)
                count += 1
            for it in found:
                self.assertEqual(rebuilt(it).to_webidl(), it.to_webidl())
        self.assertGreater(count, 5_000)

    def test_an_interface(self):
        attribute = interface.AttributeInterfaceMember(
            readonly=term.ReadOnly(), type_=types.AttributedType(type_=LONG), identifier=named("x"),
        )
        operation = interface.OperationInterfaceMember(
            docstring=common.Docstring(" Calls.\n It."),
            return_type=types.ReturnType.Type(type_named("Node", term.QMark())),
            identifier=named("f"),
            args=common.Parenthesized(body=common.Punctuated([], term.Comma())),
        )
        it = Definition.Interface(definitions.InterfaceDefinition(
            identifier=named("interface"), inheritance=interface.Inheritance(identifier=named("Base")),
            members=common.Braced(body=[
                interface.InterfaceMember.Attribute(attribute), interface.InterfaceMember.Operation(operation),
            ]),
        ))
        expected = (
            "interface _interface : Base {\n  readonly attribute long x;\n  /// Calls.\n  /// It.\n  Node? f();\n};\n"
        ).replace("interface _interface", "interface interface")
        self.assertEqual(it.to_webidl(), expected)
        (again,) = weedle.parse(expected)
        self.assertEqual((again, hash(again), json.loads(it.to_json())), (it, hash(it), json.loads(again.to_json())))

    def test_a_dictionary(self):
        member = dictionary.DictionaryMember(
            type_=LONG, identifier=named("x"),
            default=common.Default(value=literal.DefaultValue.Integer(literal.IntegerLit.Hex(literal.HexLit("0x1F")))),
        )
        it = definitions.DictionaryDefinition(identifier=named("D"), members=common.Braced(body=[member]))
        self.assertEqual(it.to_webidl(), "dictionary D {\n  long x = 0x1F;\n};\n")

    def test_a_part_is_replaced(self):
        (definition,) = weedle.parse(WINDOW)
        other = definition.replace(value=definition.value.replace(identifier=named("Other"), docstring=None))
        self.assertEqual(other.value.identifier.value, "Other")
        self.assertEqual(other.to_webidl(), OTHER)
        self.assertEqual(other.value.members, definition.value.members)
        self.assertEqual(other.value.members.span, definition.value.members.span)
        with self.assertRaises(TypeError):
            definition.replace(name="A")

    def test_a_list(self):
        (one,) = weedle.parse("A includes B;")
        found = weedle.Definitions([one, one.replace(value=one.value.replace(rhs_identifier=named("C")))])
        self.assertEqual(found.to_webidl(), "A includes B;\nA includes C;\n")
        self.assertEqual([it.value for it in found.find(common.Identifier)], ["A", "B", "A", "C"])
        self.assertEqual(weedle.Definitions().to_webidl(), "")

    def test_a_walk_has_what_one_over_a_text_has(self):
        for _, found in read_texts():
            for it in found:
                # a comma behind the last value of an enum is lost
                found, wanted = ([type(v) for v in all_.walk() if not is_separator(v)] for all_ in (rebuilt(it), it))
                self.assertEqual(found, wanted)

    def test_it_stands_nowhere(self):
        it = named("A")
        self.assertEqual((it.parent, it.comments, it.trailing, it.doc), (None, [], [], ""))
        for name in ("span", "char_span", "position", "text"):
            with self.assertRaisesRegex(ValueError, "stands in no text"):
                getattr(it, name)

    def test_it_is_pickled(self):
        (definition,) = weedle.parse(WINDOW)
        it = definition.replace(value=definition.value.replace(identifier=named("Other")))
        self.assertEqual(pickle.loads(pickle.dumps(it)), it)
        self.assertEqual(pickle.loads(pickle.dumps(rebuilt(it))), it)

    def test_what_no_text_says(self):
        (typedef,) = weedle.parse("typedef long A;")
        for name in ("a b", "", "5", "_A", "é", "A;"):
            with self.assertRaises(ValueError, msg=name):
                typedef.value.replace(identifier=named(name)).to_webidl()
            with self.assertRaises(ValueError, msg=name):
                named(name).to_webidl()
        (enum,) = weedle.parse('enum E { "a" };')
        with self.assertRaises(ValueError):
            literal.StringLit('"').to_webidl()
        with self.assertRaises(weedle.Refused):
            enum.replace(value=enum.value.replace(values=common.Braced(
                body=common.PunctuatedNonEmpty([], term.Comma())))).to_webidl()

    def test_a_default_without_optional(self):
        (callback,) = weedle.parse("callback F = any (optional long x = 5);")
        (argument,) = callback.value.arguments.body
        other = argument.replace(value=argument.value.replace(optional=None))
        arguments = callback.value.arguments.replace(body=common.Punctuated([other], term.Comma()))
        with self.assertRaises(weedle.Refused):
            callback.value.replace(arguments=arguments).to_webidl()

    def test_a_number_that_is_another_sort_of_number(self):
        (it,) = weedle.parse("interface A { const long X = 1; };")
        (member,) = it.value.members.body
        wrong = literal.ConstValue.Integer(literal.IntegerLit.Dec(literal.DecLit("0x1")))
        value = member.value.replace(const_value=wrong)
        other = it.value.replace(members=common.Braced(body=[member.replace(value=value)]))
        with self.assertRaisesRegex(ValueError, "something else"):
            other.to_webidl()


if __name__ == "__main__":
    unittest.main()
