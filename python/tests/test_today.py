"""Texts of today's WebIDL: what is read, the nodes, the values of `weedle.today`, and what refuses a text.

What is read and refused is by hand, of tests/today.toml. Nodes are those that the rows give by tools/rows. Values are by
hand, from the standard's grammar, and of texts that weedle2's rules read too their names, docs and members are weedle2's.
"""

import copy
import json
import pickle
import re
import typing
import unittest

from support import TOP
import weedle
from description import today as rules
from rows import ends, nodes
from shared.toml_files import loads
from test_building import rebuilt
from test_values import all_values, read_texts
from test_walks import is_separator
from weedle import Role, common, interface, literal, term, today, types
from weedle._building import fields_of
from weedle._placed import UNPLACED
from weedle.lint import lint

TEXTS = loads((TOP / "tests/today.toml").read_text(encoding="utf-8"))
# What says that today's rules read a text.
SAID = 'today\'s WebIDL reads it: dialect="today"'
# The types that weedle2's rules read as names.
NEW_WORDS = frozenset("bigint undefined Float16Array BigInt64Array BigUint64Array SharedArrayBuffer".split())
TEXT = """\
/// A list.
// é
/// Of all.
[Exposed=*] [Serializable]
interface List : Base {
  /// How many.
  readonly attribute bigint size;
  [SameObject] const long MAX = 5;
  undefined add(optional [Clamp] octet x = undefined, long... others);
  async_iterable<DOMString, [Clamp] long>(any x);
  /// At the end.
};
/// Behind all.
"""


def is_new_type(name):
    """Whether weedle2's rules take a type of today's for a name."""
    return name.role is Role.TYPE and name.text in NEW_WORDS


def read(text):
    return weedle.parse(text, dialect="today")


def todays():
    """The texts that are read, with their definitions."""
    for it in TEXTS["read"]:
        yield it["text"], read(it["text"])


class Rows(ends.Ends):
    """Where today's rules end."""

    def __init__(self):
        super().__init__({rule.name: rule.row for rule in rules.RULES})


def nodes_by_rows(known, text):
    """The nodes of a text that is read whole: depth, name, start and end of each."""
    known.take(text)
    waiting, found = [("TODAY_DEFINITIONS", 0, 0)], []
    while waiting:
        rule, place, depth = waiting.pop()
        found.append((depth, rule.lower(), place, known.at[rule](place)))
        below = nodes.parts_of(known, rule, place)
        waiting += [(part, start, depth + 1) for part, start in reversed(below)]
    return found


class Reads(unittest.TestCase):
    def test_what_is_read(self):
        for it in TEXTS["read"]:
            with self.subTest(it["name"]):
                self.assertEqual(weedle.syntax(it["text"], dialect="today").text, it["text"])
                self.assertEqual(read(it["text"]).text, it["text"])
                if it.get("weedle2", True):
                    weedle.parse(it["text"])
                else:
                    self.assertRaises(weedle.Refused, weedle.parse, it["text"])

    def test_what_is_refused(self):
        for it in TEXTS["refused"]:
            with self.subTest(it["name"]), self.assertRaises(weedle.Refused) as raised:
                read(it["text"])
            self.assertEqual(raised.exception.dialect, "today")
            self.assertFalse(raised.exception.is_read_today)

    def test_nodes(self):
        known = Rows()
        for it in TEXTS["read"]:
            with self.subTest(it["name"]):
                root = weedle.syntax(it["text"], dialect="today")
                found = [(node.depth, node.name, *node.span) for node in root.walk()]
                self.assertEqual(found, nodes_by_rows(known, it["text"].encode()))

    def test_what_weedle2_reads_is_read(self):
        count = 0
        for text, definitions in read_texts():
            found = read(text)
            self.assertEqual([it.variant for it in found], [it.variant for it in definitions], text)
            names = [(it.role, it.text, it.span) for it in definitions.names() if not is_new_type(it)]
            self.assertEqual([(it.role, it.text, it.span) for it in found.names()], names, text)
            self.assertEqual([it.doc for it in found], [it.doc for it in definitions], text)
            count += len(names)
        self.assertGreater(count, 1_000)

    def test_a_rule_alone(self):
        node = weedle.syntax("ObservableArray<B>? x", "today_type")
        self.assertEqual((node.text, node.name), ("ObservableArray<B>? ", "today_type"))
        self.assertIsInstance(node.value, today.Type.NonAny)
        self.assertEqual(node.value.to_webidl(), "ObservableArray<B>?")
        self.assertEqual(weedle.syntax("long x", "type", dialect="today").text, "long ")

    def test_another_dialect(self):
        calls = (
            weedle.parse, weedle.syntax, weedle.recover, weedle.format, weedle.Edits, weedle.Index().add,
            lambda text, dialect: weedle.Index(dialect=dialect), lambda text, dialect: lint({"a": text.encode()}, dialect=dialect),
        )
        for call in calls:
            for dialect in ("weedle", "Today", ""):
                with self.assertRaisesRegex(ValueError, "no dialect has the name"):
                    call("A includes B;", dialect=dialect)
            call("A includes B;", dialect="weedle2")

    def test_the_names_of_dialects(self):
        self.assertEqual(typing.get_args(weedle.Dialect), ("weedle2", "today"))


class Refused(unittest.TestCase):
    def refused(self, text):
        with self.assertRaises(weedle.Refused) as raised:
            weedle.parse(text)
        return raised.exception

    def test_the_last_line_says_that_today_reads_it(self):
        for it in TEXTS["read"]:
            if not it.get("weedle2", True):
                refused = self.refused(it["text"])
                self.assertEqual((refused.is_read_today, refused.dialect), (True, "weedle2"))
                self.assertEqual(str(refused).split("\n")[-1], SAID, it["name"])
                self.assertEqual(refused.said("--today").split("\n")[-1], "today's WebIDL reads it: --today")

    def test_what_both_refuse(self):
        for it in TEXTS["refused"]:
            refused = self.refused(it["text"])
            self.assertFalse(refused.is_read_today)
            self.assertNotIn("today's", str(refused))

    def test_one_rule_and_parts_say_nothing_of_it(self):
        with self.assertRaises(weedle.Refused) as raised:
            weedle.syntax("[Exposed=*] interface A {};", "definition")
        self.assertEqual(str(raised.exception), "1:1: expected the rule `definition`")
        (error,) = weedle.recover("[Exposed=*] interface A {};").errors
        self.assertNotIn("today's", str(error))

    def test_what_today_refuses(self):
        with self.assertRaises(weedle.Refused) as raised:
            read("interface A { attribute ObservableArray<> x; };")
        refused = raised.exception
        self.assertEqual((refused.start, refused.line, refused.column), (0, 1, 41))
        self.assertIn("a type", refused.words)
        self.assertTrue(str(refused).startswith("1:41: expected "))
        again = pickle.loads(pickle.dumps(refused))
        self.assertEqual((str(again), again.dialect), (str(refused), "today"))

    def test_deeper_than_is_explained(self):
        text = f"typedef {'sequence<' * 5_000}long T;"
        with self.assertRaises(weedle.Refused) as raised:
            read(text)
        self.assertEqual(raised.exception.start, 0)
        self.assertIn("unread from here on", str(raised.exception))
        self.assertEqual((raised.exception.words, raised.exception.hint), ([], None))
        self.assertRaises(RecursionError, weedle.recover, text, dialect="today")


class Trees(unittest.TestCase):
    def setUp(self):
        self.definitions = read(TEXT)
        (self.definition,) = self.definitions
        self.list = self.definition.value

    def test_a_definition(self):
        self.assertIsInstance(self.definitions, today.Definitions)
        self.assertIsInstance(self.definition, today.Definition.Interface)
        self.assertEqual(self.definition.variant, "Interface")
        self.assertIs(type(self.list), today.InterfaceDefinition)
        self.assertEqual(
            [it for it in type(self.list).__annotations__],
            "docstrings attributes interface identifier inheritance members semi_colon".split(),
        )
        self.assertEqual([it.value for it in self.list.docstrings], [" A list.", " Of all."])
        self.assertEqual(self.list.identifier.value, "List")
        self.assertEqual(self.list.inheritance.identifier.value, "Base")
        self.assertEqual(self.list.doc, "A list.\nOf all.")
        self.assertEqual([it.value for it in self.list.members.docstrings], [" At the end."])

    def test_docstrings_that_no_definition_follows(self):
        self.assertEqual([it.value for it in self.definitions.docstrings], [" Behind all."])
        last = read("interface A {}; // c\n/// d\n/// e").docstrings
        self.assertEqual([(type(it), it.value) for it in last], [(common.Docstring, " d"), (today.LastDocstring, " e")])
        self.assertEqual(weedle.parse("interface A {};").docstrings, [])
        self.assertEqual((read("// c"), read("").docstrings), ([], []))

    def test_extended_attributes(self):
        first, second = self.list.attributes
        wildcard, alone = first.body[0], second.body[0]
        self.assertIsInstance(wildcard, today.ExtendedAttribute.Wildcard)
        self.assertEqual(wildcard.value.identifier.value, "Exposed")
        self.assertIsInstance(wildcard.value.asterisk, today.Asterisk)
        self.assertIsInstance(alone, today.ExtendedAttribute.NoArgs)
        texts = {"[A=1.5]": "Number", "[A=-5]": "Number", "[A=(2, 8)]": "Numbers", '[A=("a", "b")]': "Strings", '[A="a"]': "Ident",
                 "[A=b]": "Ident", "[A=(b, c)]": "IdentList", "[A]": "NoArgs", "[A(long x)]": "ArgList", "[A=B(long x)]": "NamedArgList"}
        for text, variant in texts.items():
            (found,) = read(f"{text} interface B {{}};")[0].value.attributes[0].body
            self.assertEqual((found.variant, found.text), (variant, text[1:-1]))
        self.assertEqual(read("[A=-5] interface B {};")[0].value.attributes[0].body[0].value.number.value.number, -5)

    def test_members(self):
        size, most, add, iterated = self.list.members.body
        self.assertIsInstance(size.value.type_.type_.value.value.type_, today.WordType.BigInt)
        self.assertEqual((size.doc, size.value.readonly is None), ("How many.", False))
        self.assertIsInstance(most, today.InterfaceMember.Const)
        self.assertEqual((most.value.const_value.value.number, most.value.attributes[0].body[0].text), (5, "SameObject"))
        optional, variadic = add.value.args.body
        self.assertIsInstance(optional, today.Argument.Optional)
        self.assertEqual([it.text for it in optional.value.type_.attributes], ["[Clamp]"])
        self.assertIsInstance(optional.value.default.value, today.DefaultValue.Undefined)
        self.assertIsInstance(variadic, today.Argument.Required)
        self.assertIsInstance(variadic.value.ellipsis, term.Ellipsis)
        self.assertIsInstance(iterated.value.async_iterable, today.AsyncWords.One)
        self.assertEqual((iterated.value.generics.type_.text, iterated.value.generics.second.type_.text), ("DOMString", "[Clamp] long"))
        self.assertEqual([it.value.identifier.value for it in iterated.value.args.body], ["x"])

    def test_what_both_trees_have_is_of_one_class(self):
        self.assertIs(type(self.list.identifier), common.Identifier)
        self.assertIs(type(self.list.inheritance), interface.Inheritance)
        self.assertIs(type(self.list.interface), term.Interface)
        self.assertIs(type(self.list.docstrings[0]), common.Docstring)
        constant = next(self.list.find(today.ConstMember))
        self.assertIs(type(constant.const_value.value), literal.IntegerLit.Dec)
        self.assertIs(type(constant.const_type.value), types.MayBeNull)
        self.assertIs(type(next(read("[A=b] interface B {};")[0].find(weedle.attribute.ExtendedAttributeIdent))),
                      weedle.attribute.ExtendedAttributeIdent)

    def test_a_body_of_an_enum(self):
        (it,) = read('enum E { /// a\n "a", "b", /// c\n };')
        values = it.value.values
        self.assertEqual([(one.value.value, one.doc) for one in values.body], [("a", "a"), ("b", "")])
        self.assertEqual(([one.value for one in values.docstrings], type(values.comma)), ([" c"], term.Comma))
        self.assertIsNone(read('enum E {"a"};')[0].value.values.comma)

    def test_json(self):
        (it,) = read('[A=*] enum E { "a" };')
        wildcard = {"Wildcard": {"identifier": {"Identifier": "A"}, "assign": "Assign", "asterisk": "Asterisk"}}
        brackets = {"open_bracket": "OpenBracket", "body": {"list": [wildcard], "separator": "Comma"}, "close_bracket": "CloseBracket"}
        values = {
            "open_brace": "OpenBrace", "body": {"list": [{"docstrings": [], "value": {"StringLit": "a"}}], "separator": "Comma"},
            "comma": None, "docstrings": [], "close_brace": "CloseBrace",
        }
        enum = {
            "docstrings": [], "attributes": [brackets], "enum_": "Enum", "identifier": {"Identifier": "E"}, "values": values,
            "semi_colon": "SemiColon",
        }
        self.assertEqual(json.loads(it.to_json()), {"Enum": enum})
        self.assertEqual(json.loads(it.value.to_json()), enum)

    def test_repr(self):
        (it,) = read("A includes B;")
        said = "IncludesStatementDefinition(docstrings=[], attributes=[], lhs_identifier=Identifier('A'), rhs_identifier=Identifier('B'))"
        self.assertEqual((repr(it), repr(it.value)), (f"Definition.IncludesStatement({said})", said))


class Walks(unittest.TestCase):
    def test_the_values_of_a_walk_are_those_of_the_fields(self):
        count = 0
        for text, definitions in todays():
            found = [it for it in definitions.walk() if not is_separator(it)]
            wanted = [it for it in all_values(definitions) if not is_separator(it)]
            self.assertEqual([type(it) for it in found], [type(it) for it in wanted], text)
            self.assertEqual([it.span for it in found], [it.span for it in wanted], text)
            count += len(found)
        self.assertGreater(count, 2_000)

    def test_each_value_is_below_its_parent(self):
        for text, definitions in todays():
            for it in all_values(definitions):
                if it.parent is None:
                    self.assertIn(it, definitions, text)
                elif not is_separator(it):
                    self.assertIn(it, list(it.parent.walk())[1:], (text, it))

    def test_a_struct_and_its_variant(self):
        (definition,) = read("interface A { attribute long x; };")
        inner = definition.value
        self.assertEqual((definition.parent, inner.parent), (None, definition))
        self.assertEqual(next(inner.walk()), inner)
        self.assertEqual(list(definition.walk())[1:], list(inner.walk()))
        self.assertEqual(list(definition.find(today.Definition)), [definition])
        self.assertEqual(list(inner.find(today.Definition)), [])
        self.assertEqual(list(inner.find(today.InterfaceDefinition)), [inner])
        (attribute,) = inner.find(today.AttributeInterfaceMember)
        self.assertEqual((attribute.identifier.parent, attribute.parent.parent), (attribute, inner.members))
        self.assertEqual(attribute.parent, inner.members.body[0])

    def test_what_is_found_is_among_the_walk(self):
        for text, definitions in todays():
            for kind in (common.Identifier, today.Type, today.AttributedType, today.Argument, today.OptionalArgument):
                wanted = [it for it in definitions.walk() if isinstance(it, kind)]
                self.assertEqual(list(definitions.find(kind)), wanted, text)

    def test_names(self):
        found = [(it.role, it.text) for it in read(TEXT).names()]
        self.assertEqual(found, [
            (Role.EXTENDED_ATTRIBUTE, "Exposed"), (Role.EXTENDED_ATTRIBUTE, "Serializable"), (Role.INTERFACE, "List"),
            (Role.INHERITED, "Base"), (Role.ATTRIBUTE, "size"), (Role.EXTENDED_ATTRIBUTE, "SameObject"), (Role.CONST, "MAX"),
            (Role.OPERATION, "add"), (Role.EXTENDED_ATTRIBUTE, "Clamp"), (Role.ARGUMENT, "x"), (Role.ARGUMENT, "others"),
            (Role.EXTENDED_ATTRIBUTE, "Clamp"), (Role.ARGUMENT, "x"),
        ])

    def test_each_rule_with_a_name_has_a_role(self):
        for _, definitions in todays():
            self.assertTrue(all(it.text for it in definitions.names()))

    def test_comments(self):
        (it,) = read("// of A\ninterface A { // behind\n  // of x\n  attribute long x; // trails\n};")
        (member,) = it.value.members.body
        self.assertEqual((it.comments, member.comments, member.trailing), (["// of A"], ["// of x"], ["// trails"]))
        self.assertEqual(it.value.comments, it.comments)


class Built(unittest.TestCase):
    def test_each_value_is_built_of_its_parts(self):
        count = 0
        for text, found in todays():
            for it in all_values(found):
                other = rebuilt(it)
                self.assertIs(other._tree, UNPLACED)
                self.assertEqual((other.to_json(), repr(other)), (it.to_json(), repr(it)), text)
                self.assertEqual((other, hash(other)), (it, hash(it)), text)
                count += 1
        self.assertGreater(count, 2_000)

    def test_what_is_written_says_the_same(self):
        for text, found in todays():
            written = found.to_webidl()
            again = read(written)
            self.assertEqual(again, found, text)
            self.assertEqual([it.value for it in again.docstrings], [it.value for it in found.docstrings], text)
            for it in found:
                self.assertEqual(read(it.to_webidl()), [it])
                self.assertEqual(rebuilt(it).to_webidl(), it.to_webidl())
                self.assertEqual(it.value.to_webidl(), it.to_webidl())

    def test_parts_take_a_line(self):
        table = [
            ("[A=1.5]  [ B = * ] interface C {};", today.ExtendedAttributeWildcard, "B=*"),
            ('[A=( "a","b" )] interface C {};', today.ExtendedAttributeStrings, 'A=("a", "b")'),
            ("[A=(2,8)] interface C {};", common.Bracketed, "[A=(2, 8)]"),
            ("typedef sequence< [Clamp]octet > T;", today.SequenceType, "sequence<[Clamp] octet>"),
            ("interface A { async_iterable< B,C >( long x ); };", today.InterfaceMember, "async_iterable<B, C>(long x);"),
            ("interface A { async  iterable< B >; };", today.InterfaceMember, "async iterable<B>;"),
            ("interface A { getter B(long x); };", today.InterfaceMember, "getter B (long x);"),
            ("interface A { long f( optional any x=undefined,B...y ); };", today.InterfaceMember,
             "long f(optional any x = undefined, B... y);"),
            ("interface A {};", today.Braced, "{}"), ('enum E{"a" , "b",};', today.BracedEnumValues, '{ "a", "b", }'),
            ("typedef _bigint T;", types.MayBeNull, "_bigint"),
        ]
        for text, kind, written in table:
            self.assertEqual(next(read(text).find(kind)).to_webidl(), written)

    def test_an_interface(self):
        it = today.Definition.Interface(today.InterfaceDefinition(
            docstrings=[common.Docstring(" An A.")], identifier=common.Identifier("A"), members=today.Braced(body=[]),
            attributes=[common.Bracketed(body=common.Punctuated([today.ExtendedAttribute.Wildcard(
                today.ExtendedAttributeWildcard(identifier=common.Identifier("Exposed")))], term.Comma()))],
        ))
        text = "/// An A.\n[Exposed=*] interface A {};\n"
        self.assertEqual(it, read(text)[0])
        self.assertEqual(read(it.to_webidl()), [it])
        self.assertEqual(it.value.interface, term.Interface())
        self.assertEqual((it.parent, it.value.parent, it.comments), (None, None, []))
        self.assertEqual([type(one) for one in it.walk()][:2], [today.Definition.Interface, today.InterfaceDefinition])

    def test_docstrings_stay_apart(self):
        it = today.EnumVariant(docstrings=[common.Docstring(" a"), common.Docstring(" b\n c")], value=literal.StringLit("d"))
        self.assertEqual(it.to_webidl(), '/// a\n//\n/// b\n/// c\n"d"')
        (enum,) = read(f"enum E {{ {it.to_webidl()} }};")
        self.assertEqual(list(enum.value.values.body), [it])

    def test_names_that_are_words(self):
        it = today.TypedefDefinition(identifier=common.Identifier("async_iterable"), type_=today.AttributedType(
            type_=today.Type.NonAny(today.NonAnyType.Identifier(types.MayBeNull(type_=common.Identifier("bigint"))))))
        self.assertEqual(read(it.to_webidl())[0].value, it)
        self.assertIn("_bigint", it.to_webidl())

    def test_what_no_text_says(self):
        it = today.IncludesStatementDefinition(lhs_identifier=common.Identifier("A B"), rhs_identifier=common.Identifier("C"))
        self.assertRaisesRegex(ValueError, "is no name", it.to_webidl)

    def test_a_part_is_replaced(self):
        (it,) = read("[Exposed=*] interface A {};")
        other = it.value.replace(identifier=common.Identifier("B"), docstrings=[common.Docstring(" d")])
        self.assertEqual(read(other.to_webidl())[0].value, other)
        self.assertEqual((other.identifier.value, other.doc, other.attributes), ("B", "d", it.value.attributes))
        self.assertRaisesRegex(TypeError, "has no field 'docstring'", it.value.replace, docstring=None)
        self.assertRaises(AttributeError, setattr, it.value, "identifier", None)

    def test_copies(self):
        for text, definitions in todays():
            for copied in (copy.copy, copy.deepcopy, lambda it: pickle.loads(pickle.dumps(it))):
                again = copied(list(definitions))
                self.assertEqual(again, definitions, text)
                self.assertEqual([it.text for it in again], [it.text for it in definitions])
                self.assertEqual([it.value for it in again], [it.value for it in definitions])
        self.assertEqual(pickle.loads(pickle.dumps(read(TEXT)[0].value.members)).text, read(TEXT)[0].value.members.text)

    def test_fields_have_docs_and_hints(self):
        count = 0
        for name in today.__all__:
            kind = getattr(today, name)
            if isinstance(kind, type):
                self.assertTrue(kind.__doc__, name)
                typing.get_type_hints(kind)
                for field in getattr(kind, "_names", ()):
                    self.assertTrue(getattr(kind, field).__doc__, (name, field))
                    count += 1
                if dataclass_with_parts(kind):
                    typing.get_type_hints(kind.__init__)
                    self.assertTrue(fields_of(kind)[0], name)
        self.assertGreater(count, 250)

    def test_no_class_of_today_is_that_of_another_module(self):
        self.assertIs(typing.get_type_hints(today.SequenceType)["sequence"], term.Sequence)
        self.assertIs(typing.get_type_hints(today.TypedefDefinition)["type_"], today.AttributedType)
        self.assertIs(typing.get_type_hints(weedle.TypedefDefinition)["type_"], types.AttributedType)


def dataclass_with_parts(kind):
    return "__dataclass_fields__" in vars(kind) and kind._names


class Others(unittest.TestCase):
    """Recovery, layout, the index and edits."""

    def test_parts(self):
        text = "[Exposed=*] interface A {};\nbroken;\n[B=1] interface C {};\n// c\n"
        found = weedle.recover(text, dialect="today")
        self.assertEqual("".join(it.text for it in found.parts), text)
        self.assertEqual([it.value.value.identifier.value for it in found.definitions], ["A", "C"])
        self.assertEqual([it.span.start for it in found.parts if not it.is_read], [28])
        (error,) = found.errors
        self.assertEqual((error.dialect, error.line), ("today", 2))
        again = weedle.parse(text, recover=True, dialect="today")
        self.assertIsInstance(again, today.Definitions)
        self.assertEqual(([it.variant for it in again], len(again.errors)), (["Interface", "Interface"], 1))
        self.assertEqual([it.text for it in again.names() if it.role is Role.INTERFACE], ["A", "C"])
        self.assertEqual(pickle.loads(pickle.dumps(again[1])), again[1])

    def test_parts_of_a_text_that_is_read(self):
        for text, definitions in todays():
            found = weedle.recover(text, dialect="today")
            self.assertEqual(([it.value for it in found.definitions], found.errors), (list(definitions), []), text)
            self.assertTrue(all(it.is_read and it.is_piece for it in found.parts))

    def test_members_of_a_definition_with_an_error(self):
        found = weedle.recover("interface A { async_iterable<long>; atribute long x; const bigint Y = 1; };", dialect="today")
        read_members = [it.text.strip() for it in found.parts if it.is_read and it.rule == "today_interface_member"]
        self.assertEqual(read_members, ["async_iterable<long>;", "const bigint Y = 1;"])
        (error,) = found.errors
        self.assertEqual((error.line, error.hint), (1, "1:37: `attribute` in place of `atribute`?"))

    def test_a_layout(self):
        # as of the same text with a name in place of `*`, by weedle2's rules
        text = "[Exposed=*]interface   A:B{attribute  long x;undefined f( optional any x=5 );};"
        wanted = weedle.format(text.replace("*", "Window")).replace("Window", "*")
        self.assertEqual(weedle.format(text, dialect="today"), wanted)
        self.assertEqual(weedle.format(text.encode(), dialect="today"), wanted.encode())
        self.assertRaises(weedle.Refused, weedle.format, text)

    def test_layouts_say_the_same(self):
        for text, definitions in todays():
            laid_out = weedle.format(text, dialect="today")
            self.assertEqual(read(laid_out), definitions, text)
            self.assertEqual(re.sub(r"\s", "", laid_out), re.sub(r"\s", "", text))
            self.assertEqual(weedle.format(laid_out, dialect="today"), laid_out)

    def test_a_layout_of_what_is_read(self):
        text = "[A=*]   interface B {};\nbroken;\n[A=*]   interface C {};"
        wanted = "[A=*]\ninterface B {};\nbroken;\n[A=*]\ninterface C {};\n"
        self.assertEqual(weedle.format(text, partial=True, dialect="today").split(), wanted.split())
        self.assertIn("\nbroken;\n", weedle.format(text, partial=True, dialect="today"))

    def test_an_index(self):
        index = weedle.Index(dialect="today")
        index.add("interface A : B { async_iterable<C, [Clamp] long>; [X] [Y=*] attribute ObservableArray<D> x; };", "a")
        index.add("partial interface A { const bigint Z = 1; iterable<E>; };", "b")
        members = index["A"].members()
        self.assertEqual([(it.kind, it.name) for it in members], [
            ("AsyncIterable", ""), ("Attribute", "x"), ("Const", "Z"), ("Iterable", "")])
        pairs, attribute, constant, single = members
        self.assertEqual((pairs.key_type.text, pairs.type.text), ("C", "[Clamp] long"))
        self.assertEqual((single.key_type, single.type.text), (None, "E"))
        self.assertEqual([it.text for it in attribute.attributes], ["X", "Y=*"])
        self.assertEqual((attribute.type.text, constant.type.text), ("ObservableArray<D>", "bigint"))
        self.assertEqual([it.text for it in index.undefined()], ["B", "C", "D", "E"])
        self.assertEqual((index["A"].kind, index["A"].inherited.value), ("interface", "B"))

    def test_an_index_of_both(self):
        index = weedle.Index()
        self.assertIsInstance(index.add("interface A {}; A includes M;", "a"), weedle.Definitions)
        self.assertIsInstance(index.add("[X=*] interface mixin M { long f(long x); };", "m", dialect="today"), today.Definitions)
        (member,) = index["A"].members()
        self.assertEqual((member.name, [it.value.identifier.value for it in member.arguments]), ("f", ["x"]))
        self.assertEqual([index.file_of(it.value) for it in index.references("M")], ["a"])
        self.assertEqual([weedle.kind_of(it) for text in index.texts for it in text], ["interface", "includes", "interface mixin"])
        self.assertEqual([weedle.name_of(it).value for it in index.texts[0]], ["A", "A"])

    def test_edits(self):
        text = "[Exposed=*] interface A { attribute ObservableArray<A> x; }; // of A"
        edits = weedle.Edits(text, dialect="today")
        self.assertEqual(edits.renames("A", "bigint"), 2)
        self.assertEqual(edits.apply(), "[Exposed=*] interface _bigint { attribute ObservableArray<_bigint> x; }; // of A")
        edits = weedle.Edits(text, dialect="today")
        edits.replace(edits.definitions[0].value.attributes[0], "[Exposed=(A, B)] [C=1]")
        edits.delete(edits.definitions[0].value.members.body[0])
        self.assertEqual(edits.apply(), "[Exposed=(A, B)] [C=1] interface A {  }; // of A")
        self.assertRaises(weedle.Refused, weedle.Edits, text)


if __name__ == "__main__":
    unittest.main()
