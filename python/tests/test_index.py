"""What names of several texts stand for. Expected is what a person says who reads the texts."""

import doctest
import unittest

import support  # noqa: F401  (finds the package)
import weedle
from weedle import Index, Role, kind_of
from weedle import index as index_module

DOM = """\
interface Node : EventTarget {
  // how many
  const unsigned short X = 1;
  [SameObject] readonly attribute NodeList nodes;
};
interface EventTarget { constructor(); };
interface mixin Both { undefined both(optional Options options = {}); };
Node includes Both;
Element includes Both;
interface Element : Node {};
"""
MORE = """\
partial interface Node { undefined f(long a, DOMString... b); };
partial interface mixin Both { readonly attribute any more; };
dictionary Options : Base { required long id; DOMString name = "a"; };
dictionary Base { Missing it; };
enum Options { "a" };
interface NodeList {
  getter Node (unsigned long i);
  iterable<Node>;
  stringifier;
};
interface Map {
  maplike<DOMString, Node>;
};
interface Set { setlike<Node>; };
interface Asked { async iterable<DOMString, [Clamp] octet>(long from); };
interface Loop : Ring {};
interface Ring : Loop {};
"""


class Indexed(unittest.TestCase):
    def setUp(self):
        self.index = Index()
        self.dom = self.index.add(DOM, "dom.webidl")
        self.more = self.index.add(weedle.parse(MORE), "more.webidl")

    def test_definitions_and_parts(self):
        node = self.index["Node"]
        self.assertEqual(node.definition, self.dom[0])
        self.assertEqual(node.parts, [self.more[0]])
        self.assertEqual((node.kind, self.index["Both"].kind, self.index["Base"].kind),
                         ("interface", "interface mixin", "dictionary"))
        self.assertEqual([it.name for it in node.mixins], ["Both"])
        self.assertEqual(node.inherited.value, "EventTarget")
        self.assertEqual([kind_of(it) for it in self.more[:3]], ["partial interface", "partial interface mixin", "dictionary"])

    def test_names_that_nothing_speaks_of(self):
        self.assertNotIn("Nowhere", self.index)
        self.assertIsNone(self.index.get("Nowhere"))
        with self.assertRaises(KeyError):
            self.index["Nowhere"]
        self.assertEqual(len(self.index), len(set(self.index)))

    def test_ancestors(self):
        self.assertEqual([it.name for it in self.index["Element"].ancestors()], ["Node", "EventTarget"])
        self.assertEqual(self.index["EventTarget"].ancestors(), [])
        self.assertEqual([it.name for it in self.index["Loop"].ancestors()], ["Ring"])
        self.assertEqual([it.name for it in self.index["Options"].ancestors()], ["Base"])

    def test_what_nothing_defines_is_no_ancestor(self):
        self.index.add("interface Some : Parts {}; partial interface Parts { attribute long x; };")
        self.assertEqual(self.index["Some"].ancestors(), [])

    def test_members_of_all_lists(self):
        found = [(it.kind, it.name) for it in self.index["Node"].members()]
        self.assertEqual(found, [
            ("Const", "X"), ("Attribute", "nodes"), ("Operation", "f"), ("Operation", "both"), ("Attribute", "more"),
        ])
        self.assertEqual([it.name for it in self.index["Element"].members()], ["both", "more"])
        self.assertEqual([(it.kind, it.name) for it in self.index["Options"].members()], [("Field", "id"), ("Field", "name")])

    def test_members_of_the_first_definition_alone(self):
        self.index.add("interface Set { attribute long x; };")
        self.assertEqual([it.kind for it in self.index["Set"].members()], ["Setlike"])

    def test_what_members_have(self):
        constant, nodes, operation, both, _ = self.index["Node"].members()
        self.assertEqual((constant.doc, constant.type.text), ("how many", "unsigned short"))
        self.assertEqual([it.text for it in nodes.attributes], ["SameObject"])
        self.assertEqual((nodes.type.text, nodes.doc, nodes.arguments), ("NodeList", "", []))
        self.assertEqual([it.value.identifier.value for it in operation.arguments], ["a", "b"])
        self.assertEqual((operation.type.text, operation.definition), ("undefined", self.more[0]))
        self.assertEqual(both.arguments[0].value.default.value.text, "{}")
        self.assertEqual(self.index["Options"].members()[0].type.text, "long")

    def test_members_without_names(self):
        getter, iterable, stringifier = self.index["NodeList"].members()
        self.assertEqual((getter.name, getter.identifier, getter.type.text), ("", None, "Node"))
        self.assertEqual((iterable.kind, iterable.type.text, iterable.key_type), ("Iterable", "Node", None))
        self.assertEqual((stringifier.kind, stringifier.type, stringifier.arguments), ("Stringifier", None, []))
        (map_,), (set_,), (asked,) = (self.index[it].members() for it in ("Map", "Set", "Asked"))
        self.assertEqual((map_.kind, map_.key_type.text, map_.type.text), ("Maplike", "DOMString", "Node"))
        self.assertEqual((set_.kind, set_.key_type, set_.type.text), ("Setlike", None, "Node"))
        self.assertEqual((asked.kind, asked.key_type.text, asked.type.text), ("AsyncIterable", "DOMString", "[Clamp] octet"))
        self.assertEqual([it.value.identifier.value for it in asked.arguments], ["from"])

    def test_places(self):
        self.assertEqual(self.index.place_of(self.more[2].value.identifier), "more.webidl:3:12")
        self.assertEqual(self.index.file_of(self.dom[0]), "dom.webidl")

    def test_references(self):
        found = [(it.role, self.index.place_of(it.value)) for it in self.index.references("Node")]
        self.assertEqual(found, [
            (Role.INCLUDER, "dom.webidl:8:1"), (Role.INHERITED, "dom.webidl:10:21"),
            (Role.PARTIAL_INTERFACE, "more.webidl:1:19"), (Role.TYPE, "more.webidl:7:10"), (Role.TYPE, "more.webidl:8:12"),
            (Role.TYPE, "more.webidl:12:22"), (Role.TYPE, "more.webidl:14:25"),
        ])
        self.assertEqual(self.index.references("X"), [])

    def test_references_are_found_anew_when_a_text_is_added(self):
        count = len(self.index.references("Node"))
        self.index.add("typedef Node N;")
        self.assertEqual(len(self.index.references("Node")), count + 1)

    def test_what_is_defined_twice_and_what_nothing_defines(self):
        self.assertEqual([it.name for it in self.index.duplicates()], ["Options"])
        self.assertEqual([kind_of(it) for it in self.index["Options"].definitions], ["dictionary", "enum"])
        self.assertEqual([it.text for it in self.index.undefined()], ["Missing"])
        self.index.add("typedef bigint B; partial interface Away {};")
        self.assertEqual([it.text for it in self.index.undefined()], ["Missing", "Away"])
        self.index.add("interface Missing {}; interface Away {};")
        self.assertEqual(self.index.undefined(), [])

    def test_a_refused_text_changes_nothing(self):
        names = list(self.index)
        with self.assertRaises(weedle.Refused):
            self.index.add("interface Z {", "z.webidl")
        self.assertEqual((list(self.index), len(self.index.texts)), (names, 2))

    def test_the_example_of_its_docs(self):
        failed, attempted = doctest.testmod(index_module)
        self.assertEqual((failed, attempted > 0), (0, True))


if __name__ == "__main__":
    unittest.main()
