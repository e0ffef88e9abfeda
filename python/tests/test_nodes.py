"""The syntax tree.

Expected are the rules of docs/GRAMMAR.md, and what weedle2's own values say of the same texts.
"""

import unittest

import support  # noqa: F401  (finds the package and the scripts)
import weedle
from measure.compare_with_weedle2 import worked_texts
from weedle.grammar import NUMBERS, RULES

TEXT = "/* a */ Request includes Body; // b\n/// d\ninterface A {}; //"


class Nodes(unittest.TestCase):
    def setUp(self):
        self.root = weedle.syntax(TEXT)

    def test_the_root(self):
        self.assertEqual((self.root.name, self.root.span, self.root.depth), ("definitions", (0, len(TEXT)), 0))
        self.assertEqual(RULES[self.root.rule], "definitions")
        self.assertEqual(NUMBERS["definitions"], self.root.rule)

    def test_children(self):
        first, second = self.root.children
        self.assertEqual((first.name, second.name), ("definition", "definition"))
        self.assertEqual(second.text, "/// d\ninterface A {}; //")
        self.assertEqual([it.name for it in first.children], ["includes_statement_definition"])

    def test_find(self):
        self.assertEqual([it.text for it in self.root.find("identifier_text")], ["Request", "Body", "A"])
        self.assertEqual([it.position for it in self.root.find("identifier_text")], [(1, 9), (1, 26), (3, 11)])
        with self.assertRaises(ValueError):
            self.root.find("identifer")

    def test_comments(self):
        self.assertEqual([it.text for it in self.root.comments], ["/* a */", "// b\n", "//"])

    def test_walk_has_each_node_before_those_below_it(self):
        nodes = list(self.root.walk())
        self.assertEqual(nodes[0], self.root)
        for node in nodes:
            below = [it for child in node.children for it in child.walk()]
            self.assertEqual(list(node.walk()), [node, *below])

    def test_what_a_node_shows(self):
        self.assertEqual(repr(self.root.children[0]), "<definition 0..36>")


class EachText(unittest.TestCase):
    def test_leaves_joined_are_the_text(self):
        count = 0
        for text in sorted(set(worked_texts())):
            try:
                root = weedle.syntax(text)
            except weedle.Refused:
                continue
            leaves = [it.text for it in root.walk() if not it.children]
            self.assertEqual("".join(leaves), text)
            count += 1
        self.assertGreater(count, 200)

    def test_children_take_all_that_their_node_takes(self):
        for node in weedle.syntax(TEXT).walk():
            place = node.span.start
            for child in node.children:
                self.assertEqual((child.span.start, child.depth), (place, node.depth + 1))
                place = child.span.end
            self.assertTrue(place == node.span.end or not node.children)


if __name__ == "__main__":
    unittest.main()
