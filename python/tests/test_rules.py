"""A rule read alone, at the front of a text. Expected is what the grammar says of each text, by hand."""

import pickle
import unittest

import support  # noqa: F401  (finds the package)
import weedle
from test_values import read_texts
from weedle import common, types
from weedle.grammar import RULES

# A rule, a text, and what of it the rule reads; None where it fails.
TABLE = [
    ("type", "long? x", "long? "), ("type", "(A or B) y", "(A or B) "), ("type", "5", None), ("type", "", None),
    ("identifier", " _a-b/* c */ d", " _a-b/* c */ "), ("identifier", "5", None),
    ("definition", "A includes B; C", "A includes B; "), ("definition", "A includes", None),
    ("definitions", "A includes B;\nC includes", "A includes B;\n"), ("definitions", "", ""),
    ("interface_member", "attribute long x; }", "attribute long x; "),
    ("opt_q_mark", "x", ""), ("opt_q_mark", "? x", "? "),
    ("integer_lit", "0x1F;", "0x1F"), ("string_lit", '"é" x', '"é" '),
]


class Rules(unittest.TestCase):
    def test_worked_texts(self):
        for rule, text, read in TABLE:
            for given in (text, text.encode()):
                if read is None:
                    with self.assertRaises(weedle.Refused, msg=(rule, text)) as raised:
                        weedle.syntax(given, rule)
                    self.assertEqual(str(raised.exception), f"1:1: expected the rule `{rule}`")
                    self.assertEqual((raised.exception.start, raised.exception.hint), (0, None))
                    continue
                node = weedle.syntax(given, rule=rule)
                self.assertEqual((node.name, node.text, node.depth), (rule, read, 0), text)
                self.assertEqual("".join(it.text for it in node.walk() if not it.children), read)

    def test_each_definition_as_in_its_text(self):
        for text, definitions in read_texts():
            for it in definitions:
                alone = weedle.syntax(it.text, "definition").value
                self.assertEqual(alone, it)
                self.assertEqual(alone.text, it.text)

    def test_values(self):
        type_ = weedle.syntax("sequence<Node?> x", "type").value
        self.assertIsInstance(type_, types.Type.Single)
        self.assertEqual([(it.value, it.span) for it in type_.find(common.Identifier)], [("Node", (9, 13))])
        self.assertIsNone(type_.parent)
        self.assertEqual(next(type_.find(types.SequenceType)).parent.parent.parent.parent.text, "sequence<Node?>")
        self.assertEqual(type_.to_webidl(), "sequence<Node?>")

    def test_it_is_pickled(self):
        type_ = weedle.syntax("sequence<Node?> x", "type").value
        again = pickle.loads(pickle.dumps(type_))
        self.assertEqual((again, again.text), (type_, type_.text))
        fault = pickle.loads(pickle.dumps(weedle.errors.RuleRefused(weedle._text.Text("5"), "type")))
        self.assertEqual(str(fault), "1:1: expected the rule `type`")

    def test_each_rule_may_be_asked_for(self):
        for rule in RULES:
            try:
                weedle.syntax("interface A {};", rule)
            except weedle.Refused:
                continue

    def test_what_is_not_utf_8(self):
        with self.assertRaises(UnicodeDecodeError):
            weedle.syntax(b"long \xff", "type")


class Asked(unittest.TestCase):
    def test_no_such_rule(self):
        with self.assertRaisesRegex(ValueError, "no rule has the name 'typ'"):
            weedle.syntax("long", "typ")


class Values(unittest.TestCase):
    def test_a_node_has_its_value(self):
        root = weedle.syntax("interface A { attribute long x; };")
        (definition,) = root.children
        self.assertEqual(definition.value, weedle.parse(root.text)[0])
        self.assertEqual(root.value, [definition.value])
        self.assertIsNone(next(root.find("trivia")).value)


if __name__ == "__main__":
    unittest.main()
