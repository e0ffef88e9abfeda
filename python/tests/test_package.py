"""What the package gives its callers by name, and how values that are kept parts of a text compare."""

import builtins
import unittest
from unittest import mock

import support  # noqa: F401  (finds the package)
import weedle
from weedle._leaves import Leaf
from weedle._values import Value

STATEMENT = "A includes B;"


class Names(unittest.TestCase):
    def test_all_that_is_given_is_there(self):
        for name in weedle.__all__:
            self.assertTrue(hasattr(weedle, name), name)

    def test_nothing_of_python_is_replaced(self):
        given = {}
        exec("from weedle import *", given)
        replaced = {name for name in vars(builtins) if name in given and not name.startswith("__")}
        self.assertEqual(replaced, set())
        self.assertEqual(eval("format(255, 'x')", given), "ff")

    def test_the_layout_is_called_by_its_module(self):
        self.assertEqual(weedle.format("A  includes B ;"), f"{STATEMENT}\n")


class Leaves(unittest.TestCase):
    def test_they_are_equal_where_their_values_are(self):
        (one,), (other,) = weedle.parse("A includes A;"), weedle.parse("  A  includes _B;")
        with mock.patch.object(Value, "to_json", side_effect=AssertionError("it looks at all below")):
            self.assertEqual(one.value.lhs_identifier, one.value.rhs_identifier)
            self.assertEqual(one.value.lhs_identifier, other.value.lhs_identifier)
            self.assertNotEqual(one.value.rhs_identifier, other.value.rhs_identifier)
            self.assertEqual(hash(one.value.lhs_identifier), hash(other.value.lhs_identifier))

    def test_one_of_another_kind_is_another(self):
        (constant,) = weedle.parse("interface A { const long B = 1; const float C = 1.0; };")[0].value.members.body[:1]
        number, name = constant.value.const_value.value, constant.value.identifier
        self.assertNotEqual(number, name)
        self.assertNotEqual(name, "B")
        self.assertNotEqual(name, None)

    def test_each_kind_says_all_by_its_value(self):
        # else two would be equal that say something else
        kinds, found = Leaf.__subclasses__(), set()
        while kinds:
            kind = kinds.pop()
            found.add(kind)
            kinds += kind.__subclasses__()
        self.assertTrue(all(kind.__eq__ is Leaf.__eq__ and kind.__hash__ is Leaf.__hash__ for kind in found))

    def test_a_value_is_equal_to_itself(self):
        (definition,) = weedle.parse(STATEMENT)
        with mock.patch.object(Value, "to_json", side_effect=AssertionError("it looks at all below")):
            self.assertTrue(definition == definition)


if __name__ == "__main__":
    unittest.main()
