"""Values are copied, pickled, and cross to other processes: each says the same there, at the same place."""

import copy
import multiprocessing
import pickle
import unittest
from unittest import mock

import support  # noqa: F401  (finds the package)
import weedle
from test_values import WINDOW, all_values
from weedle import _reading, common


def names_of(definition):
    """The names in a definition, with their places: it is called in another process."""
    return [(it, it.span) for it in definition.find(common.Identifier)]


def refused(text):
    """The same of why a text is refused."""
    try:
        return weedle.parse(text)
    except weedle.Refused as fault:
        return fault


class Copies(unittest.TestCase):
    def setUp(self):
        self.definitions = weedle.parse(WINDOW)

    def assert_same(self, one, other):
        self.assertIs(type(one), type(other))
        self.assertEqual(one, other)
        self.assertEqual((one.span, one.text, one.position), (other.span, other.text, other.position))

    def test_each_value_is_pickled(self):
        for protocol in range(pickle.HIGHEST_PROTOCOL + 1):
            for it in all_values(self.definitions):
                self.assert_same(it, pickle.loads(pickle.dumps(it, protocol)))

    def test_each_value_is_copied(self):
        for it in all_values(self.definitions):
            self.assert_same(it, copy.copy(it))
            self.assert_same(it, copy.deepcopy(it))

    def test_the_text_is_written_once(self):
        all_ = list(all_values(weedle.parse(WINDOW + " " * 10_000)))
        self.assertLess(len(pickle.dumps(all_)), 10_000 + 200 * len(all_))

    def test_lists_tuples_nodes_and_names(self):
        for it in (self.definitions, self.definitions.syntax, list(self.definitions.names())):
            self.assertEqual(repr(pickle.loads(pickle.dumps(it))), repr(it))
        again = pickle.loads(pickle.dumps(self.definitions))
        self.assertEqual((type(again), again.text, again), (weedle.Definitions, WINDOW, self.definitions))
        single = self.definitions[0].value.members.body[1].value.args.body[0].value.type_.type_.value
        long_long = single.value.value.type_.value.long_long
        again = pickle.loads(pickle.dumps(long_long))
        self.assertEqual((again, again.text, type(again)), (long_long, "long long", type(long_long)))

    def test_another_version_has_other_nodes(self):
        dumped = pickle.dumps(self.definitions[0])
        with mock.patch.object(_reading, "VERSION", 0x010203), self.assertRaises(ValueError):
            pickle.loads(dumped)

    def test_another_process(self):
        for method in ("fork", "spawn"):
            with multiprocessing.get_context(method).Pool(1) as pool:
                (found,) = pool.map(names_of, self.definitions)
                (parsed,) = pool.map(weedle.parse, [WINDOW])
                (fault,) = pool.map(refused, ["interface A {"])
            self.assertEqual(found, names_of(self.definitions[0]))
            self.assertEqual(parsed, self.definitions)
            self.assertEqual(str(fault), str(refused("interface A {")))


if __name__ == "__main__":
    unittest.main()
