"""Tests what tests/families.txt says of each text, by the rows of the grammar, in seconds.

Each text is read a hundredth as long. What is UTF-8 says Python.
"""

import sys
import tempfile
import unittest
from pathlib import Path

from measure.compare_with_weedle2 import DEPTH
from rows.ends import NOW
from run.families import NOT_UTF8, READ, Family, families

PART = 100


class Families(unittest.TestCase):
    @classmethod
    def setUpClass(cls):
        sys.setrecursionlimit(DEPTH)

    def test_each_is_said_by_the_rows(self):
        for family in families():
            with self.subTest(family.name):
                text = family.text(PART)
                if family.kind == NOT_UTF8:
                    with self.assertRaises(UnicodeDecodeError) as raised:
                        text.decode()
                    self.assertEqual(raised.exception.start, family.rest(PART))
                    continue
                text.decode()
                self.assertEqual(NOW.end_of(text), family.rest(PART))
                self.assertEqual(family.kind == READ, family.rest(PART) == len(text))

    def test_there_are_forty_and_more(self):
        names = [it.name for it in families()]
        self.assertGreater(len(names), 40)
        self.assertEqual(len(names), len(set(names)))


class Lines(unittest.TestCase):
    def test_a_line(self):
        with tempfile.TemporaryDirectory() as room:
            place = Path(room, "it")
            place.write_text('# a\n\na name\trefused\t"x" 200*"\\"\\xff"\t3*"y"\n', encoding="utf-8")
            (family,) = families(place)
        self.assertEqual((family.name, family.rest(), family.rest(100)), ("a name", 401, 5))
        self.assertEqual(family.text(100), b'x"\xff"\xffy')

    def test_what_is_no_line(self):
        for given in (("a", "unread", ""), ("a", "read", "x"), ("a", "read", '2"x"')):
            with self.assertRaises(ValueError):
                Family(*given)
