"""Tests refused_requests.py: which tests it takes, and how many requests it wants of them."""

import unittest

from run.refused_requests import is_swept, wanted_of


class Names(unittest.TestCase):
    def test_how_many_requests(self):
        self.assertEqual(wanted_of("requests::no_scanner_takes_memory"), 0)
        self.assertEqual(wanted_of("table::requests::eight_tables_are_made_by_8_requests"), 8)
        self.assertEqual(wanted_of("a::made_by_12_requests"), 12)
        self.assertIsNone(wanted_of("requests::tables_are_made_or_want_memory"))
        self.assertIsNone(wanted_of("a::made_by_8_requests_or_not"))

    def test_which_are_taken(self):
        for name in ("requests::a", "a::requests::b", "a::no_b", "a::b_or_want_memory", "a::b_by_3_requests"):
            self.assertTrue(is_swept(name), name)
        for name in ("a::b", "a::request", "b_by_requests"):
            self.assertFalse(is_swept(name), name)
