"""Tests `run growth` with made-up costs, in a second."""

import unittest

from run import growth as run_growth
from run.families import Family
from run.growth import FEW, MOST, growth, text_of

MANY = Family("many", "refused", "", f'"a" {10 * FEW}*"bc"')
LENGTHS = (4_000, 16_000)


class Texts(unittest.TestCase):
    def test_a_text_has_about_the_length_that_is_asked_for(self):
        for length in (1_000, 4_000, 100_000):
            self.assertAlmostEqual(len(text_of(MANY, length)), length, delta=length / 100)

    def test_pieces_that_stand_a_few_times_stand_as_often(self):
        family = Family("few", "read", '4*"[A(" 1000*"x"')
        for length in (100, 10_000):
            self.assertEqual(text_of(family, length).count(b"[A("), 4)


class Growth(unittest.TestCase):
    def test_what_grows_with_the_text_passes(self):
        self.assertLess(growth(lambda text: 70 * len(text), MANY, LENGTHS, 0), MOST)

    def test_what_grows_with_its_square_does_not(self):
        self.assertGreater(growth(lambda text: len(text) ** 2, MANY, LENGTHS, 0), MOST)

    def test_a_pair_that_goes_two_ways_is_not_the_last_word(self):
        by_table = lambda text: len(text) * (1_544 if len(text) > 2_000 else 32)
        self.assertLess(growth(by_table, MANY, LENGTHS, 0), MOST)

    def test_what_each_call_takes_is_left_aside(self):
        self.assertLess(growth(lambda text: 10 + len(text) ** 2 // 10**7, MANY, LENGTHS, 10**4), MOST)


class Open(unittest.TestCase):
    def test_each_text_is_long_and_lacks_two_brackets(self):
        for text in run_growth.texts_with_two_open().values():
            self.assertGreater(len(text), 160_000)
            self.assertEqual(text.count(b"["), text.count(b"]") + 2)

    def test_a_table_would_ask_for_too_much(self):
        self.assertFalse(run_growth.Cost("a", "weedle_syntax", "bytes", 1_544, run_growth.MOST_BYTES).is_within)


class Told(unittest.TestCase):
    def test_a_line_says_what_is_too_much_for_a_byte(self):
        line = run_growth.Cost("a text", "weedle_format", "bytes", 1_544.4, 600).line()
        self.assertEqual(line, "a text, weedle_format: 1544 bytes a byte, where 600 are the most")

    def test_a_line_says_what_grows_how_much(self):
        line = run_growth.Tried("quotes", "weedle_explain", "bytes", 15.96).line()
        self.assertEqual(line, "quotes, weedle_explain: 16.0 times the bytes for four times the text")
