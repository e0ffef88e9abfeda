"""Tests figures.py and mixed_text.py, over lines in callgrind's form, in a second."""

import hashlib
import unittest

from measure.figures import calls_of
from measure.mixed_text import Mixed

WRITTEN = """\
fn=(1) main
16 20
cfn=(2) reader::parse::<#1a>
calls=1 50
16 400
cfn=(3) drop
calls=2 60
16 30
fn=(2)
51 100
cfn=(3)
calls=4 60
51 300
fn=(1)
cfn=(2)
calls=2 50
20 600
"""
class Measured(unittest.TestCase):
    def test_calls_of_one_function_by_another_are_added_up(self):
        found = calls_of(WRITTEN)
        self.assertEqual(found, {("main", "reader::parse"): (3, 1000), ("main", "drop"): (2, 30), ("reader::parse", "drop"): (4, 300)})
        self.assertEqual(calls_of(""), {})

    def test_the_text_that_the_figures_are_of(self):
        text = Mixed(7).text(100_000)
        self.assertEqual((len(text), hashlib.md5(text.encode()).hexdigest()), (100_282, "08dfffb24ad6942cadb3c2753bf3a23e"))
