"""Tests starts.py: first sets by hand from docs/GRAMMAR.md, and of texts that the rows read."""

import unittest

from description.today import RULES
from rows.ends import FAILS, Ends
from write.starts import EVERY, WORDS, first_set, gate, word_of

BY_NAME = {it.name: it for it in RULES}
BLANKS, LETTERS = b" \t\r\n/", b"abcdefghijklmnopqrstuvwxyzABCDEFGHIJKLMNOPQRSTUVWXYZ"


class TestFirstSets(unittest.TestCase):
    def test_of_a_keyword(self):
        self.assertEqual(first_set("ENUM"), word_of(BLANKS + b"e"))

    def test_of_a_definition_with_extended_attributes(self):
        self.assertEqual(first_set("TYPEDEF_DEFINITION"), word_of(BLANKS + b"[t"))

    def test_of_a_name(self):
        self.assertEqual(first_set("IDENTIFIER"), word_of(BLANKS + b"_" + LETTERS))

    def test_of_what_may_take_nothing(self):
        for name in ("TRIVIA", "DEFINITIONS", "OPT_OPTIONAL", "RUN_DIGIT"):
            self.assertEqual(first_set(name), EVERY, name)

    def test_no_rule_takes_what_its_word_lacks(self):
        ends = Ends({it.name: it.row for it in RULES})
        for byte in range(128):
            ends.take(bytes([byte]) + b"a = 1;")
            for rule in RULES:
                if ends.ends_at(rule.name) not in (FAILS, 0):
                    self.assertTrue(WORDS[rule.name] >> byte & 1, (rule.name, byte))


class TestGates(unittest.TestCase):
    def test_of_what_may_go_without(self):
        self.assertEqual(gate(BY_NAME["DEFINITIONS"]), first_set("DEFINITION"))
        self.assertEqual(gate(BY_NAME["OPT_OPTIONAL"]), first_set("OPTIONAL"))

    def test_of_items_behind_a_separator(self):
        tail = next(it for it in RULES if it.row[0] == "Tail")
        self.assertEqual(gate(tail), first_set(tail.row[2]))

    def test_of_another_rule(self):
        self.assertEqual(gate(BY_NAME["ENUM"]), first_set("ENUM"))
