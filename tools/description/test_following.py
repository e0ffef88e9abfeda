"""Tests description/following.py over a made-up grammar and over that of WebIDL, in a second."""

import unittest

from description import following
from description.rules import Rule
from description.webidl import RULES

# Two keywords, a name, and statements of them: `long name`, `long long name`, each with `;`.
MADE_UP = [
    Rule("BYTES_LONG", ("Bytes", "long"), "Silent", None),
    Rule("BYTES_MARK", ("Bytes", ";"), "Silent", None),
    Rule("LONG", ("Seq", ("TRIVIA", "BYTES_LONG", "TRIVIA")), "Marked", None),
    Rule("MARK", ("Seq", ("TRIVIA", "BYTES_MARK", "TRIVIA")), "Marked", None),
    Rule("IDENTIFIER", ("Seq", ("TRIVIA", "LETTERS", "TRIVIA")), "Kept 1", None),
    Rule("OPT_LONG", ("Opt", "LONG"), "Plain", None),
    Rule("STATEMENT", ("Seq", ("LONG", "OPT_LONG", "IDENTIFIER", "MARK")), "Plain", None),
    Rule("STATEMENTS", ("Many", "STATEMENT"), "Plain", None),
]


class FollowingTest(unittest.TestCase):
    def test_a_keyword_is_read_where_an_option_reads_it(self):
        self.assertEqual(following.read_behind(MADE_UP), {"long": ["long"]})

    def test_what_follows_a_repetition_is_its_front(self):
        known = following.Neighbours(MADE_UP)
        self.assertEqual(known.behind["MARK"], {"LONG"})
        self.assertEqual(known.behind["IDENTIFIER"], {"MARK"})

    def test_behind_interface_a_mixin_may_be_read_and_behind_a_dictionary_nothing(self):
        found = following.read_behind(RULES)
        self.assertEqual(found["interface"], ["mixin"])
        self.assertNotIn("dictionary", found)
        self.assertEqual(found["long"], ["long", "or"])
        self.assertEqual(found["a"], ["implements", "includes", "or"])

    def test_where_a_type_may_begin_its_words_are_read(self):
        found = following.read_behind(RULES)
        for before in ("(", "typedef", "attribute", "<", ";"):
            self.assertIn("sequence", found[before])
        self.assertIn("optional", found["("])
        self.assertNotIn("optional", found["typedef"])
