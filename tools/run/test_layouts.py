"""Tests of `run layouts`."""

import random
import tomllib
import unittest

from rows.dialects import TODAY
from run.layout_runs import WORKED
from run.layouts import COMMENTS, SEEDS, bounded, has_blanks_at_end, pieces_of, sown
from run.texts import today_file


class Pieces(unittest.TestCase):
    def test_words_numbers_and_signs(self):
        self.assertEqual(
            pieces_of("long... x=-1.5e+3;_a-b?"), ["long", "...", "x", "=", "-1.5e+3", ";", "_a-b", "?"]
        )

    def test_words_that_are_joined_are_others(self):
        self.assertNotEqual(pieces_of("unsigned long"), pieces_of("unsignedlong"))

    def test_strings_and_comments_are_whole(self):
        text = '"a  b"/* c\n * d */// e "f\n/// g\n'
        self.assertEqual(pieces_of(text), ['"a  b"', "/* c\n * d */", '// e "f', "/// g"])

    def test_a_comment_that_took_up_what_follows_is_another(self):
        self.assertNotEqual(pieces_of("// c\nA includes B;"), pieces_of("// c A includes B;"))


class Sown(unittest.TestCase):
    def test_the_pieces_stay_but_for_what_is_sown(self):
        text = 'interface A { attribute DOMString x; }; enum E { "a b" };'
        made = sown(random.Random(1), text)
        self.assertNotEqual(made, text)
        comments = {piece for seed in SEEDS for piece in pieces_of(seed)}
        left = [piece for piece in pieces_of(made) if piece.rstrip("\r") not in comments and piece not in comments]
        self.assertEqual(left, pieces_of(text))


class Bounded(unittest.TestCase):
    def test_a_comment_is_at_each_boundary(self):
        made = bounded("[A=1] enum E{};", 1)
        self.assertEqual(pieces_of(made)[1::2], pieces_of("[A=1] enum E{};"))
        self.assertEqual(pieces_of(made)[:4], ["// c", "[", "/* a\n   b */", "A"])
        self.assertTrue(made.endswith(";\n/* c */"))

    def test_each_text_of_today_is_read_with_them(self):
        for it in today_file()["read"]:
            for first in range(len(COMMENTS)):
                with self.subTest(it["name"], first=first):
                    self.assertTrue(TODAY.is_whole(bounded(it["text"], first).encode()))


class Worked(unittest.TestCase):
    def test_a_layout_of_today_has_the_pieces_of_its_text(self):
        found = [it for it in today_file()["read"] if "laid_out" in it]
        self.assertGreater(len(found), 10)
        for it in found:
            with self.subTest(it["name"]):
                self.assertEqual(pieces_of(it["laid_out"]), pieces_of(it["text"]))
                self.assertFalse(has_blanks_at_end(it["laid_out"]))
                self.assertTrue(TODAY.is_whole(it["laid_out"].encode()))

    def test_a_layout_has_the_pieces_of_its_text_and_no_blanks_at_the_ends_of_lines(self):
        for it in tomllib.loads(WORKED.read_text())["layout"]:
            with self.subTest(it["what"], text=it["text"]):
                layout = it.get("laid_out", it["text"])
                self.assertEqual([piece.rstrip() for piece in pieces_of(layout)], [piece.rstrip() for piece in pieces_of(it["text"])])
                # Whitespace and comments alone stand as they are.
                if layout != it["text"]:
                    self.assertFalse(has_blanks_at_end(layout))


class Blanks(unittest.TestCase):
    def test_only_those_of_no_comment_and_no_string(self):
        self.assertTrue(has_blanks_at_end("A includes B; \n"))
        self.assertFalse(has_blanks_at_end('enum E { "a \n" }; // c \r\n/* d \n */\n'))
