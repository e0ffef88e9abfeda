"""Tests hints.py: the tokens, the words that are near, and what is tried; tests/worked.toml has what is told."""

import unittest

from rows import hints as row_hints
from rows.hints import KEYWORDS, differ_by_one, nests_deep, tokens_of


class Words(unittest.TestCase):
    def test_words_that_differ_by_one(self):
        for word in ("eum", "num", "enu", "enumm", "xenum", "enxum", "enim", "Enum", "neum", "enmu"):
            self.assertTrue(differ_by_one(word.encode(), b"enum"), word)
        for word in ("enum", "en", "mune", "enimm", "muen", "nemu", "", "xenumx"):
            self.assertFalse(differ_by_one(word.encode(), b"enum"), word)

    def test_the_keywords(self):
        self.assertEqual(len(KEYWORDS), len(set(KEYWORDS)))
        for word in (b"interface", b"or", b"-Infinity", b"Uint8ClampedArray", b"true", b"null", b"implements"):
            self.assertIn(word, KEYWORDS)
        for word in (b";", b"...", b"///", b"e", b"void"):
            self.assertNotIn(word, KEYWORDS)


class Tokens(unittest.TestCase):
    def test_tokens_past_blanks_and_comments(self):
        text = 'a-1 // b\n/* c */ "d /*" [é]'.encode()
        found = [(kind, text[start:end].decode()) for kind, start, end in tokens_of(text, 0, len(text))]
        self.assertEqual(found, [("word", "a-1"), ("string", '"d /*"'), ("sign", "["), ("sign", "é"), ("sign", "]")])

    def test_lines_of_a_docstring_are_one(self):
        text = b'///a\n // b\n ///c\nx "y'
        found = [(kind, text[start:end]) for kind, start, end in tokens_of(text, 0, len(text))]
        self.assertEqual(found, [("docstring", b"///a\n // b\n ///c"), ("word", b"x"), ("open", b'"y')])

    def test_a_comment_that_is_open_is_one(self):
        self.assertEqual([(kind, start, end) for kind, start, end in tokens_of(b"a /* b /* ;", 0, 11)], [("word", 0, 1), ("comment", 2, 11)])

    def test_what_nests_deep(self):
        for text in (b"", b"[A] interface B {};", b'"[[[[[[" /*[[[[[*/ //[[[[[\n', b"(" * 50, b"()" * 100, b"[" + b"<" * 48):
            self.assertFalse(nests_deep(text), text)
        for text in (b"(" * 51, b"[" * 26, b"[" + b"<" * 49):
            self.assertTrue(nests_deep(text), text)

    def test_no_token_begins_behind_the_place(self):
        self.assertEqual([start for _, start, _ in tokens_of(b"ab cd ef", 0, 3)], [0, 3])


class Changes(unittest.TestCase):
    def test_what_is_tried(self):
        text = b"/// a\nlong1 byte1 any1 enum1; // b"
        tried = list(row_hints.changes(text, len(text), tokens_of(text, 0, len(text)), {b"}"}))
        self.assertEqual(tried, [
            (23, 5, b"enum", "`enum` in place of `enum1`?"), (18, 4, b"any", "`any` in place of `any1`?"),
            (12, 5, b"byte", "`byte` in place of `byte1`?"), (0, 5, b"", "no docstring here"), (29, 0, b"};", "`};` missing here?"),
        ])

    def test_signs_that_are_tried(self):
        """In their order: without the sign, another one, and without the `,` before it; then those that are expected."""
        text = b"a, ;"
        tried = [change for change in row_hints.changes(text, 3, tokens_of(text, 0, 3), {b",", b"}", b"="})]
        self.assertEqual(tried, [
            (3, 1, b"", "no `;` here"), (3, 1, b",", "`,` in place of `;`?"), (1, 1, b"", "no `,` here"),
            (2, 0, b"=", "`=` missing here?"), (2, 0, b",", "`,` missing here?"), (2, 0, b"}", "`}` missing here?"),
        ])
