"""Tests of tools/rows/dialects.py: what weedle2's rules read whole today's read whole too, of all texts of tests/.

What weedle2 reads is what tests/ says of its texts, most of it weedle2's own answer; nodes and words are by hand.
"""

import sys
import tomllib
import unittest
from collections.abc import Iterator

from measure.compare_with_weedle2 import DEPTH
from rows import hints as row_hints
from rows.dialects import TODAY, WEEDLE2
from rows.nodes import nodes_of
from rows.random_texts import Maker
from rows.words import refusal, sentence, words
from shared.case_files import TESTS, cases_of, folders

# The files with texts beside the archives, and the keys of their lists.
WORKED = {"worked": ["text"], "layouts": ["layout", "partial"], "prints": ["print"], "table": ["text"]}


def texts_that_are_read() -> Iterator[tuple[str, str]]:
    """The texts of tests/ that weedle2's rules read whole, each with its name."""
    for folder in folders():
        for case in cases_of(folder):
            if case.text is not None and case.is_read:
                yield f"{folder}/{case.name}", case.text
    for name, keys in WORKED.items():
        found = tomllib.loads((TESTS / f"{name}.toml").read_text(encoding="utf-8"))
        for number, row in enumerate(row for key in keys for row in found.get(key, [])):
            if WEEDLE2.is_whole(row.get("text", "").encode()):
                yield f"{name}.toml, {number}", row.get("text", "")


class TestSuperset(unittest.TestCase):
    def test_what_weedle2_reads_today_reads(self) -> None:
        limit, count = sys.getrecursionlimit(), 0
        sys.setrecursionlimit(DEPTH)
        for name, text in texts_that_are_read():
            count += 1
            if not TODAY.is_whole(text.encode()):
                self.fail(f"{name} isn't read: {text!r}")
        sys.setrecursionlimit(limit)
        self.assertGreater(count, 3_000)

    def test_random_texts_are_read_by_the_rows_that_made_them(self) -> None:
        for dialect in (WEEDLE2, TODAY):
            maker = Maker(11, dialect=dialect)
            for _ in range(100):
                text = maker.text()
                self.assertTrue(TODAY.is_whole(text.encode()), text)

    def test_random_texts_have_what_is_new(self) -> None:
        maker = Maker(11, dialect=TODAY)
        found = [maker.text() for _ in range(100)]
        self.assertGreater(sum(not WEEDLE2.is_whole(text.encode()) for text in found), 50)


class TestNodes(unittest.TestCase):
    def test_nodes_by_hand(self) -> None:
        """A docstring that the text ends in is no definition: TODAY_LAST_DOC is trivia, `///` and the line."""
        self.assertEqual(nodes_of(b"///x", TODAY), [
            (0, "today_definitions", 0, 4, None), (1, "today_piece", 0, 4, None), (2, "today_last_doc", 0, 4, None),
            (3, "trivia", 0, 0, b""), (3, "bytes_three_slashes", 0, 3, b"///"), (3, "run_not_line_feed", 3, 4, b"x"),
        ])

    def test_the_leaves_are_the_text(self) -> None:
        for text in ("[Exposed=*] interface A { /// d\n attribute sequence<[Clamp] octet> x; }; // e", ""):
            nodes = nodes_of(text.encode(), TODAY)
            self.assertEqual(b"".join(node[4] or b"" for node in nodes), text.encode())


class TestRefusals(unittest.TestCase):
    def test_furthest_places_of_both(self) -> None:
        """weedle2's rules read `[Exposed=*]` up to the `*`, today's up to what is missing behind it."""
        text = "[Exposed=*] interface A {}"
        self.assertEqual(refusal(text, 0), (9, 'expected `(`, a name or `"`'))
        self.assertEqual(refusal(text, 0, TODAY), (26, "expected `;`"))

    def test_a_type_has_one_word_in_both(self) -> None:
        for dialect in (WEEDLE2, TODAY):
            text = b"interface A { undefined f([B] "
            dialect.end_of(text)
            place, unmet = dialect.ends.unmet()
            self.assertEqual((place, sentence(words(unmet, dialect))), (30, "expected a type, `[` or `optional`"))

    def test_hints_of_both(self) -> None:
        text = "[Exposed=*] interface A { atribute ObservableArray<long> x; };"
        place, _ = refusal(text, 0, TODAY)
        self.assertEqual(row_hints.line(text, 0, place, TODAY), "1:27: `attribute` in place of `atribute`?\n")
        place, _ = refusal(text, 0)
        self.assertIsNone(row_hints.line(text, 0, place))


if __name__ == "__main__":
    unittest.main()
