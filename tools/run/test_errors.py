"""Tests of sown_errors.py and `run errors`, with parts that are written by hand."""

import random
import unittest

from rows.dialects import TODAY, WEEDLE2
from run import errors as run_errors
from run import sown_errors

TEXT = "interface A {\n  long x;\n};\n\n"


def parts(*lines):
    return [run_errors.Part(line) for line in lines]


# The member of an interface isn't read.
BROKEN = parts(
    "read opt_docstring 0 0 0", "read opt_extended_attribute_list 0 0 0", "read interface 0 10 0", "read identifier 10 12 0",
    "read opt_inheritance 12 12 0", "read open_brace 12 16 0", "unread interface_member 16 24 0", "read close_brace 24 25 0",
    "read semi_colon 25 28 0",
)


# The same of a text of today's WebIDL: its only member isn't read, and a docstring is behind it.
TODAY_TEXT = "[Exposed=*] interface A {\n  long x;\n/// d\n};"
TODAY_BROKEN = parts(
    "read today_docs 0 0 0", "read today_attribute_lists 0 12 0", "read interface 12 22 0", "read identifier 22 24 0",
    "read opt_inheritance 24 24 0", "read open_brace 24 28 0", "unread today_interface_member 28 36 0", "read today_docs 36 42 0",
    "read close_brace 42 43 0", "read semi_colon 43 44 0",
)


class Sown(unittest.TestCase):
    def test_each_kind_finds_a_place(self):
        text = sown_errors.joined(sown_errors.Maker(1).text(6_000))
        tokens = sown_errors.tokens_of(text)
        for kind, sow in sown_errors.SOWERS.items():
            error = sow(kind, text, tokens, random.Random(1))
            changed, [(first, behind)] = sown_errors.sown(text, [error])
            self.assertNotEqual(changed, text, kind)
            self.assertLess(first, behind, kind)

    def test_there_are_26_kinds(self):
        self.assertEqual(len(sown_errors.SOWERS), 26)

    def test_texts_are_read_whole(self):
        for seed in range(5):
            self.assertTrue(run_errors.is_whole(sown_errors.joined(sown_errors.Maker(seed).text(1_000))))
            text = sown_errors.joined(sown_errors.TodayMaker(seed).text(2_000))
            self.assertTrue(run_errors.is_whole(text, TODAY))
            self.assertFalse(run_errors.is_whole(text))

    def test_places_of_several_errors(self):
        errors = [sown_errors.Error("b", 4, 1, ""), sown_errors.Error("a", 1, 0, "xy")]
        self.assertEqual(sown_errors.sown("abcdef", errors), ("axybcdf", [(1, 3), (6, 7)]))


class Run(unittest.TestCase):
    def wrong(self, some, nodes=None):
        raw = TEXT.encode()
        WEEDLE2.ends.take(raw)
        if nodes is None:
            nodes = sum(run_errors.count_of(part.rule, part.start) for part in some if part.is_read)
        return run_errors.wrong_by_rows(raw, some, nodes)

    def test_parts_that_the_rows_give(self):
        WEEDLE2.ends.take(b"interface A {};")
        nodes = run_errors.count_of("DEFINITION", 0)
        self.assertIsNone(run_errors.wrong_by_rows(b"interface A {};", parts("read definition 0 15 0"), nodes))
        self.assertIsNone(self.wrong(BROKEN))

    def test_parts_of_today(self):
        raw = TODAY_TEXT.encode()
        TODAY.ends.take(raw)
        nodes = sum(run_errors.count_of(part.rule, part.start, TODAY) for part in TODAY_BROKEN if part.is_read)
        self.assertIsNone(run_errors.wrong_by_rows(raw, TODAY_BROKEN, nodes, TODAY))
        self.assertIn("begins at 28", run_errors.wrong_by_rows(raw, TODAY_BROKEN[:5] + TODAY_BROKEN[6:], nodes, TODAY))
        # `long x` is read up to the `;`, where the arguments of an operation would begin
        self.assertEqual(run_errors.told_at(raw, TODAY_BROKEN[6], TODAY), 34)
        whole, members = run_errors.read_in(b"interface A { long f(); };", parts("read today_piece 0 26 0"), TODAY)
        self.assertEqual((whole, members), ({"interface A { long f ( ) ; } ;"}, {"long f ( ) ;"}))

    def test_parts_that_are_wrong(self):
        self.assertIn("in place of", self.wrong(BROKEN, 1))
        self.assertIn("begins at", self.wrong(BROKEN[1:-1][::-1]))
        self.assertIn("the last part ends", self.wrong(BROKEN[:-1]))
        self.assertIn("ends at", self.wrong(parts("read definition 0 28 0"), 1))
        self.assertIn("ends at", self.wrong([*BROKEN[:3], *parts("unread identifier 10 28 0")]))

    def test_an_error_has_a_part_of_its_own(self):
        self.assertEqual(run_errors.matched([[0], [0]]), 1)
        self.assertEqual(run_errors.matched([[0, 1], [0]]), 2)

    def test_where_a_part_is_told(self):
        part = BROKEN[6]
        self.assertEqual(run_errors.told_at(TEXT.encode(), part), 22)
        self.assertEqual(run_errors.lines_told(TEXT.encode(), part), {2})

    def test_what_is_wanted(self):
        definitions = [["interface A {\n", "  long x();\n", "};\n"], ["enum E { \"a\" };\n"]]
        error = sown_errors.Error("an error", 30, 1, "")
        whole, members = run_errors.wanted_of(definitions, [error])
        self.assertEqual((whole, members), (["interface A { long x ( ) ; } ;"], ["long x ( ) ;"]))

    def test_figures(self):
        tally = run_errors.Tally()
        tally.add(TEXT.encode(), BROKEN, [(20, 21)])
        tally.keep("definitions", ["a", "b"], {"a"})
        self.assertEqual(tally.figures(), {"told": 100, "false": 0, "definitions": 50, "members": 0})
        self.assertEqual(run_errors.falls_short(3, tally.figures()), ["definitions", "members"])
