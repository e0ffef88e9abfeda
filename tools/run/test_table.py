"""Tests of `run table`, by a program that answers as weedle_table does."""

import subprocess
import tomllib
import unittest

from rows.dialects import TODAY
from run.table import WORKED, Table, diagnosis_by_rows, parts_by_rows, wrong_of_rows, wrong_of_today, wrong_of_worked

TEXT = "enum _E { /* c */ \"a\" };\n"
PLACES = "definition 0..25 0..24 0..0 5..7\n  value 18..22 18..21 9..18 -\n1 definition\n"
NAMES = "Enum 5..7 E\n1 name\n"
ROW = {
    "text": TEXT,
    "definitions": [{"whole": TEXT, "name": "_E", "members": [], "values": [{"core": '"a"', "front": " /* c */ ", "name": ""}]}],
    "names": [["_E", "Enum"]],
}


FURTHEST, FAIL = diagnosis_by_rows(TEXT.encode())
DIAGNOSIS = f"{FURTHEST} {' '.join(FAIL)}\n"


class Answers:
    """A program that answers so, whatever it is asked."""

    def __init__(self, places, names, status=0, diagnosis=DIAGNOSIS):
        self.said, self.status = {"places": places, "names": names, "diagnosis": diagnosis}, status

    def run(self, words, given=b""):
        status = 0 if words == ["diagnosis"] else self.status
        return subprocess.CompletedProcess(words, status, self.said[words[0]].encode(), b"")


class Case:
    def __init__(self, text, is_read):
        self.text, self.is_read = text, is_read


def worked(places, names=NAMES):
    return wrong_of_worked(Table(Answers(places, names)), ROW)


def by_rows(places, names=NAMES, status=0, is_read=True):
    return wrong_of_rows(Table(Answers(places, names, status)), Case(TEXT, is_read))


class Places(unittest.TestCase):
    def test_what_is_right_passes(self):
        self.assertIsNone(worked(PLACES))
        self.assertIsNone(by_rows(PLACES))
        self.assertIsNone(by_rows("refused\n", "refused\n", 1, is_read=False))

    def test_another_span_fails(self):
        for old, new in (("0..25", "0..24"), ("18..21", "18..22"), ("9..18", "8..18"), ("5..7", "6..7"), ("value", "member")):
            self.assertTrue(worked(PLACES.replace(old, new, 1)), old)
        for old, new in (("0..25", "0..24"), ("18..21", "18..22"), ("18..21", "17..21"), ("9..18", "9..17"), ("value", "member")):
            self.assertTrue(by_rows(PLACES.replace(old, new, 1)), old)

    def test_other_names_fail(self):
        self.assertTrue(worked(PLACES, NAMES.replace("Enum", "Type")))
        self.assertTrue(by_rows(PLACES, "0 names\n"))
        for other in (NAMES.replace(" E", " _E"), NAMES.replace("1 name", "2 names")):
            self.assertRaises(ValueError, worked, PLACES, other)

    def test_a_text_that_is_refused_and_should_not_be_fails(self):
        self.assertTrue(by_rows("refused\n", "refused\n", 1))
        self.assertTrue(by_rows(PLACES, is_read=False))


class Diagnoses(unittest.TestCase):
    def table(self, diagnosis):
        return Table(Answers(PLACES, NAMES, 0, diagnosis))

    def test_another_place_or_rule_fails(self):
        wanted = {"text": "foo", "furthest": 3, "fail": ["bytes_includes"], "other": ["bytes_quote"]}
        self.assertIsNone(wrong_of_worked(self.table("3 bytes_includes one_of_blank\n"), wanted))
        for other in ("2 bytes_includes\n", "3 one_of_blank\n", "3 bytes_includes bytes_quote\n"):
            self.assertTrue(wrong_of_worked(self.table(other), wanted), other)
        self.assertTrue(wrong_of_rows(self.table(f"{FURTHEST - 1} {' '.join(FAIL)}\n"), Case(TEXT, True)))
        self.assertTrue(wrong_of_rows(self.table(f"{FURTHEST} {' '.join(FAIL[1:])}\n"), Case(TEXT, True)))

    def test_the_rows_say_what_is_worked(self):
        for row in tomllib.loads(WORKED.read_text())["text"]:
            if "furthest" in row:
                place, rules = diagnosis_by_rows(row["text"].encode())
                with self.subTest(row["text"]):
                    self.assertEqual(place, row["furthest"])
                    self.assertEqual(set(row["fail"]) - set(rules), set())
                    self.assertEqual(set(row["other"]) & set(rules), set())


class Rows(unittest.TestCase):
    def test_parts_and_names(self):
        self.assertEqual(parts_by_rows(TEXT.encode()), ([("definition", (0, 25)), ("value", (18, 22))], [(5, 7)]))

    def test_the_worked_texts_are_read_where_something_is_wanted(self):
        for row in tomllib.loads(WORKED.read_text())["text"]:
            self.assertIsInstance(row["text"], str)
            self.assertLessEqual(set(row), {"text", "definitions", "names", "furthest", "fail", "other"})


class Today(unittest.TestCase):
    """A dictionary with a docstring and a wildcard, by hand: places of its parts and of its names."""

    TEXT = "[A=*] dictionary D {\n  /// d\n  [Clamp] octet x;\n};\n"
    PLACES = "definition 0..51 0..50 0..0 17..18\n  member 23..48 23..47 23..23 45..46\n1 definition\n"
    NAMES = "ExtendedAttribute 1..2 A\nDictionary 17..18 D\nExtendedAttribute 32..37 Clamp\nDictionaryMember 45..46 x\n4 names\n"

    def wrong(self, places, names):
        furthest, fail = diagnosis_by_rows(self.TEXT.encode(), TODAY)
        said = Answers(places, names, diagnosis=f"{furthest} {' '.join(fail)}\n")
        return wrong_of_today(Table(said, TODAY), self.TEXT)

    def test_what_is_right_passes(self):
        self.assertIsNone(self.wrong(self.PLACES, self.NAMES))

    def test_what_is_wrong_fails(self):
        self.assertTrue(self.wrong(self.PLACES.replace("23..48", "31..48"), self.NAMES))
        self.assertTrue(self.wrong(self.PLACES, self.NAMES.replace("4 names", "3 names").replace("Dictionary 17..18 D\n", "")))
        self.assertRaises(ValueError, self.wrong, self.PLACES, self.NAMES.replace("45..46", "44..46"))
