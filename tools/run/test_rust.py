"""Tests `run rust` over made-up cases, in a second; no program is built."""

import unittest
from unittest import mock

from measure.compare_with_weedle2 import Answer
from run import rust
from run.__main__ import main
from run.rust import came_of, failures_of, wanted_of
from shared.case_files import Case
from shared.test_support import printed
from shared.tree_json import read

TEXT = "A includes B;"
DEBUG = (
    'IncludesStatement(IncludesStatementDefinition { attributes: None, lhs_identifier: Identifier("A"), '
    'includes: Includes, rhs_identifier: Identifier("B"), semi_colon: SemiColon })'
)
VALUE = {
    "IncludesStatement": {
        "attributes": None, "lhs_identifier": {"Identifier": "A"}, "includes": "Includes",
        "rhs_identifier": {"Identifier": "B"}, "semi_colon": "SemiColon",
    },
}
READ = Case("0", TEXT, {"by": "weedle2", "list": ["includes A"], "at": ["1:1"], "value": [VALUE]})
REFUSED = Case("1", "A includes", {"by": "weedle2", "rest": 0, "place": 10})
ANSWERS = {
    TEXT: Answer(["includes A", "definitions 1"], [read(DEBUG)]),
    "A includes": Answer(["unread at byte 0"], None),
}


class Program:
    def __init__(self, answers):
        self.given = answers

    def answers(self, files):
        texts = []
        for file in files:
            with open(file, encoding="utf-8") as text:
                texts.append(text.read())
        return [self.given[text] for text in texts]


class Cases(unittest.TestCase):
    def failures(self, answers):
        cases = [READ, REFUSED]
        return list(failures_of(Program(answers), cases, [case.text for case in cases]))

    def test_what_is_wanted_is_what_comes(self):
        self.assertEqual(self.failures(ANSWERS), [None, None])

    def test_another_value_fails(self):
        other = Answer(["includes A", "definitions 1"], [read(DEBUG.replace('"B"', '"C"'))])
        failure, good = self.failures({**ANSWERS, TEXT: other})
        self.assertEqual(failure.came["value"][0]["IncludesStatement"]["rhs_identifier"], {"Identifier": "C"})
        self.assertIsNone(good)

    def test_another_rest_fails(self):
        good, failure = self.failures({**ANSWERS, "A includes": Answer(["unread at byte 2"], None)})
        self.assertIsNone(good)
        self.assertEqual(failure.wanted, {"lines": ["unread at byte 0"]})

    def test_a_text_that_is_read_and_should_be_refused_fails(self):
        _, failure = self.failures({**ANSWERS, "A includes": ANSWERS[TEXT]})
        self.assertEqual(failure.came["lines"], ["includes A", "definitions 1"])

    def test_of_real_files_the_sums_are_compared(self):
        answer = ANSWERS[TEXT]
        sums = came_of(answer, is_real=True)
        case = Case("a", None, {"by": "weedle2", "bytes": 13, "sum": "", **sums})
        self.assertEqual(wanted_of(case), sums)
        self.assertEqual(set(sums), {"sum of list", "sum of value"})


class Folders(unittest.TestCase):
    def test_counts_and_failures_are_printed(self):
        program = Program({**ANSWERS, "A includes": Answer(["unread at byte 2"], None)})
        with mock.patch.object(rust, "cases_of", lambda folder: [READ, REFUSED]), \
                mock.patch.object(rust, "Weedle2", lambda path: program):
            status, out, _ = printed(main, ["rust", "here", "tests"])
        self.assertEqual((status, out[:8]), (1, "FAILED: "))
        self.assertTrue(out.endswith("tests: 1 passed, 1 failed\n1 passed, 1 failed\n"))

    def test_a_folder_that_is_not_there(self):
        said = printed(main, ["rust", "none", "nowhere"])
        self.assertEqual(said, (2, "", "run rust: no folder nowhere can be run\n"))

    def test_a_program_that_is_not_there(self):
        status, _, err = printed(main, ["rust", "/nowhere", "worked"])
        self.assertEqual(status, 2)
        self.assertIn("/nowhere", err)
