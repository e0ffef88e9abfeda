"""Tests of `run today`, by a program that answers by the rows of the grammar, some of it wrongly."""

import contextlib
import io
import re
import subprocess
import unittest
from argparse import Namespace
from pathlib import Path
from unittest import mock

from rows.dialects import TODAY, WEEDLE2
from rows.nodes import nodes_of, shown
from run import today
from run.cases import last_line
from run.report import Report
from run.todays import LINE

TEXTS = ["[Exposed=*] interface A {};", "interface A {};", "[Exposed=*] interface A { atribute long x; };", "enum E {};", "// c"]


class Answers:
    """A program that answers as weedle_check, by the rows, but for a change of what it prints."""

    program = "weedle_check"

    def __init__(self, change=lambda out: out):
        self.change = change

    def run(self, words, names=(), room=None, given=b""):
        dialect = TODAY if "--today" in words else WEEDLE2
        said, refused = "", 0
        for name in names:
            text = (Path(room) / name).read_text(encoding="utf-8")
            wanted = today.wanted_of(text, dialect)
            refused += bool(wanted)
            if wanted:
                last = LINE if not today.wanted_of(text, TODAY) else ""
                said += f"{name}:{wanted['at']}: {wanted['says']}\n{wanted['shows']}{wanted.get('hint', '')}{last}"
            elif "--syntax" in words:
                said += "".join(f"{shown(node)}\n" for node in nodes_of(text.encode(), dialect))
        out = self.change(said) + last_line(len(names), refused)
        return subprocess.CompletedProcess(words, 1 if refused else 0, out.encode(), b"")


def ran(change=lambda out: out):
    """How many passed and failed, of a program whose output is changed."""
    report = Report()
    with mock.patch.object(today, "meant", lambda path: Answers(change)), \
            mock.patch.object(today, "kinds", lambda wanted: [("some", TEXTS)]), \
            mock.patch.object(today, "by_hand", lambda: []), contextlib.redirect_stdout(io.StringIO()):
        today.run(Namespace(program="", seed=1, most=0), report)
    return report.passed, report.failed


class Today(unittest.TestCase):
    def test_what_is_right_passes(self):
        # five messages, three trees, and four texts that weedle2's rules refuse
        self.assertEqual(ran(), (12, 0))

    def test_another_message_fails(self):
        self.assertEqual(ran(lambda out: out.replace("`attribute` in place", "`stringifier` in place"))[1], 1)
        self.assertEqual(ran(lambda out: re.sub(r":1:1\d: expected", ":1:9: expected", out))[1] > 0, True)

    def test_another_node_fails(self):
        self.assertEqual(ran(lambda out: out.replace("today_attribute_wildcard", "today_attribute_number"))[1], 1)

    def test_a_line_that_is_missing_or_too_many_fails(self):
        self.assertEqual(ran(lambda out: out.replace(LINE, ""))[1], 2)
        self.assertGreater(ran(lambda out: out.replace("^\n", f"^\n{LINE}"))[1], 1)

    def test_what_is_by_hand_is_as_the_rows_have_it(self):
        self.assertEqual([it for it in today.by_hand() if it], [])

    def test_what_is_wrong_by_hand_is_told(self):
        self.assertIsNone(today.wrong_by_hand({"text": "enum E {};", "at": "1:9"}, False))
        for row in ({"text": "enum E {};", "at": "1:8"}, {"text": "enum E {};", "front": "e"}, {"text": "enum E {\"a\"};"}):
            self.assertTrue(today.wrong_by_hand(row, False))
        self.assertTrue(today.wrong_by_hand({"text": "enum E {};"}, True))

    def test_kinds_of_texts(self):
        with mock.patch.object(today.texts, "shallow_folders", lambda: ["worked"]):
            found = dict(today.kinds(Namespace(seed=1, most=3)))
        self.assertEqual(len(found["random by today's rows"]), 3)
        self.assertGreater(len(found["today.toml"]), 300)
        self.assertIn("worked", found)


if __name__ == "__main__":
    unittest.main()
