"""Tests slips.py and `run slips` with no program, in a second."""

import subprocess
import unittest
from argparse import Namespace
from unittest import mock

from rows.dialects import TODAY
from run import slips as run_slips
from run.cases import last_line
from run.report import Report
from run.todays import LINE
from shared.test_support import printed
from write import slips as slips_page
from write.slips import Slip, Told, slips


class ByRows:
    """A program that says what the rows say, or of each text what it is given."""

    def __init__(self, said=None):
        self.said = said

    def run(self, words, names=(), room=None, given=b""):
        out = ""
        for name, slip in zip(names, slips()):
            wanted = slip.wanted()
            last = LINE if TODAY.is_whole(slip.text.encode()) else ""
            said = f"{wanted['at']}: {wanted['says']}\n{wanted['shows']}{wanted.get('hint', '')}{last}"
            out += f"{name}:" + (self.said or said)
        return subprocess.CompletedProcess(words, 1, (out + last_line(len(names), len(names))).encode(), b"")


def status_and_last(program):
    report = Report()
    with mock.patch.object(run_slips, "meant", lambda *_: program):
        _, out, _ = printed(run_slips.run, Namespace(program="", is_tried=False), report)
    return int(report.failed > 0), out.split("\n")[-2]


class Slips(unittest.TestCase):
    def test_how_many(self):
        self.assertEqual(len(slips()), 155)
        self.assertEqual(len({slip.text for slip in slips()}), 155)

    def test_each_is_marked_once(self):
        for slip in slips():
            self.assertEqual(slip.line.count(slips_page.MARK), 1, slip.line)
            self.assertNotIn(slips_page.MARK, slip.text)

    def test_what_points_at_a_slip(self):
        slip = Slip("a b\u2038 /* c */ // d\\n e")
        for line, is_at in (("1:4: x", True), ("2:2: x", True), ("1:5: x", True), ("1:3: x", False), ("2:3: x", False), ("x", False)):
            self.assertEqual(slip.is_at(line), is_at, line)

    def test_what_is_counted(self):
        status, last = status_and_last(ByRows())
        self.assertEqual(status, 0)
        self.assertRegex(last, r"^.*: 155 slips, \d+ hints, \d+ of \d+ changes mend, \d+ pointed at$")

    def test_what_is_enough(self):
        for counts, is_so in (((100, 95, 100, 97), True), ((100, 94, 100, 97), False), ((100, 95, 100, 96), False), ((0, 0, 0, 0), True)):
            self.assertEqual(run_slips.is_enough(*counts), is_so, counts)

    def test_what_is_told(self):
        told = Told(b"interface A {\n  attribute long x;; };", 31)
        self.assertTrue(told.has_change and told.mends and told.is_near)
        told = Told(b"A includes B;\n\n\ninterface A { attribute long x; attribute long };", 0)
        self.assertFalse(told.has_change or told.mends or told.is_near)

    def test_a_program_that_says_something_else(self):
        self.assertEqual(status_and_last(ByRows("1:1: expected `;`\nx\n^\n"))[0], 1)

    def test_the_page(self):
        self.assertEqual(slips_page.page(), (slips_page.TOP / slips_page.PAGE).read_text(encoding="utf-8"))
