"""Tests of the command `run`: what is printed, its status, and its help."""

import subprocess
import sys
import unittest

from run.__main__ import WHAT, main
from run.report import Failure, Report, Wrong
from shared.crates import TOP
from shared.test_support import Room, printed


class Reports(unittest.TestCase):
    def test_what_fails_is_shown_and_counted(self):
        report = Report()
        failures = [None, Failure("a", {"b": 1}, "c"), Wrong("d" * 4_000, "e")]
        _, out, _ = printed(report.add, "texts", 3, failures, ", 1 not read")
        self.assertEqual(printed(report.add, "none", 0, [])[1], "")
        shown = f"FAILED: {'d' * 3_000!r} and 1000 characters more\n  'e'\n"
        self.assertEqual(out, "FAILED: 'a'\n  wanted: '{\"b\":1}'\n  came:   'c'\n" + shown
                         + "texts: 1 passed, 2 failed, 1 not read\n")
        self.assertEqual(printed(report.status), (1, "1 passed, 2 failed\n", ""))

    def test_at_most_ten_are_shown(self):
        _, out, _ = printed(Report().add, "texts", 20, [Wrong("a", "b")] * 20)
        self.assertEqual(out.count("FAILED"), 10)
        self.assertIn("0 passed, 20 failed", out)

    def test_where_nothing_was_run_that_is_no_success(self):
        report = Report()
        self.assertEqual(printed(report.status), (1, "0 passed, 0 failed\n", ""))
        report.passed = 1
        self.assertEqual(printed(report.status)[0], 0)


# A program that reads what nests ten deep, refuses what nests deeper, and dies of what has a union.
DEEP = """#!/bin/sh
read -r text
case "$text" in *or*) kill -9 $$ ;; esac
[ "$(echo "$text" | tr -cd '<' | wc -c)" -le 10 ]
"""


def ended(*words: str) -> tuple[int, str, str]:
    """The status of the command with these arguments, and what is printed on both outputs."""
    def call() -> int:
        try:
            return main([*words])
        except SystemExit as end:
            return end.code
    return printed(call)


class Command(Room):
    def test_how_deep_a_program_reads(self):
        status, out, _ = ended("depth", "--direct", self.put_command("deep", DEEP))
        self.assertEqual(status, 0)
        rows = out.splitlines()
        self.assertEqual(rows[0], "sequences: 1 passed, 0 failed; 10, a deeper one: refused")
        self.assertEqual(rows[4], "unions, each the last member: 1 passed, 0 failed; 0, a deeper one: dies")

    def test_each_says_what_it_does_and_how_it_is_called(self):
        for what in WHAT:
            status, out, _ = ended(what, "--help")
            self.assertEqual(status, 0)
            self.assertIn(f"    python3 tools/run {what}", out)

    def test_a_program_that_is_not_there(self):
        for what in ("depth", "cases", "table", "layouts", "slips", "errors", "memory"):
            status, _, err = ended(what, "./no-such-program")
            self.assertEqual(status, 2, what)
            self.assertIn("./no-such-program is n", err)

    def test_it_runs_from_any_folder(self):
        words = [sys.executable, TOP / "tools/run", "--help"]
        ran = subprocess.run(words, cwd="/", capture_output=True, text=True, check=True)
        self.assertIn("python3 tools/run WHAT", ran.stdout)
