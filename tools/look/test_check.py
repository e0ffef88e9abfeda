"""Tests check.py over made-up files, in a second; the repository itself is not looked at."""

import subprocess
import unittest
from unittest import mock

from look import check
from shared.command_line import ended
from shared.crates import Unfit
from shared.test_support import printed

HEAD = b"//! Terminals.\n//!\n//! Written by tools/terminals.py, and not edited by hand.\n"


class Stale(unittest.TestCase):
    def rows(self, files, anew):
        return list(check.stale_in(files, anew))

    def test_nothing_where_all_is_the_same(self):
        self.assertEqual(self.rows({"a": HEAD, "b": b"x"}, {"a": HEAD, "b": b"x"}), [])

    def test_a_file_that_is_written_otherwise(self):
        rows = self.rows({"a": HEAD}, {"a": HEAD + b"more"})
        self.assertEqual(rows, ["a: stale, tools/write/terminals.py writes it otherwise"])

    def test_a_file_that_no_script_writes_any_more(self):
        rows = self.rows({"a": HEAD}, {})
        self.assertEqual(rows, ["a: no script writes it, though it names tools/write/terminals.py"])

    def test_a_file_that_lacks(self):
        rows = self.rows({}, {"a": HEAD})
        self.assertEqual(rows, ["a: lacking, and written by tools/write/terminals.py"])

    def test_a_file_by_hand_that_a_script_overwrites(self):
        rows = self.rows({"a": b"x"}, {"a": b"y"})
        self.assertEqual(rows, ["a: stale, a script or `rt fmt` has it otherwise"])


def came(status, said="", fault=""):
    return subprocess.CompletedProcess([], status, said, fault)


class Found(unittest.TestCase):
    def run_main(self, anew, *ends):
        """The status and both outputs where this is written anew, and the looks end so."""
        given = {
            "sources": lambda top: {"a": HEAD},
            "write_anew": mock.Mock(side_effect=anew if isinstance(anew, Exception) else [anew]),
            "LOOKS": [[number] for number in range(len(ends))],
            "look": lambda number: ends[number],
        }
        with mock.patch.multiple(check, **given):
            return printed(ended, check.main)

    def test_nothing(self):
        self.assertEqual(self.run_main({"a": HEAD}, came(0, "much"), came(0)), (0, "", ""))

    def test_stale_files_come_first_and_then_each_look_in_its_order(self):
        found = self.run_main({}, *(came(1, f"{it}\n") for it in range(5)))
        rows = ["a: no script writes it, though it names tools/write/terminals.py", *"01234"]
        self.assertEqual(found, (1, "\n".join(rows) + "\n", ""))

    def test_a_look_that_fails_counts_as_found(self):
        self.assertEqual(self.run_main({"a": HEAD}, came(1, "", "why\n")), (1, "\n", "why\n"))

    def test_where_nothing_can_be_written_no_look_is_told(self):
        found = self.run_main(Unfit("why"), came(1, "x", "y"))
        self.assertEqual(found, (2, "", "check: why\n"))
