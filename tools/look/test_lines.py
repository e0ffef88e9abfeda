"""Tests lines.py over a made-up repository, in a second."""

from unittest import mock

from look import lines
from shared.command_line import ended
from shared.test_support import Room, printed

TEXTS = {
    "crates.txt": "low:\nhigh: low\n",
    "crates/low/src/lib.rt": "//! Low.\n\nmod x;\n",
    "crates/low/src/x.rt": "//! X.\n//!\n//! Written by tools/x.py.\n\n",
    "crates/low/specs/Trees.antt": "-- Trees. Written by tools/x.py.\n-- More.\n",
    "crates/low/proofs/a/Answers.antt": "-- A proof.\nx = refl\n\n-- Written by tools/x.py.\n",
    "crates/low/data/a": "x\n",
    "crates/high/src/lib.rt": "//! High.\n",
    "tools/x.py": "pass\npass\n",
    "tools/test_x.py": "pass\n",
}
REPORT = """
                          by hand  by hand  by hand  written  written  written
                             code    specs   proofs     code    specs   proofs
low                             3        0        4        4        2        0
high                            1        0        0        0        0        0
sum                             4        0        4        4        2        0

by hand: 8
written: 6
tools: 3, of which tests 1
"""


class LinesTest(Room):
    def run_main(self):
        """The status, and what is printed of answers and of errors."""
        with mock.patch("sys.argv", ["lines.py", str(self.root)]):
            return printed(ended, lines.main)

    def test_lines_are_counted_by_crate_and_kind(self):
        self.put(TEXTS)
        self.assertEqual(self.run_main(), (0, REPORT[1:], ""))

    def test_a_folder_without_crates_is_refused(self):
        said = f"lines: {self.root} is no repository of crates: it has no crates.txt\n"
        self.assertEqual(self.run_main(), (2, "", said))
