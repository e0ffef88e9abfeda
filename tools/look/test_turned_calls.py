"""Tests turned_calls.py with no compiler, in no time."""

import subprocess
import tempfile
import unittest
from pathlib import Path
from unittest import mock

from look import turned_calls
from shared.test_support import printed

SAID = "  a call: at most 3 bytes\nroom: ok\nbytes that are asked for: FAILED\n1 passed, 1 failed\n"


class TurnedCallsTest(unittest.TestCase):
    def run_main(self, found: list[str], *words: str) -> tuple[int, list[str]]:
        """The status, and the lines that are printed, where these tests find each call."""
        with mock.patch.object(turned_calls, "found_by", lambda name, room: found):
            status, out, err = printed(turned_calls.main, [*words])
        return status, (out + err).splitlines()

    def test_each_call_is_turned(self) -> None:
        self.assertEqual(len(turned_calls.names()), 3 * 9 + 3 * 3 + 2)
        header = (turned_calls.TOP / "include/weedle.h").read_text(encoding="utf-8")
        for call in turned_calls.CALLS:
            self.assertIn(f"weedle_{call}(", header)

    def test_what_is_found_and_what_is_not(self) -> None:
        self.assertEqual(self.run_main(["room", "hints"], "syntax-twice"),
                         (0, ["syntax-twice: found by room, hints", "1 found, 0 not found"]))
        self.assertEqual(self.run_main([], "syntax-twice"), (1, ["syntax-twice: NOT FOUND", "0 found, 1 not found"]))
        self.assertEqual(self.run_main([])[1][-1], "0 found, 38 not found")
        self.assertEqual(self.run_main([], "syntax-zero"), (2, ["turned_calls: there is no syntax-zero"]))

    def test_tests_that_fail_and_one_that_ends_its_program(self) -> None:
        def run(words: list[Path], **_: object) -> "subprocess.CompletedProcess[str]":
            return subprocess.CompletedProcess(words, 1 if "weedle-" in words[0].name else -11, SAID, "")

        def built(test: str, name: str, room: Path) -> Path:
            program = room / f"{test}-{name}"
            program.touch()
            return program

        with tempfile.TemporaryDirectory() as room, mock.patch.object(turned_calls.subprocess, "run", run), \
             mock.patch.object(turned_calls, "built", built):
            found = turned_calls.found_by("syntax-twice", Path(room))
        self.assertEqual(found, ["bytes that are asked for"] * 2 + ["test_recovery, which ends"])
