"""The program `python3 -m weedle` as weedle_check: its runs in tests/runs.toml without an option but `--errors`."""

import sys
import tempfile
import unittest
from pathlib import Path

from support import HOME
from run.worked_runs import runs

# The standard input, and the option that both have.
SHARED = ("-", "--errors")


class AsWeedleCheck(unittest.TestCase):
    """The runs of weedle_check that ask for nothing that Python hasn't, and need no little memory or stack."""

    def test_each_run(self):
        count = 0
        with tempfile.TemporaryDirectory() as room:
            program = Path(room, "weedle")
            program.write_text(f'#!/bin/sh\nPYTHONPATH="{HOME}" exec "{sys.executable}" -m weedle "$@"\n')
            program.chmod(0o755)
            for it in filter(is_for_python, runs()):
                with self.subTest(it.what):
                    self.assertEqual(it.came(str(program)), it.wanted())
                count += 1
        self.assertGreater(count, 20)


def is_for_python(run_):
    """Whether the package answers as weedle_check has to."""
    words = run_.keys.get("arguments", ())
    has_options = any(it.startswith("-") and it not in SHARED for it in words) or run_.keys["status"] == 5
    is_other = has_options or run_.memory or "input_folder" in run_.keys
    return run_.program == "weedle_check" and not is_other and "nests" not in run_.keys.get("stdout", "")


if __name__ == "__main__":
    unittest.main()
