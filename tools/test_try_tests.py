"""Tests try_tests.sh over a made-up repository and a made-up `rt`, in some seconds."""

import os
import re
import subprocess
from pathlib import Path

from shared.test_support import Room

TOOLS = Path(__file__).resolve().parent
PARTS = ("try_tests.sh", "run/try_alone.py", "shared/toolchain.py", "shared/command_line.py", "shared/crates.py")
CRATES = """# NAME: what it stands on
low: memchr
late: low
plain program: low
early: low
"""
# What it prints of a crate stands in its folder.
RT = """#!/bin/sh
[ "$*" = "try --test --seconds 1800" ] || exit 9
cat said
exit "$(cat status)"
"""
CASES = "import sys\nprint('five')\nprint('5 passed, 0 failed')\n"
PASSED = "test a ... ok\ntest result: ok. 3 passed; 0 failed; 0 ignored; 0 filtered out\n"
FAILED = "test a ... FAILED\ntest result: FAILED. 2 passed; 1 failed; 0 ignored; 0 filtered out\n"


class Runs(Room):
    FILES = {f"tools/{name}": (TOOLS / name).read_text() for name in PARTS} | {"tools/run/__main__.py": CASES, "crates.txt": CRATES}

    def setUp(self):
        super().setUp()
        self.put_command("bin/rt", RT)
        for name in ("low", "late", "plain", "early"):
            self.put_crate(name, "" if name in ("low", "plain") else "#[test]\n")

    def put_crate(self, name, source="#[test]\n", said=PASSED, status=0):
        """Puts a crate there, and what rt says of it."""
        files = {"src/below/tests.rt": source, "said": said, "status": f"{status}\n"}
        self.put({f"crates/{name}/{path}": text for path, text in files.items()})

    def ended(self, *words):
        """The status, what is printed but for the seconds, and what is said of faults."""
        env = os.environ | {"PATH": f"{self.root / 'bin'}:{os.environ['PATH']}"}
        script = self.root / "tools/try_tests.sh"
        script.chmod(0o755)
        ran = subprocess.run([script, *words], capture_output=True, text=True, env=env, check=False)
        return ran.returncode, re.sub(r"\d+ s$", "N s", ran.stdout, flags=re.M), ran.stderr

    def test_cases_and_crates_in_the_order_of_crates_txt(self):
        wanted = ("cases: 5 passed, 0 failed, N s\nlate: 3 passed, 0 failed, N s\nearly: 3 passed, 0 failed, N s\n"
                  "11 passed, 0 failed\n")
        self.assertEqual(self.ended("-j", "1"), (0, wanted, ""))

    def test_crates_that_are_named(self):
        wanted = "early: 3 passed, 0 failed, N s\n3 passed, 0 failed\n"
        self.assertEqual(self.ended("early"), (0, wanted, ""))

    def test_all_at_once(self):
        status, out, _ = self.ended("-j", "9")
        self.assertEqual((status, len(out.splitlines()), out.splitlines()[-1]), (0, 4, "11 passed, 0 failed"))

    def test_one_that_fails_is_shown_whole(self):
        self.put_crate("late", said=FAILED, status=1)
        status, out, _ = self.ended("late", "early")
        self.assertEqual((status, out.splitlines()[-1]), (1, "5 passed, 1 failed"))
        self.assertIn("late: 2 passed, 1 failed, N s\ntry_alone.py: this rt", out)
        self.assertIn(FAILED, out)

    def test_one_that_gives_no_count_counts_as_one_failed(self):
        self.put_crate("late", said="error: a slip\n", status=2)
        status, out, _ = self.ended("late")
        self.assertEqual((status, out.splitlines()[-2:]), (1, ["error: a slip", "0 passed, 1 failed"]))

    def test_what_cannot_be_run(self):
        for words in (["none"], ["-j", "0"], ["-k"]):
            status, out, err = self.ended(*words)
            self.assertEqual((status, out, err[:11]), (2, "", "try_tests: "), words)
