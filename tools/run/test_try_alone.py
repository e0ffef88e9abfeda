"""Tests try_alone.py and shared/toolchain.py with commands `rt` that are made up."""

import os
import subprocess
import sys
from pathlib import Path

from shared import toolchain
from shared.test_support import Room

SCRIPT = Path(__file__).resolve().parent / "try_alone.py"
# A command that prints what it would run, and with which words; its status is how many words there are.
RT = """#!{python} -B
import importlib.util, os, sys
spec = importlib.util.spec_from_file_location("rtlib", os.path.dirname(os.path.realpath(__file__)) + "/rtlib.py")
rtlib = importlib.util.module_from_spec(spec)
spec.loader.exec_module(rtlib)
def main(words):
    return rtlib.Crate().try_unproved(words[1:])
if __name__ == "__main__":
    sys.exit(main(sys.argv[1:]))
"""
RTLIB = """
RATTLE = "the checker"
class Crate:
    def try_unproved(self, words):
        looks_for = "error[reserved-name]"
        print("beside:", RATTLE, "words:", *words, flush=True)
        return len(words)
"""
OTHERS = (
    RTLIB.replace("reserved-name", "another"),
    RTLIB.replace("        return", "        print(RATTLE)\n        return"),
    RTLIB.replace("try_unproved(self, words):", "try_unproved(self, words):\n        return self.other(words)\n    def other(self, words):"),
    RTLIB.replace('"the checker"', "None"),
)


class Tries(Room):
    def put_rt(self, library=RTLIB, command=RT):
        self.put_command("rt", command.format(python=sys.executable))
        self.put({"rtlib.py": library})

    def ended(self, *words):
        """The status, and what is printed on both outputs."""
        env = os.environ | {"PATH": str(self.root)}
        ran = subprocess.run([sys.executable, SCRIPT, *words], capture_output=True, text=True, env=env, check=False)
        return ran.returncode, ran.stdout, ran.stderr

    def test_nothing_is_checked_beside_a_try(self):
        self.put_rt()
        said = self.ended("--test", "--seconds", "5")
        self.assertEqual(said, (3, "beside: true words: --test --seconds 5\n", ""))

    def test_another_command_is_called_as_it_is(self):
        for library in OTHERS:
            self.put_rt(library)
            status, out, err = self.ended("--test")
            self.assertNotIn("beside: true", out, library)
            self.assertIn("words: --test", out, library)
            self.assertEqual((status, err), (1, "try_alone.py: this rt tries otherwise, so it is called as it is\n"), library)

    def test_a_command_that_is_no_python_is_called_as_it_is(self):
        self.put_rt(command="#!/bin/sh\necho so \"$@\"; exit 7\n")
        status, out, err = self.ended("--test")
        self.assertEqual((status, out), (7, "so try --test\n"))
        self.assertIn("called as it is", err)

    def test_there_is_no_command(self):
        self.assertEqual(self.ended("--test"), (2, "", "try_alone.py: there is no command rt on PATH\n"))


class Loaded(Room):
    def test_what_is_no_python_is_not_loaded(self):
        self.assertIsNone(toolchain.load("/bin/true"))
        self.assertIsNone(toolchain.load("/no/such/file"))

    def test_a_command_is_a_module(self):
        file = self.put_command("rt", "def main(words):\n    return len(words)\n")
        self.assertEqual(toolchain.load(file).main(["try"]), 1)
