"""Tests the command lines of all scripts of tools/: `--help`, and writers that are run by hand.

Each script is run in an empty folder, which takes two seconds of processor time.
"""

import ast
import runpy
import subprocess
import sys
import tempfile
import unittest
from contextlib import chdir, redirect_stderr, redirect_stdout
from io import StringIO
from pathlib import Path
from unittest import mock

from shared.command_line import runnable
from shared.crates import TOP
from write.write_all import WRITERS, sources

TOOLS = TOP / "tools"
SCRIPTS = sorted(
    path
    for path in TOOLS.rglob("*.py")
    if '__name__ == "__main__"' in path.read_text(encoding="utf-8") and not path.stem.startswith(("test_", "__"))
)
# By what a script of a room finds all rooms where it is run by its path.
FINDS_ROOMS = "\nif not __package__:\n    sys.path[0] = str(Path(__file__).resolve().parent.parent)\n\n"


def run_script(path, *words):
    """Runs a script as by hand: its status, and what it printed and said of faults."""
    line = [path.name, *words]
    with redirect_stdout(StringIO()) as out, redirect_stderr(StringIO()) as err:
        with mock.patch.object(sys, "argv", line):
            try:
                runpy.run_path(str(path), run_name="__main__")
                status = 0
            except SystemExit as end:
                status = end.code
    return status, out.getvalue(), err.getvalue()


class Scripts(unittest.TestCase):
    def setUp(self):
        """Each runs in an empty folder, and leaves that and the crates as they are."""
        room = self.enterContext(tempfile.TemporaryDirectory())
        self.enterContext(chdir(room))
        before = sources(TOP)
        self.addCleanup(lambda: self.assertEqual(before, sources(TOP)))
        self.addCleanup(lambda: self.assertEqual(list(Path(room).iterdir()), []))

    def test_help_says_what_it_does(self):
        for path in SCRIPTS:
            text = path.read_text(encoding="utf-8")
            about = ast.get_docstring(ast.parse(text)).splitlines()[0]
            self.assertEqual(FINDS_ROOMS in text, path.parent != TOOLS, path)
            status, out, err = run_script(path, "--help")
            self.assertEqual((status, err), (0, ""), path)
            self.assertIn(about, " ".join(out.split()), path)

    def test_help_of_the_script_of_the_shell(self):
        ran = subprocess.run([TOOLS / "try_tests.sh", "--help"], capture_output=True, text=True)
        self.assertEqual((ran.returncode, ran.stderr), (0, ""))
        self.assertTrue(ran.stdout.startswith("Runs the tests of every crate that has some"), ran.stdout)
        self.assertTrue(ran.stdout.endswith("could not be run.\n"), ran.stdout)

    def test_a_writer_by_hand_says_how_it_is_run(self):
        for name in WRITERS:
            status, out, err = run_script(TOOLS / f"write/{name}.py")
            self.assertEqual((status, out), (2, ""), name)
            self.assertTrue(err.startswith(f"{name}.py: nothing is written. `python3 tools/write/write_all.py` runs "), err)


class Programs(unittest.TestCase):
    def test_one_that_is_there(self):
        self.assertEqual(runnable(sys.executable), sys.executable)
