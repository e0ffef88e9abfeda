"""Tests man_pages.py: what it makes of help, and that troff has nothing to say of the pages."""

import shutil
import subprocess
import unittest

from shared.crates import TOP
from shared.test_support import Room
from write import man_pages
from write.man_pages import FOLDER, PROGRAMS, PYTHON, escaped, help_of, marked, page_of

GROFF = shutil.which("groff")
OF_A_PROGRAM = """\
usage: check [--tree] [FILE..]

Says of each file what it is.
Without a file, or for `-`, it reads.

  --tree    prints
            it all
  --help    prints this

Without an option it does more.

Status: 0 all is read, 1 something is refused, or would change, 2 a file
isn't UTF-8, 5 other arguments than these."""
OF_ARGPARSE = """\
usage: it [-h] [--a-very-long-option WORD]
          FILE [FILE ...]

Does it.

positional arguments:
  FILE                  files

optional arguments:
  -h, --help            show this
  --a-very-long-option WORD
                        what stands below

More. The status is 0 where all is well, 1 where nothing is, and 2 where there is no file.
"""


class Helps(unittest.TestCase):
    def test_of_a_program(self):
        said = help_of(OF_A_PROGRAM)
        self.assertEqual(said.usage, "check [--tree] [FILE..]")
        self.assertEqual(said.about, ["Says of each file what it is. Without a file, or for `-`, it reads."])
        self.assertEqual(said.options, [("--tree", "prints it all"), ("--help", "prints this")])
        self.assertEqual(said.more, ["Without an option it does more."])
        statuses = ["all is read", "something is refused, or would change", "a file isn't UTF-8", "other arguments than these"]
        self.assertEqual(said.statuses, list(zip("0125", statuses)))

    def test_of_argparse(self):
        said = help_of(OF_ARGPARSE)
        self.assertEqual(said.usage, "it [-h] [--a-very-long-option WORD] FILE [FILE ...]")
        options = [("FILE", "files"), ("-h, --help", "show this"), ("--a-very-long-option WORD", "what stands below")]
        self.assertEqual((said.about, said.options, said.more), (["Does it."], options, ["More."]))
        self.assertEqual(said.statuses, list(zip("012", ["all is well", "nothing is", "there is no file"])))


class Pages(unittest.TestCase):
    def test_what_is_marked(self):
        self.assertEqual(marked("a `b-c` --de FILE, f-g"), "a \\fBb\\-c\\fR \\fB\\-\\-de\\fR \\fIFILE\\fR, f\\-g")
        self.assertEqual(marked(".. so"), "\\&.. so")
        self.assertEqual(escaped("a\\b~^"), "a\\eb\\(ti\\(ha")

    def test_the_sections(self):
        rows = page_of("check", OF_A_PROGRAM, "1.2.3", "2026-01-02").splitlines()
        self.assertEqual(rows[1], '.TH CHECK 1 2026-01-02 "weedle 1.2.3" "User Commands"')
        heads = [row[4:] for row in rows if row.startswith(".SH ")]
        self.assertEqual(heads, ["NAME", "SYNOPSIS", "DESCRIPTION", "OPTIONS", "EXIT STATUS", "SEE ALSO"])
        self.assertEqual(rows[rows.index(".SH NAME") + 1], "check \\- says of each file what it is")

    def test_each_command_has_one(self):
        there = {it.name for it in (TOP / FOLDER).iterdir()}
        self.assertEqual(there, {f"{name}.1" for name in (*PYTHON, *PROGRAMS)})

    @unittest.skipUnless(GROFF, "there is no groff")
    def test_troff_warns_of_nothing(self):
        for page in sorted((TOP / FOLDER).iterdir()):
            done = subprocess.run([GROFF, "-ww", "-man", "-Tutf8", page], capture_output=True, text=True, check=False)
            self.assertEqual((done.returncode, done.stderr), (0, ""), page)


class Written(Room):
    def test_what_is_stale_is_written(self):
        self.patch(man_pages, pages=lambda _: iter([("man/a.1", "x\n"), ("man/b.1", None)]))
        left = "man/b.1: left as it is, since the Python package can't be loaded: build the library anew"
        self.assertEqual([*man_pages.look(self.root, True)], ["man/a.1: stale, tools/write/write_all.py writes it", left])
        self.assertFalse((self.root / FOLDER).exists())
        self.assertEqual([*man_pages.look(self.root, False)], ["changed man/a.1", left])
        self.assertEqual([*man_pages.look(self.root, True)], [left])

    def test_a_package_that_cannot_be_loaded(self):
        self.put({"python/it/__main__.py": "raise ImportError('another version')"})
        self.assertIsNone(man_pages.said_by_python(self.root, ["it"]))
        self.put({"python/it/__main__.py": "1 / 0"})
        self.assertRaises(man_pages.Unfit, man_pages.said_by_python, self.root, ["it"])
