"""Tests write_all.py over made-up files, and the heads of the repository's written files, in seconds."""

import os
import sys
import unittest
from unittest import mock

from shared.command_line import ended
from shared.crates import TOP, Unfit
from shared.test_support import Room, printed, put
from write import write_all

HEAD = b"//! Terminals.\n//!\n//! Written by tools/terminals.py.\n"


class Heads(unittest.TestCase):
    def test_the_script_that_a_head_names(self):
        long = "//! Rules.\n//!\n//! More of them.\n//!\n//! Written by tools/x.py.\n\nuse crate::y;\n"
        of_c = "/*\n * A header.\n *\n * Written by tools/write/x.py.\n */\nint f(void);\n"
        of_python = '"""Types. Written by tools/write/x.py."""\n\nA = 1\n'
        for text in ("-- A law. Written by tools/x.py.\n", long, of_c, of_python):
            self.assertEqual(write_all.writer_in(text), "tools/write/x.py", text)

    def test_only_a_head_counts(self):
        for text in (
            "//! By hand.\n\n\n// as written by tools/x.py\n", "/* By hand. */\n/* Written by tools/x.py. */\n",
            '"""By hand."""\n"""Written by tools/x.py."""\n',
        ):
            self.assertIsNone(write_all.writer_in(text), text)

    def test_each_written_file_of_the_repository_names_its_script_and_is_not_edited_by_hand(self):
        files = write_all.sources(TOP)
        for path, script in write_all.writers(files).items():
            with self.subTest(path):
                said = script.replace("write/", "") if path.startswith("crates/") else script
                head = write_all.HEAD.match(files[path].decode())[0]
                self.assertIn(f"Written by {said}, and not edited by hand.", head)
                self.assertTrue((TOP / script).is_file())


class Copies(Room):
    def copied(self, files):
        """What a copy of a repository of these files holds: files by their paths, and folders."""
        here, there = self.root / "here", self.root / "there"
        put(here, {**files, "crates.txt": b"a:\n", "tools/x.py": b"1"})
        write_all.copy(here, write_all.sources(here), there)
        found = {it.relative_to(there).as_posix(): it for it in there.rglob("*")}
        data = {path: it.read_bytes() for path, it in found.items() if it.is_file()}
        return data, found.keys() - data.keys()

    def test_what_a_check_reads_is_copied(self):
        data, _ = self.copied({"crates/a/src/lib.rt": b"x", "crates/a/out/kept": b"no source"})
        there = {"crates/a/src/lib.rt": b"x", "crates.txt": b"a:\n", "tools/x.py": b"1"}
        self.assertEqual(data, there)

    def test_what_scripts_write_is_left_out_but_for_its_folder(self):
        data, folders = self.copied({"crates/a/src/b/c.rt": HEAD, "crates/a/proofs/D.antt": b"d"})
        self.assertNotIn("crates/a/src/b/c.rt", data)
        self.assertIn("crates/a/proofs/D.antt", data)
        self.assertIn("crates/a/src/b", folders)

    def test_a_header_is_a_source_too(self):
        data, _ = self.copied({"include/a.h": b"by hand", "include/b.h": b"/* Written by tools/write/x.py. */"})
        self.assertIn("include/a.h", data)
        self.assertNotIn("include/b.h", data)

    def test_modules_of_packages_are_sources_and_what_is_made_beside_them_is_none(self):
        of_python, of_rust = b'"""A. Written by tools/write/x.py."""', b"//! A.\n//!\n//! Written by tools/x.py.\n"
        data, _ = self.copied({
            "python/weedle/a.py": of_python, "python/weedle/b.py": b"b", "python/weedle/__pycache__/b.pyc": b"c",
            "rust/src/a.rs": of_rust, "rust/src/b.rs": b"b", "rust/target/debug/build/c.rs": b"c",
        })
        self.assertCountEqual([it for it in data if it.startswith(("python", "rust"))], ["python/weedle/b.py", "rust/src/b.rs"])


# What stands for `rt fmt`: it says where it runs, and adds a line to each file below src.
LAYS_OUT = """#!/bin/sh
test "$1" = fmt || exit 2
pwd >> "$CALLS"
find src -type f | sort | while read -r file; do echo laid >> "$file"; done
"""


class Layouts(Room):
    def laid_out(self, files, anew):
        """The files of a room after it was laid out, and how often `rt` was called."""
        room, calls = self.root / "room", self.root / "calls"
        put(room, {**anew, "crates.txt": b"a:\nb:\nc:\n"})
        self.put({"calls": ""})
        self.put_command("bin/rt", LAYS_OUT)
        path = f"{self.root}/bin{os.pathsep}{os.environ['PATH']}"
        with mock.patch.dict(os.environ, PATH=path, CALLS=str(calls)):
            write_all.lay_out(room, files)
        return write_all.sources(room), len(calls.read_text().splitlines())

    def test_each_crate_with_a_file_that_differs_is_laid_out_as_a_whole(self):
        files = {f"crates/{it}/src/lib.rt": b"x\n" for it in "abc"}
        files["crates/b/proofs/P.antt"] = b"p\n"
        found, calls = self.laid_out(files, {**files, "crates/b/src/lib.rt": b"y\n"})
        laid = {"crates/b/src/lib.rt": b"y\nlaid\n", "crates/b/proofs/P.antt": b"p\nlaid\n"}
        self.assertEqual(found, {**files, **laid})
        self.assertEqual(calls, 1)

    def test_nothing_is_laid_out_where_nothing_differs(self):
        files = {"crates/a/src/lib.rt": b"x\n"}
        self.assertEqual(self.laid_out(files, files), (files, 0))


class Writers(Room):
    def said(self, text, name=None):
        """What is said of a script with this `main`."""
        files = [f"tools/shared/{it}.py" for it in ("command_line", "crates")]
        self.put({it: (TOP / it).read_bytes() for it in files})
        self.put({"tools/write/x.py": text, "tools/shared/y.py": "WORD = 'why'\n"})
        return write_all.call([sys.executable, "-c", write_all.RUN.format("x")], self.root, name)

    def test_each_is_a_script(self):
        for script in write_all.WRITERS:
            self.assertTrue((TOP / f"tools/write/{script}.py").is_file(), script)

    def test_main_is_run_and_not_what_stands_behind_it(self):
        text = "from shared import y\ndef main():\n    print(y.WORD, __name__)\nif __name__ == '__main__':\n    1 / 0\n"
        self.assertEqual(self.said(text), "why write.x\n")

    def test_what_fails_is_told(self):
        for text in ("def main():\n    raise SystemExit('why')\n", "def main():\n    print('why')\n    return 1\n", "why\n"):
            with self.assertRaisesRegex(Unfit, "(?s)failed:.*why"):
                self.said(text)
        with self.assertRaisesRegex(Unfit, r"^tools/write/x\.py failed:\nx: why$"):
            self.said("from shared.crates import Unfit\ndef main():\n    raise Unfit('why')\n", "tools/write/x.py")


class Whole(unittest.TestCase):
    def run_main(self, anew, call):
        """The status and what is printed, where this is written anew and the pages are written by `call`."""
        given = {
            "sources": lambda top: {}, "write_anew": mock.Mock(side_effect=[anew]), "call": call,
            "bring": lambda top, files, anew: ["new a"],
        }
        with mock.patch.multiple(write_all, **given):
            return printed(ended, write_all.main)

    def test_the_pages_follow_what_is_brought(self):
        found = self.run_main({}, lambda words, folder: f"changed {words[1]}\n")
        self.assertEqual(found, (0, "new a\nchanged tools/write/calling.py\nchanged tools/write/man_pages.py\n", ""))

    def test_a_page_that_fails(self):
        found = self.run_main({}, mock.Mock(side_effect=Unfit("why")))
        self.assertEqual(found, (2, "new a\n", "write_all: why\n"))


class Brought(Room):
    def test_what_differs_is_changed_removed_or_new(self):
        files = {f"crates/a/src/{name}.rt": HEAD for name in ("kept", "gone", "other")}
        self.put(files)
        anew = {**files, "crates/a/src/other.rt": b"x", "crates/a/src/b/first.rt": HEAD}
        del anew["crates/a/src/gone.rt"]
        rows = list(write_all.bring(self.root, files, anew))
        there = {it.relative_to(self.root).as_posix(): it.read_bytes() for it in self.root.rglob("*.rt")}
        self.assertEqual(rows, [
            "new crates/a/src/b/first.rt", "removed crates/a/src/gone.rt", "changed crates/a/src/other.rt",
        ])
        self.assertEqual(there, anew)

    def test_nothing_where_all_is_the_same(self):
        self.assertEqual(list(write_all.bring("nowhere", {"a": HEAD}, {"a": HEAD})), [])
