"""Tests vendor.py over small made-up repositories, in a second."""

import hashlib
import json
import shutil
import subprocess
import unittest
from unittest import mock

import vendor
from shared.crates import Unfit
from shared.test_support import Room, put

CHANGELOG = "# What is new\n\n## {} (2026-11-26)\n\n## 0.0.9 (2026-11-01)\n"
SOURCE = {
    "crates.txt": "# NAME: uses\nlow: memchr\nmiddle: low\nweedle: middle low\nrows: weedle\n",
    "CHANGELOG.md": CHANGELOG.format("0.1.0"),
    "LICENSE": "MIT License\n",
    "crates/low/src/lib.rt": "//! Low.\n",
    "crates/low/specs/Lib.antt": "pub mod Rows\n",
    "crates/low/specs/Rows.antt": "rows\n",
    "crates/low/must-fail/turned.edit": "file: src/lib.rt\n",
    "crates/low/out/kept": "made by rt\n",
    "crates/middle/src/lib.rt": "//! Middle.\n",
    "crates/middle/src/deep/part.rt": "//! A part.\n",
    "crates/middle/proofs/Lib.antt": "proofs\n",
    "crates/weedle/src/lib.rt": "//! The library.\n",
    "crates/rows/src/lib.rt": "#[test]\n",
}
COPIED = {f"crates/{it}" for it in (
    "low/src/lib.rt low/specs/Lib.antt low/specs/Rows.antt middle/src/lib.rt middle/src/deep/part.rt "
    "middle/proofs/Lib.antt weedle/LICENSE weedle/src/lib.rt"
).split()}
# The beginnings of both notices, the second as weedle2 5.0.0 has it.
NOTICES = (
    "Copyright (c) 2026 the engineers of Nenevanity\n\nPermission is hereby granted, free of charge",
    "Copyright 2018-Present Sharad Chand\nCopyright 2022 Jan-Erik Rediger\n\nPermission is hereby granted, free of charge",
)
OWN = "# ours\napp: weedle # the program"
LINES = "low: memchr\nmiddle: low\nweedle: middle low\n"


def cut_off(step, left):
    """A step that ends the run where none is left."""

    def cut_step(*words):
        next(left)
        step(*words)

    return cut_step


def files_in(root):
    """The texts of all files but the record, by their paths."""
    files = [file for file in root.rglob("*") if file.is_file()]
    texts = {file.relative_to(root).as_posix(): file.read_text() for file in files}
    texts.pop(vendor.RECORD, None)
    return texts


class VendorTest(Room):
    def setUp(self):
        super().setUp()
        self.source, self.dest = self.root / "source", self.root / "dest"
        put(self.source, SOURCE)
        put(self.dest, {"crates.txt": OWN, "crates/app/src/main.rt": "//! Ours.\n"})

    def vendor(self, **options):
        return vendor.vendor(self.source, self.dest, **options)

    def refused(self):
        """The words of a refusal, which has changed nothing."""
        before = {**files_in(self.dest), vendor.RECORD: self.record_text()}
        with self.assertRaises(Unfit) as caught:
            self.vendor()
        self.assertEqual({**files_in(self.dest), vendor.RECORD: self.record_text()}, before)
        return str(caught.exception)

    def record_text(self):
        file = self.dest / vendor.RECORD
        return file.read_text() if file.exists() else None

    def drop_middle(self):
        """The source goes on without the crate `middle`, in a new version."""
        shutil.rmtree(self.source / "crates/middle")
        lines = "low: memchr\nweedle: low\nrows: weedle\n"
        put(self.source, {"crates.txt": lines, "CHANGELOG.md": CHANGELOG.format("0.2.0")})
        put(self.source, {"crates/low/src/lib.rt": "//! Lower.\n"})

    def assert_is_without_middle(self):
        files = files_in(self.dest)
        wanted = {path for path in COPIED if "middle" not in path}
        self.assertEqual(files.keys(), wanted | {"crates.txt", "crates/app/src/main.rt"})
        self.assertEqual(files["crates/low/src/lib.rt"], "//! Lower.\n")
        self.assertEqual(files["crates.txt"], f"{OWN}\nlow: memchr\nweedle: low\n")
        self.assertFalse((self.dest / "crates/middle").exists())


class Copies(VendorTest):
    def test_a_fresh_copy_has_the_crates_below_and_the_license(self):
        said, is_changed = self.vendor()
        self.assertEqual(said, ["weedle 0.1.0 (no commit): 3 crates, 8 files"])
        self.assertTrue(is_changed)
        files = files_in(self.dest)
        self.assertEqual(files.keys(), COPIED | {"crates.txt", "crates/app/src/main.rt"})
        self.assertEqual(files["crates.txt"], f"{OWN}\n{LINES}")
        self.assertEqual(files["crates/weedle/LICENSE"], "MIT License\n")

    def test_the_license_that_is_copied_has_both_notices(self):
        shutil.copy(vendor.TOP / "LICENSE", self.source)
        self.vendor()
        copied = (self.dest / "crates/weedle/LICENSE").read_text(encoding="utf-8")
        for notice in NOTICES:
            self.assertIn(notice, copied)

    def test_an_empty_repository_is_enough(self):
        shutil.rmtree(self.dest)
        put(self.dest, {"crates.txt": ""})
        self.vendor()
        self.assertEqual(files_in(self.dest).keys(), COPIED | {"crates.txt"})

    def test_the_record_has_version_and_checksums(self):
        self.vendor()
        said = json.loads(self.record_text())
        self.assertEqual(said["version"], "0.1.0 (no commit)")
        self.assertEqual(said["states"][0]["files"].keys(), COPIED)
        for path, checksum in said["states"][0]["files"].items():
            content = (self.dest / path).read_bytes()
            self.assertEqual(hashlib.sha256(content).hexdigest(), checksum)

    @unittest.skipUnless(shutil.which("git"), "git is not there")
    def test_the_commit_is_said_and_marked_where_changes_have_none(self):
        def git(*words):
            who = ("-c", "user.name=a", "-c", "user.email=a@example.org")
            how = {"cwd": self.source, "capture_output": True, "text": True}
            ran = subprocess.run(["git", *who, *words], **how)
            self.assertEqual(ran.returncode, 0, ran.stderr)
            return ran.stdout.strip()

        git("init", "-q")
        git("add", ".")
        git("commit", "-q", "-m", "All")
        commit = git("rev-parse", "--short=12", "HEAD")
        self.assertIn(f"0.1.0 ({commit}): ", self.vendor()[0][0])
        put(self.source, {"crates/low/src/lib.rt": "//! Other.\n"})
        self.assertIn(f"0.1.0 ({commit} with changes): ", self.vendor()[0][0])

    def test_a_second_run_changes_nothing(self):
        self.vendor()
        with mock.patch.object(vendor, "write_file") as written:
            said, is_changed = self.vendor()
        self.assertEqual(said, ["weedle 0.1.0 (no commit): 3 crates, 8 files, none changed"])
        self.assertFalse(is_changed)
        written.assert_not_called()

    def test_a_check_changes_nothing(self):
        before = files_in(self.dest)
        _, is_changed = self.vendor(is_check=True)
        self.assertTrue(is_changed)
        self.assertEqual(files_in(self.dest), before)
        self.assertIsNone(self.record_text())


class Updates(VendorTest):
    def setUp(self):
        super().setUp()
        self.vendor()

    def test_what_changed_is_brought(self):
        new = {"crates/middle/src/lib.rt": "//! Other.\n", "crates/middle/src/new.rt": "//! New.\n"}
        put(self.source, {**new, "CHANGELOG.md": CHANGELOG.format("0.2.0")})
        (self.source / "crates/low/specs/Rows.antt").unlink()
        said, _ = self.vendor()
        head = "weedle 0.1.0 (no commit) to 0.2.0 (no commit): 3 crates, 8 files"
        self.assertEqual(said, [head, "changed low: 1 file", "changed middle: 2 files"])
        files = files_in(self.dest)
        self.assertEqual(files["crates/middle/src/lib.rt"], "//! Other.\n")
        self.assertEqual(files["crates/middle/src/new.rt"], "//! New.\n")
        self.assertNotIn("crates/low/specs/Rows.antt", files)

    def test_a_new_crate_and_its_line_are_added(self):
        lines = SOURCE["crates.txt"].replace("low: memchr", "base:\nlow: base")
        put(self.source, {"crates.txt": lines, "crates/base/src/lib.rt": "//! Base.\n"})
        said, _ = self.vendor()
        self.assertEqual(said[1:], ["added base", "changed low: its line"])
        wanted = f"{OWN}\n{LINES.replace('memchr', 'base')}base:\n"
        self.assertEqual(files_in(self.dest)["crates.txt"], wanted)

    def test_a_crate_that_is_no_more_is_removed(self):
        put(self.dest, {"crates/middle/out/kept": "", "crates/low/out/kept": ""})
        self.drop_middle()
        said, _ = self.vendor()
        wanted = ["changed low: 1 file", "changed weedle: its line", "removed middle"]
        self.assertEqual(said[1:], wanted)
        self.assertTrue((self.dest / "crates/low/out/kept").exists())
        shutil.rmtree(self.dest / "crates/low/out")
        self.assert_is_without_middle()

    def test_a_run_that_is_cut_off_is_repaired_by_the_next(self):
        whole = {"write_file": vendor.write_file, "remove_file": vendor.remove_file}
        before = {**files_in(self.dest), vendor.RECORD: self.record_text()}
        self.drop_middle()
        # It writes the record, removes three files, writes two, and writes the record again.
        for steps in range(7):
            shutil.rmtree(self.dest)
            put(self.dest, before)
            left = iter(range(steps))
            cut = {name: cut_off(step, left) for name, step in whole.items()}
            with mock.patch.multiple(vendor, **cut), self.assertRaises(StopIteration):
                self.vendor()
            self.vendor()
            self.assert_is_without_middle()
            self.assertEqual(self.vendor()[0][0][-12:], "none changed")


class Refusals(VendorTest):
    def test_what_is_no_repository_and_this_one_itself(self):
        (self.dest / "crates.txt").unlink()
        self.assertIn("has no crates.txt", self.refused())
        self.dest = self.source
        self.assertIn("is this repository itself", self.refused())

    def test_another_crate_or_line_of_such_a_name(self):
        put(self.dest, {"crates/low/src/lib.rt": "//! Ours.\n"})
        self.assertIn("has a crate low that isn't from here", self.refused())
        shutil.rmtree(self.dest / "crates/low")
        put(self.dest, {"crates.txt": "middle:\n"})
        self.assertIn("has a crate middle that isn't from here", self.refused())

    def test_files_changed_added_or_removed_by_hand(self):
        self.vendor()
        put(self.dest, {"crates/low/src/lib.rt": "mine", "crates/middle/src/mine.rt": "mine"})
        (self.dest / "crates/middle/proofs/Lib.antt").unlink()
        rows = [row.strip() for row in self.refused().splitlines()[1:]]
        removed, added = "removed crates/middle/proofs/Lib.antt", "added crates/middle/src/mine.rt"
        self.assertEqual(rows, ["changed crates/low/src/lib.rt", removed, added])

    def test_a_file_added_by_hand_to_a_crate_that_is_no_more(self):
        self.vendor()
        put(self.dest, {"crates/middle/notes.md": "mine"})
        self.drop_middle()
        self.assertIn("added crates/middle/notes.md", self.refused())

    def test_a_line_changed_by_hand(self):
        self.vendor()
        text = (self.dest / "crates.txt").read_text().replace("middle: low", "middle: low memchr")
        put(self.dest, {"crates.txt": text})
        self.assertIn("changed crates.txt: middle: low memchr", self.refused())
