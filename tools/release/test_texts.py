"""Tests texts.py, and of make.sh and try.sh what takes no time."""

import hashlib
import shutil
import subprocess
import unittest
from unittest import mock

from release import texts as release_texts
from release.prebuilt import FOLDER, SHARED, SharedObject
from shared.crates import TOP, Unfit
from shared.test_support import Room

CHANGELOG = """\
# What is new

## 0.11.0 (2026-11-30)

Commit `0123456789ab`.

- A [page](docs/PAGE.md), and [another](https://example.org/a).

## 0.1.1 (2026-11-26)

- `## 0.11.0` isn't it.
"""


class Texts(Room):
    def test_the_section_of_a_version(self):
        text = release_texts.section_of(CHANGELOG, "0.11.0")
        self.assertTrue(text.startswith("## 0.11.0 (2026-11-30)\n"))
        self.assertTrue(text.endswith("[another](https://example.org/a).\n"))
        self.assertTrue(release_texts.section_of(CHANGELOG, "0.1.1").endswith("isn't it.\n"))
        self.assertRaises(Unfit, release_texts.section_of, CHANGELOG, "0.1.0")

    def test_links_that_lead_nowhere(self):
        text = release_texts.without_links(release_texts.section_of(CHANGELOG, "0.11.0"))
        self.assertIn("- A page, and [another](https://example.org/a).", text)

    def test_which_glibc_is_wanted(self):
        for names, wanted in (
            (("GLIBC_2.2.5", "GLIBC_2.14", "GLIBC_2.4"), "2.14"), (("GCC_3.0",), None), ((), None),
        ):
            with mock.patch.object(SharedObject, "wants", lambda _, it=names: {"libc.so.6": set(it)}):
                file = SharedObject((TOP / FOLDER / SHARED).read_bytes())
                self.assertEqual(release_texts.glibc_of(file), wanted)

    def test_which_processor_is_wanted(self):
        for processor, wanted in (("x86_64", "x86-64"), ("aarch64", "aarch64")):
            with mock.patch.object(SharedObject, "processor", lambda _, it=processor: it):
                self.assertIn(f": Linux, {wanted}, glibc ", release_texts.wants_of(TOP / FOLDER / SHARED))

    def test_the_sums(self):
        self.put({"b": "b", "a": "a"})
        release_texts.write(self.root, TOP, [TOP / FOLDER / SHARED])
        rows = (self.root / "SUMS").read_text().splitlines()
        heads = [row for row in rows if row.startswith("# ")]
        self.assertRegex(heads[0], r"^# weedle \d+\.\d+\.\d+$")
        self.assertRegex(heads[2], r"^# libweedle\.so: Linux, x86-64, glibc 2\.\d+ or later$")
        self.assertEqual([row.split("  ")[1] for row in rows[len(heads) :]], ["CHANGES.md", "a", "b"])
        self.assertEqual(rows[-1].split()[0], hashlib.sha256(b"b").hexdigest())


@unittest.skipUnless(shutil.which("sh"), "there is no sh")
class Scripts(Room):
    def ran(self, script, *words):
        """The status and what is said on standard error."""
        done = subprocess.run([TOP / "tools/release" / script, *words], capture_output=True, text=True, check=False)
        return done.returncode, done.stderr

    def test_a_folder_with_other_things_stays(self):
        self.put({"mine": "mine"})
        status, said = self.ran("make.sh", "--draft", self.root)
        self.assertEqual(status, 1)
        self.assertIn(f"{self.root} holds other things than a release", said)
        self.assertTrue((self.root / "mine").exists())

    def test_what_is_no_release(self):
        status, said = self.ran("try.sh", self.root)
        self.assertEqual((status, said), (1, "try.sh: usage: tools/release/try.sh FOLDER, and FOLDER has SUMS\n"))

    @unittest.skipUnless(shutil.which("sha256sum"), "there is no sha256sum")
    def test_a_file_that_is_another(self):
        self.put({"a": "a", "SUMS": f"{hashlib.sha256(b'b').hexdigest()}  a\n"})
        status, said = self.ran("try.sh", self.root)
        self.assertEqual(status, 1)
        self.assertTrue(said.endswith("the files aren't those of SUMS\n"), said)
