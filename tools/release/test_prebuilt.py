"""Tests prebuilt.py over a small made-up library, with a C compiler, in a second."""

import os
import platform
import shutil
import subprocess
import unittest
from unittest import mock

from release import prebuilt
from release.prebuilt import ADDON, ARCHIVE, ASKED, FOLDER, HEADER, PREBUILT, SHARED, SUMS
from shared.crates import TOP, Unfit
from shared.test_support import Room, printed

OTHER = "aarch64-linux"
COMPILER = shutil.which(os.environ.get("CC", "cc"))
ARCHIVER = shutil.which("ar")
KIT, OTHER_KIT = "rattle-kit-1 logic 0a", "rattle-kit-2 logic 0b"
DECLARED = """\
#define WEEDLE_VERSION {version}
struct weedle_answer;
uint32_t weedle_syntax(
    const char *text, size_t length);

/* weedle_gone(1) is no call. */
const char *weedle_rule_name(uint32_t rule);
static inline int weedle_count(void) {{
"""
# In place of js/build.sh, which wants Node.
BUILD_ADDON = f"""#!/bin/sh
echo 'int {', '.join(sorted(ASKED))};' | {COMPILER} -shared -fPIC -x c - -o "$2" -Wl,--version-script="$(dirname "$0")/exports"
"""
CODE = "int weedle_syntax(void) {{ return {number}; }} int weedle_rule_name(void) {{ return 2; }} int rattle_alloc;"


@unittest.skipUnless(COMPILER and ARCHIVER, "there is no C compiler, or no ar")
class PrebuiltTest(Room):
    """A repository with a header of two calls, and an archive that has them."""

    FILES = {"js/exports": "{ global: napi_*; node_api_*; local: *; };"}

    def setUp(self):
        super().setUp()
        self.put_command("c/link_shared.sh", (TOP / "c/link_shared.sh").read_text())
        self.put_command("js/build.sh", BUILD_ADDON)
        self.declare()
        self.archive = self.built("built.a", 1)

    def declare(self, version="0x000a02", more=""):
        self.put({HEADER: DECLARED.format(version=version).replace("static", f"{more}static")})

    def built(self, name, number):
        """An archive of a version of the code."""
        source, made = self.root / "code.c", self.root / "code.o"
        self.put({"code.c": CODE.format(number=number)})
        subprocess.run([COMPILER, "-c", "-fPIC", "-o", made, source], check=True)
        subprocess.run([ARCHIVER, "rcD", self.root / name, made], check=True)
        return self.root / name

    def made(self):
        """The folder, with the pair of that archive."""
        prebuilt.make(self.root, self.archive, KIT)
        return self.root / FOLDER

    def compared(self, archive, kit):
        """The lines of a comparison: what is wrong, and what is printed beside."""
        return printed(lambda: [*prebuilt.compared(self.root, archive, kit)])[:2]


class Made(PrebuiltTest):
    def test_the_pair_and_its_sums(self):
        folder = self.made()
        self.assertEqual((folder / ARCHIVE).read_bytes(), self.archive.read_bytes())
        rows = (folder / SUMS).read_text().splitlines()
        self.assertEqual(rows[:2], ["# weedle 0.10.2", f"# {KIT}"])
        self.assertEqual([*prebuilt.faults(self.root)], [])

    @unittest.skipUnless(shutil.which("sha256sum"), "there is no sha256sum")
    def test_the_sums_are_those_that_sha256sum_reads(self):
        done = subprocess.run(["sha256sum", "-c", SUMS], cwd=self.made(), capture_output=True, text=True, check=True)
        self.assertEqual((done.stdout, done.stderr), (f"{ARCHIVE}: OK\n{SHARED}: OK\n{ADDON}: OK\n", ""))

    def test_the_shared_object_exports_the_calls_alone(self):
        shared = prebuilt.SharedObject((self.made() / SHARED).read_bytes())
        self.assertEqual(shared.exports(), {"weedle_syntax", "weedle_rule_name"})

    def test_the_soname_has_the_first_two_numbers(self):
        shared = prebuilt.SharedObject((self.made() / SHARED).read_bytes())
        self.assertEqual(shared.soname(), "libweedle.so.0.10")
        self.assertEqual(prebuilt.soname_of("1.12.3"), "libweedle.so.1.12")

    def test_a_header_without_a_version(self):
        (self.root / HEADER).write_text("#define WEEDLE_VERSION 11\n")
        words = [self.root / "c/link_shared.sh", self.archive, self.root / "other.so"]
        done = subprocess.run(words, capture_output=True, text=True, check=False)
        self.assertEqual((done.returncode, done.stderr), (1, f"link_shared.sh: {self.root / HEADER} has no version\n"))
        self.assertFalse((self.root / "other.so").exists())

    def test_what_is_missing(self):
        with self.assertRaises(Unfit):
            prebuilt.make(self.root, self.root / "none.a", KIT)
        with self.assertRaises(Unfit):
            prebuilt.make(self.root, self.archive, None)


class Looked(PrebuiltTest):
    def found(self):
        """What is wrong, in one text."""
        return "\n".join(prebuilt.faults(self.root))

    def test_there_is_none(self):
        with self.assertRaises(Unfit) as caught:
            self.found()
        self.assertIn("c/build.sh && python3 tools/release/prebuilt.py --make", str(caught.exception))

    def test_another_version(self):
        self.made()
        self.declare("0x000b00")
        self.assertIn("is of version 0.10.2, and include/weedle.h of 0.11.0", self.found())

    def test_a_file_that_is_another_or_gone(self):
        folder = self.made()
        with open(folder / ARCHIVE, "ab") as file:
            file.write(b" ")
        self.assertIn(f"{FOLDER}/{ARCHIVE} isn't what SUMS has", self.found())
        for name in (SHARED, ADDON):
            (folder / name).unlink()
            self.assertIn(f"there is no {FOLDER}/{name}", self.found())

    def test_a_soname_of_another_version_or_none(self):
        folder = self.made()
        self.declare("0x000b00")
        self.assertIn(f"{FOLDER}/{SHARED} has the soname libweedle.so.0.10, and not libweedle.so.0.11", self.found())
        shutil.copy(folder / ADDON, folder / SHARED)
        self.assertIn(f"{FOLDER}/{SHARED} has no soname, and not libweedle.so.0.11", self.found())

    def test_an_addon_that_node_does_not_load(self):
        folder = self.made()
        shutil.copy(folder / SHARED, folder / ADDON)
        self.assertIn(f"{FOLDER}/{ADDON} exports no napi_register_module_v1", self.found())

    def test_files_for_another_processor(self):
        shutil.copytree(self.made(), self.root / PREBUILT / OTHER)
        machine = platform.machine()
        found = [*prebuilt.faults(self.root, OTHER)]
        self.assertEqual([it.partition(":")[0] for it in found], [
            f"{PREBUILT}/{OTHER}/{SHARED} is for {machine}", f"{PREBUILT}/{OTHER}/{ADDON} is for {machine}",
        ])

    def test_a_call_that_is_not_exported(self):
        self.made()
        self.declare(more="uint32_t weedle_format(void);\n")
        self.assertIn("exports no weedle_format", self.found())

    def test_sums_that_were_written_otherwise(self):
        folder = self.made()
        text = (folder / SUMS).read_text()
        for other in ("", text[2:], text.replace("  ", " ")):
            (folder / SUMS).write_text(other)
            self.assertRaises(Unfit, self.found)


class Compared(PrebuiltTest):
    def test_the_same_bytes(self):
        self.made()
        self.assertEqual(self.compared(self.archive, KIT), ([], ""))

    def test_other_bytes(self):
        self.made()
        found, out = self.compared(self.built("other.a", 3), KIT)
        self.assertEqual((len(found), out), (1, ""))
        self.assertIn("has to be built anew: c/build.sh && python3 tools/release/prebuilt.py --make", found[0])

    def test_another_toolchain_or_none(self):
        self.made()
        for kit, told in ((OTHER_KIT, f"this is {OTHER_KIT}"), (None, "there is no rt on PATH")):
            found, out = self.compared(self.built("other.a", 3), kit)
            self.assertEqual(found, [])
            self.assertEqual(out, f"prebuilt: nothing was compared: {FOLDER} was built by {KIT}, and {told}\n")

    def test_an_archive_that_is_not_there(self):
        self.made()
        found, _ = self.compared(self.root / "none.a", KIT)
        self.assertIn("to compare with: c/build.sh builds it", found[0])


class Targets(PrebuiltTest):
    def test_those_that_have_a_folder(self):
        self.assertEqual(prebuilt.targets_in(self.root), ["x86_64-linux"])
        (self.root / PREBUILT / OTHER).mkdir(parents=True)
        (self.root / PREBUILT / "sparc-linux").mkdir()
        self.assertEqual(prebuilt.targets_in(self.root), ["x86_64-linux", OTHER])

    def test_where_each_is_built(self):
        self.assertEqual(prebuilt.archive_of("x86_64-linux"), "c/out/libweedle.a")
        self.assertEqual(prebuilt.archive_of(OTHER), "c/out/aarch64-linux/libweedle.a")

    def test_the_compiler(self):
        for machine, wanted in (("x86_64", "aarch64-linux-gnu-gcc"), ("aarch64", "mycc")):
            with mock.patch("platform.machine", lambda it=machine: it), mock.patch.dict(os.environ, {"CC": "mycc"}):
                self.assertEqual(prebuilt.compiler_for(OTHER), wanted)

    def test_a_compiler_that_is_not_there(self):
        with mock.patch("release.prebuilt.compiler_for", lambda _: "aarch64-none-gcc"):
            with self.assertRaises(Unfit) as caught:
                prebuilt.make(self.root, self.archive, KIT, OTHER)
        self.assertIn("there is no aarch64-none-gcc to link what is for aarch64-linux; ", str(caught.exception))
        self.assertFalse((self.root / PREBUILT / OTHER).exists())

    def test_another_archive(self):
        shutil.copytree(self.made(), self.root / PREBUILT / OTHER)
        found = [*prebuilt.compared(self.root, self.built("other.a", 3), KIT, OTHER)]
        self.assertEqual(len(found), 1)
        self.assertIn(f"isn't {PREBUILT}/{OTHER}/{ARCHIVE}, which has to be built anew", found[0])


class Headers(unittest.TestCase):
    def test_the_calls_of_the_header(self):
        found = prebuilt.calls_in((TOP / HEADER).read_text(encoding="utf-8"))
        self.assertLessEqual({"weedle_syntax", "weedle_explain", "weedle_format", "weedle_rules"}, found)
        self.assertFalse({it for it in found if it.endswith("_answer")})
        self.assertEqual(prebuilt.calls_in(DECLARED), {"weedle_syntax", "weedle_rule_name"})

    def test_versions(self):
        self.assertEqual(prebuilt.version_in("#define WEEDLE_VERSION 0x01020f\n"), "1.2.15")
