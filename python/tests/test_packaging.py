"""The wheel and the sources of the package, and what is installed of them, with pip and no network.

It takes some seconds.
"""

import email
import importlib.metadata
import os
import shutil
import subprocess
import sys
import tarfile
import tempfile
import unittest
import venv
import zipfile
from pathlib import Path
from unittest import mock

from support import HOME
import build_backend
from shared_object import SharedObject
from weedle._library import VARIABLE, place

VERSION = "0.11.0"
# Those that have a man page.
COMMANDS = ("weedle", "weedle-lint", "weedle-lsp")
WORDS = "import weedle; print(len(weedle.parse('A includes B;')))"
# The lines of copyright of LICENSE, as their owners have them.
OWNERS = (
    "Copyright (c) 2026 the engineers of Nenevanity",
    "Copyright 2018-Present Sharad Chand",
    "Copyright 2022 Jan-Erik Rediger",
    "Copyright (c) 2015 Andrew Gallant",
)
READELF = shutil.which("readelf")
MACHINE = os.uname().machine
PREBUILT = f"prebuilt/{MACHINE}-linux/libweedle.so"
# Where the head of an ELF file has the number of its processor, and the one of 64 bits of ARM.
PROCESSOR, ARM = slice(0x12, 0x14), b"\xb7\0"


def others():
    """The variables that don't say where the package or its shared object is."""
    return {name: it for name, it in os.environ.items() if name not in (VARIABLE, "PYTHONPATH")}


def has_pip():
    """Whether there is a pip that can install into another environment."""
    try:
        major, minor = importlib.metadata.version("pip").split(".")[:2]
    except importlib.metadata.PackageNotFoundError:
        return False
    return (int(major), int(minor)) >= (22, 3)


class InRoom(unittest.TestCase):
    """A folder of its own, where the backend takes the shared object of these tests."""

    def setUp(self):
        room = tempfile.TemporaryDirectory()
        self.addCleanup(room.cleanup)
        self.room = Path(room.name)
        taken = mock.patch.dict(os.environ, {VARIABLE: str(place())})
        taken.start()
        self.addCleanup(taken.stop)

    def assert_is_about(self, said):
        """What a wheel and the sources say of themselves."""
        about = email.message_from_string(said)
        self.assertEqual((about["Name"], about["Version"], about["License"]), ("weedle", VERSION, "MIT"))
        self.assertIn("License :: OSI Approved :: MIT License", about.get_all("Classifier"))
        self.assertEqual(about["Requires-Python"], ">=3.9")
        self.assertTrue(about.get_payload().startswith("# weedle\n"))

    def assert_has_owners(self, license_):
        """The LICENSE has each line of copyright."""
        for line in OWNERS:
            self.assertIn(line, license_)


class Built(InRoom):
    def test_a_wheel(self):
        name = build_backend.build_wheel(self.room)
        self.assertRegex(name, rf"^weedle-{VERSION}-py3-none-manylinux_2_\d+_{MACHINE}\.whl$")
        with zipfile.ZipFile(self.room / name) as wheel:
            self.assertEqual(wheel.read("weedle/libweedle.so"), place().read_bytes())
            info = f"weedle-{VERSION}.dist-info"
            self.assert_is_about(wheel.read(f"{info}/METADATA").decode())
            self.assert_has_owners(wheel.read(f"{info}/licenses/LICENSE").decode())
            commands = wheel.read(f"{info}/entry_points.txt").decode()
            self.assertEqual(commands, "[console_scripts]\nweedle = weedle.__main__:main\n")
            self.assertIn(f"Tag: {name.split('-', 2)[2][:-4]}\n", wheel.read(f"{info}/WHEEL").decode())
            listed = {row.split(",")[0] for row in wheel.read(f"{info}/RECORD").decode().splitlines()}
            self.assertEqual(listed, set(wheel.namelist()))
            modules = {it.relative_to(HOME).as_posix() for it in (HOME / "weedle").rglob("*.py")}
            self.assertLessEqual({*modules, "weedle/py.typed", "weedle/lsp/server.py"}, listed)
            pages = {f"weedle-{VERSION}.data/data/share/man/man1/{it}.1" for it in COMMANDS}
            self.assertEqual({it for it in listed if "/man/" in it}, pages)

    def test_sources(self):
        name = build_backend.build_sdist(self.room)
        self.assertEqual(name, f"weedle-{VERSION}.tar.gz")
        with tarfile.open(self.room / name) as sources:
            sources.extractall(self.room)
        top = self.room / f"weedle-{VERSION}"
        self.assert_is_about((top / "PKG-INFO").read_text(encoding="utf-8"))
        self.assert_has_owners((top / "LICENSE").read_text(encoding="utf-8"))
        self.assertFalse((top / "build.sh").exists())
        self.assertEqual({it.name for it in (top / "man").iterdir()}, {f"{it}.1" for it in COMMANDS})
        done = subprocess.run(
            [sys.executable, "-m", "unittest", "discover", "-s", "tests"], cwd=top, env=others(), capture_output=True,
            text=True, check=False,
        )
        self.assertEqual(done.returncode, 0, done.stderr)
        self.assertRegex(done.stderr, r"Ran [2-9]\d tests")
        done = subprocess.run(
            [sys.executable, "-c", "import build_backend; print(build_backend.build_wheel('..'))"], cwd=top,
            env=others(), capture_output=True, text=True, check=True,
        )
        self.assertTrue((self.room / done.stdout.strip()).exists())

    def test_the_same_files_give_the_same_bytes(self):
        for build in (build_backend.build_wheel, build_backend.build_sdist):
            made = []
            for moment in (1e9, 2e9):
                with mock.patch("time.time", lambda: moment):
                    made.append((self.room / build(self.room)).read_bytes())
            self.assertEqual(*made)

    def test_where_there_is_no_shared_object(self):
        with mock.patch.dict(os.environ, {VARIABLE: ""}), mock.patch.object(build_backend, "HOME", self.room / "here"):
            with self.assertRaises(SystemExit) as caught:
                build_backend.library()
            self.assertIn("here/weedle/libweedle.so", str(caught.exception))
            self.assertIn(PREBUILT, str(caught.exception))
            self.lay(PREBUILT, b"prebuilt")
            self.assertEqual(build_backend.library(), b"prebuilt")

    def lay(self, name, data):
        """Lays a file into the room."""
        (self.room / name).parent.mkdir(parents=True, exist_ok=True)
        (self.room / name).write_bytes(data)

    def test_the_sources_have_those_for_other_processors(self):
        other = "prebuilt/other-linux/libweedle.so"
        with mock.patch.dict(os.environ, {VARIABLE: ""}), mock.patch.object(build_backend, "HOME", self.room / "here"):
            self.lay(PREBUILT, b"this")
            self.lay(other, b"other")
            self.assertEqual(build_backend.others_prebuilt(), {other: b"other"})
            self.lay("here/weedle/libweedle.so", b"own")
            self.assertEqual(build_backend.others_prebuilt(), {})
            # As it is in unpacked sources, on such a processor.
            self.lay(f"here/{PREBUILT}", b"theirs")
            self.assertEqual(build_backend.library(), b"theirs")


class Tags(unittest.TestCase):
    def assert_tag(self, wanted, *names):
        """The tag of a shared object that wants these versions."""
        with mock.patch.object(SharedObject, "wants", lambda _: {"libc.so.6": set(names)}):
            self.assertEqual(build_backend.tag(place().read_bytes()), f"py3-none-{wanted}_{MACHINE}")

    def test_the_newest_version_that_is_wanted(self):
        self.assert_tag("manylinux_2_14", "GLIBC_2.2.5", "GLIBC_2.14")
        self.assert_tag("manylinux_2_34", "GLIBC_2.34", "GLIBC_2.4", "GLIBC_2.14")
        self.assert_tag("manylinux_2_5", "GLIBC_2.2.5")
        self.assert_tag("linux", "GLIBC_2.14", "GCC_3.0")

    def test_the_processor(self):
        data = bytearray(place().read_bytes())
        self.assertEqual(SharedObject(bytes(data)).processor(), MACHINE)
        data[PROCESSOR] = ARM
        with mock.patch.object(SharedObject, "wants", lambda _: {"libc.so.6": {"GLIBC_2.17"}}):
            self.assertEqual(build_backend.tag(bytes(data)), "py3-none-manylinux_2_17_aarch64")
        data[PROCESSOR] = b"\x07\x01"
        self.assertEqual(SharedObject(bytes(data)).processor(), "263")

    def test_what_is_no_shared_object(self):
        for data in (b"", b"!<arch>\n", b"\x7fELF\x01\x01" + bytes(60)):
            self.assertRaises(ValueError, SharedObject, data)

    @unittest.skipUnless(READELF, "there is no readelf")
    def test_the_tables_as_readelf_reads_them(self):
        def said(*words):
            return subprocess.run([READELF, "-W", *words, place()], capture_output=True, text=True, check=True).stdout

        rows = [row.split() for row in said("--dyn-syms").splitlines()]
        symbols = [row for row in rows if len(row) >= 8 and row[0][:-1].isdigit()]
        shared = SharedObject(place().read_bytes())
        self.assertEqual(shared.exports(), {row[7] for row in symbols if row[6] != "UND"})
        wanted = {row[7].partition("@")[2] for row in symbols if row[6] == "UND"} - {""}
        self.assertEqual({it for names in shared.wants().values() for it in names}, wanted)


@unittest.skipUnless(has_pip(), "there is no pip from 22.3 on")
class Installed(InRoom):
    """A virtual environment of its own, and no network."""

    def setUp(self):
        super().setUp()
        self.python = self.room / "bin/python"
        venv.create(self.room)

    def pip(self, *words):
        """Runs pip, which stands in this Python, over that of the environment."""
        subprocess.run(
            [sys.executable, "-m", "pip", "--python", self.python, *words, "--no-index", "--quiet"],
            check=True, env={**others(), VARIABLE: str(place()), "PIP_DISABLE_PIP_VERSION_CHECK": "1"}, cwd=self.room,
        )

    def test_the_folder_is_installed(self):
        self.pip("install", HOME)
        self.assert_works()

    def test_the_top_of_the_repository_is_installed(self):
        if not (HOME.parent / "pyproject.toml").exists():
            self.skipTest("this is no repository")
        self.pip("install", HOME.parent)
        self.assert_works()

    def test_the_folder_is_installed_without_isolation(self):
        self.pip("install", "--no-build-isolation", HOME)
        self.assert_works()

    def test_the_folder_is_installed_in_place(self):
        self.pip("install", "-e", HOME)
        words = [self.python, "-c", "import weedle; print(weedle.__file__)"]
        done = subprocess.run(
            words, capture_output=True, text=True, check=True, env={**others(), VARIABLE: str(place())}, cwd=self.room,
        )
        self.assertEqual(done.stdout, f"{HOME / 'weedle/__init__.py'}\n")

    def test_the_wheel_is_installed_without_the_folder(self):
        self.pip("wheel", HOME)
        (wheel,) = self.room.glob("*.whl")
        self.pip("install", wheel)
        self.assert_works()

    def assert_works(self):
        """What is installed reads a text, and its program too."""
        served = subprocess.run(
            [self.room / "bin/weedle", "lsp"], stdin=subprocess.DEVNULL, capture_output=True, check=False, env=others(),
            cwd=self.room,
        )
        self.assertEqual((served.returncode, served.stderr), (1, b""))
        done = [
            subprocess.run(
                words, input="A includes B;", capture_output=True, text=True, check=False, env=others(), cwd=self.room,
            )
            for words in (
                [self.python, "-c", WORDS], [self.python, "-m", "weedle"], [self.room / "bin/weedle"],
            )
        ]
        self.assertEqual([it.stderr for it in done], ["", "", ""])
        self.assertEqual([it.stdout for it in done], ["1\n", "1 file, 0 refused\n", "1 file, 0 refused\n"])


if __name__ == "__main__":
    unittest.main()
