"""How the shared object is found, what is said where it isn't, the room for nodes; and it under valgrind."""

import os
import shutil
import subprocess
import sys
import tempfile
import unittest
from pathlib import Path
from unittest import mock

from support import HOME, TOP
from weedle import _library
from weedle._library import FIELDS, NO_ROOM, READ, VARIABLE, VERSION, _call, place, read_nodes

COMPILER = shutil.which(os.environ.get("CC", "cc"))
VALGRIND = shutil.which(os.environ.get("VALGRIND", "valgrind"))
HOSTILE = TOP / "c/tests/test_hostile.c"
# A shared object of another version.
OTHER = """
#include <stdint.h>
uint32_t weedle_syntax(void) { return 3; }
uint32_t weedle_explain(void) { return 3; }
uint32_t weedle_version(void) { return 0x000399; }
uint32_t weedle_rules(void) { return 1; }
"""
WORDS = "import weedle; print(len(weedle.parse('A includes B;')))"
# Where the package looks.
PLACES = "from weedle import _library; print(_library.place())"


def dense(times):
    """A text with more than two nodes a byte."""
    return b"interface A{" + b"A a();" * times + b"};"


DENSE = dense(2_000)


def run(words, home=HOME, **more):
    """Runs Python with these variables, those that name a shared object left out."""
    others = {name: it for name, it in os.environ.items() if name not in (VARIABLE, "PYTHONPATH")}
    return subprocess.run(
        [sys.executable, "-c", words], capture_output=True, text=True, check=False, cwd=home,
        env={**others, "PYTHONPATH": str(home), **more},
    )


class Found(unittest.TestCase):
    def test_one_that_is_not_there(self):
        done = run(WORDS, WEEDLE_SO="/nowhere/it.so")
        self.assertEqual(done.returncode, 1)
        last = done.stderr.splitlines()[-1]
        self.assertTrue(last.startswith("ImportError: weedle finds no shared object: "), last)
        self.assertIn("/nowhere/it.so, which WEEDLE_SO names", last)
        self.assertIn("python/build.sh", last)

    def test_one_for_another_machine(self):
        with tempfile.TemporaryDirectory() as room:
            other = Path(room, "other.so")
            # The head of a shared object for 64 bits of ARM.
            other.write_bytes(b"\x7fELF\x02\x01\x01" + bytes(9) + b"\x03\0\xb7\0" + bytes(44))
            done = run(WORDS, WEEDLE_SO=str(other))
        last = done.stderr.splitlines()[-1]
        self.assertTrue(last.startswith(f"ImportError: weedle can't load {other}, "), last)
        self.assertIn(f"Linux on {os.uname().machine}", last)

    @unittest.skipUnless(COMPILER, "there is no C compiler")
    def test_another_library(self):
        last = self.built("int nothing;").stderr.splitlines()[-1]
        self.assertIn("isn't weedle's shared object", last)

    @unittest.skipUnless(COMPILER, "there is no C compiler")
    def test_one_of_another_version(self):
        last = self.built(OTHER).stderr.splitlines()[-1]
        self.assertIn(f"has version 0x000399 and 1 rules, and this package {VERSION:#08x}", last)

    def built(self, code):
        """Runs Python with a shared object of this code in C."""
        with tempfile.TemporaryDirectory() as room:
            source, built = Path(room, "other.c"), Path(room, "other.so")
            source.write_text(code)
            subprocess.run([COMPILER, "-shared", "-fPIC", "-o", built, source], check=True)
            return run(WORDS, WEEDLE_SO=str(built))

    def test_the_version_of_the_package(self):
        done = run("import weedle; print(weedle.__version__)", WEEDLE_SO=str(place()))
        numbers = [int(it) for it in done.stdout.split(".")]
        self.assertEqual(VERSION, numbers[0] << 16 | numbers[1] << 8 | numbers[2])


class Looked(unittest.TestCase):
    """A copy of the package without a shared object, and where it looks for one."""

    def setUp(self):
        room = tempfile.TemporaryDirectory()
        self.addCleanup(room.cleanup)
        self.home = Path(room.name, "python")
        self.own = self.home / "weedle/libweedle.so"
        self.prebuilt = Path(room.name, f"prebuilt/{os.uname().machine}-linux/libweedle.so")
        shutil.copytree(HOME / "weedle", self.own.parent, ignore=shutil.ignore_patterns("*.so", "__pycache__"))

    def lay(self, file):
        """Lays the shared object of these tests there."""
        file.parent.mkdir(parents=True, exist_ok=True)
        shutil.copyfile(place(), file)

    def test_there_is_none(self):
        last = run(WORDS, self.home).stderr.splitlines()[-1]
        self.assertIn(f"looked for {self.own} and {self.prebuilt} (WEEDLE_SO isn't set)", last)

    def test_the_one_of_the_repository(self):
        self.lay(self.prebuilt)
        self.assertEqual(run(WORDS, self.home).stdout, "1\n")
        self.assertEqual(run(PLACES, self.home).stdout, f"{self.prebuilt}\n")

    def test_one_for_another_processor_is_none(self):
        self.lay(self.prebuilt.parents[1] / "other-linux/libweedle.so")
        self.assertIn("weedle finds no shared object", run(WORDS, self.home).stderr)

    def test_the_own_one_comes_before_it(self):
        self.lay(self.prebuilt)
        self.lay(self.own)
        self.assertEqual(run(PLACES, self.home).stdout, f"{self.own}\n")

    def test_the_one_that_is_named_comes_first(self):
        self.lay(self.prebuilt)
        self.lay(self.own)
        self.assertEqual(run(PLACES, self.home, WEEDLE_SO=str(place())).stdout, f"{place()}\n")


class Room(unittest.TestCase):
    def test_a_room_that_is_one_node_too_small(self):
        data = b"A includes B;"
        count = len(read_nodes(data)) // len(FIELDS)
        status, room, answer = _call(data, count - 1)
        self.assertEqual((status, answer.count, any(room)), (NO_ROOM, count, False))
        self.assertEqual(_call(data, count)[0], READ)

    def test_a_dense_text_is_read_once(self):
        densest = b"interface A{" + b"A((A)a);" * 2_000 + b"};"
        for data in (dense(1), dense(2_000), densest):
            with mock.patch.object(_library, "_call", wraps=_call) as calls:
                numbers = read_nodes(data)
            self.assertGreater(len(numbers) // len(FIELDS), 2 * len(data))
            self.assertEqual(calls.call_count, 1)
            self.assertEqual(numbers[FIELDS.index("end")], len(data))

    def test_a_text_with_more_nodes_than_there_is_room_for_at_first(self):
        with mock.patch.object(_library, "NODES_A_BYTE", 0), mock.patch.object(_library, "_call", wraps=_call) as calls:
            numbers = read_nodes(DENSE)
        self.assertEqual(calls.call_count, 2)
        self.assertEqual(numbers, read_nodes(DENSE))

    def test_the_nodes_are_counted_where_the_system_grants_no_such_room(self):
        limit = len(DENSE) * _library.NODES_A_BYTE

        def granted(size):
            if size >= limit * _library.NODE_SIZE:
                raise MemoryError
            return bytearray(size)

        with mock.patch.object(_library, "_room", granted):
            numbers = read_nodes(DENSE)
        self.assertEqual(numbers, read_nodes(DENSE))

    def test_no_more_is_held_than_the_nodes_take(self):
        numbers = read_nodes(DENSE)
        self.assertEqual(len(numbers.obj), numbers.nbytes)


@unittest.skipUnless(COMPILER and VALGRIND, "there is no C compiler, or no valgrind")
@unittest.skipUnless(HOSTILE.exists(), "the tests in C aren't here")
class Memory(unittest.TestCase):
    def test_hostile_texts_under_valgrind(self):
        """The tests in C of hostile texts over the shared object, each a hundredth as long."""
        with tempfile.TemporaryDirectory() as room:
            program = Path(room, "hostile")
            subprocess.run(
                [COMPILER, "-std=c11", "-O2", f"-I{TOP / 'include'}", "-o", program, HOSTILE, place().resolve(),
                 "-pthread"],
                check=True,
            )
            # by its soname
            Path(room, f"libweedle.so.{VERSION >> 16}.{VERSION >> 8 & 255}").symlink_to(place().resolve())
            done = subprocess.run(
                [VALGRIND, "-q", "--error-exitcode=1", "--leak-check=full", program, TOP / "tests/families.txt"],
                capture_output=True, text=True, check=False,
                env={**os.environ, "WEEDLE_SMALL": "1", "LD_LIBRARY_PATH": room},
            )
        self.assertEqual((done.returncode, done.stderr), (0, ""))


if __name__ == "__main__":
    unittest.main()
