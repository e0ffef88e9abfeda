"""Texts that are made to be slow or deep, and memory that runs out.

The families are those of tests/families.txt, with what the grammar's rows say of each.
"""

import os
import subprocess
import sys
import threading
import time
import unittest

import support  # (finds the package and the scripts)
import weedle
from run.families import NOT_UTF8, READ, REFUSED, families
from weedle import _library

DEEP = "typedef " + "sequence<" * 10_000 + "long" + ">" * 10_000 + " A;"
# The address space of a process that has little, in bytes.
LITTLE = 256 << 20


# How long a text may take, in seconds of a processor.
MOST_SECONDS = 2.0


class Families(unittest.TestCase):
    def test_each_has_its_answer(self):
        for family in families():
            with self.subTest(family.name):
                text, began = family.text(), time.process_time()
                self.assertEqual(self.said(text), (family.kind, family.rest()))
                self.assertLess(time.process_time() - began, MOST_SECONDS)

    def said(self, text):
        """What is said of a text, and up to which byte it is read or UTF-8."""
        try:
            self.assertGreater(len(weedle.parse(text)), 0)
        except weedle.Refused as refused:
            self.assertIn("\n", str(refused))
            return REFUSED, refused.start
        except UnicodeDecodeError as fault:
            with self.assertRaises(_library.Unread) as raised:
                _library.read_nodes(text)
            self.assertEqual((raised.exception.status, raised.exception.rest), (_library.NOT_UTF8, fault.start))
            return NOT_UTF8, fault.start
        return READ, weedle.syntax(text).span.end


class Deep(unittest.TestCase):
    def test_types_in_one_another(self):
        (one,), (other,) = weedle.parse(DEEP), weedle.parse(DEEP)
        self.assertEqual(repr(one).count("SequenceType("), 10_000)
        self.assertEqual(one.to_json().count('"sequence": "Sequence"'), 10_000)
        self.assertEqual(one, other)
        self.assertEqual(hash(one), hash(other))
        self.assertNotEqual(one, weedle.parse(DEEP.replace("long", "short"))[0])

    def test_going_down_into_them(self):
        (definition,) = weedle.parse(DEEP)
        type_, depth = definition.value.type_.type_, 0
        while type_.value.value.variant == "Sequence":
            type_, depth = type_.value.value.value.type_.generics.body, depth + 1
        self.assertEqual((depth, type_.text), (10_000, "long"))

    def test_a_million_parentheses(self):
        with self.assertRaises(weedle.Refused) as raised:
            weedle.parse(b"typedef " + b"(" * 1_000_000)
        self.assertEqual(raised.exception.start, 0)


class Long(unittest.TestCase):
    def test_blanks(self):
        text = b"typedef long A;" + b" " * 100_000_000
        (definition,) = weedle.parse(text)
        self.assertEqual(definition.span, (0, 15))
        self.assertEqual(definition.text, "typedef long A;")

    def test_a_long_text_costs_what_is_used(self):
        text = "interface A { attribute long x; };\n" * 20_000
        definitions = weedle.parse(text)
        self.assertEqual(len(definitions), 20_000)
        self.assertEqual(definitions[-1].value.identifier.span, (len(text) - 25, len(text) - 24))
        self.assertNotIn("value", vars(definitions[0]))

    def test_no_memory(self):
        done = subprocess.run(
            [sys.executable, "-c", NO_MEMORY], capture_output=True, text=True, check=False,
            env={"PYTHONPATH": str(support.HOME), **environment()},
        )
        self.assertEqual((done.stdout, done.returncode), ("MemoryError\n", 0), done.stderr)


# A gigabyte of nodes doesn't fit into that.
NO_MEMORY = f"""
import resource, weedle
text = b"typedef long A;" * 4_000_000
resource.setrlimit(resource.RLIMIT_AS, ({LITTLE}, {LITTLE}))
try:
    weedle.parse(text)
except MemoryError:
    print("MemoryError")
"""


def environment():
    """The variables that say where the shared object is."""
    return {name: os.environ[name] for name in ("WEEDLE_SO", "PATH") if name in os.environ}


class Threads(unittest.TestCase):
    def test_two_at_once(self):
        texts = ["interface A { attribute long x; };" * 5_000, "enum E { \"a\", \"b\" };" * 5_000]
        expected = [[it.to_json() for it in weedle.parse(text)] for text in texts]
        found = [None, None]

        def read(number):
            for _ in range(3):
                found[number] = [it.to_json() for it in weedle.parse(texts[number])]

        threads = [threading.Thread(target=read, args=(number,)) for number in range(2)]
        for it in threads:
            it.start()
        for it in threads:
            it.join()
        self.assertEqual(found, expected)

    def test_a_tree_that_two_use(self):
        (definition,) = weedle.parse(DEEP)
        found = [None, None]

        def read(number):
            type_ = definition.value.type_.type_
            while type_.value.value.variant == "Sequence":
                type_ = type_.value.value.value.type_.generics.body
            found[number] = type_.text

        threads = [threading.Thread(target=read, args=(number,)) for number in range(2)]
        for it in threads:
            it.start()
        for it in threads:
            it.join()
        self.assertEqual(found, ["long", "long"])


class LittleStack(unittest.TestCase):
    def test_a_deep_text_in_a_thread_with_256_kb(self):
        found = []
        before = threading.stack_size(256 * 1024)
        try:
            thread = threading.Thread(target=lambda: found.append(len(weedle.parse(DEEP))))
            thread.start()
            thread.join()
        finally:
            threading.stack_size(before)
        self.assertEqual(found, [1])


if __name__ == "__main__":
    unittest.main()
