"""Each request for memory that the library makes, refused in turn: the answer, or a MemoryError, and never a crash.

tools/run/refuse_request.c refuses them, which a C compiler builds.
"""

import json
import os
import shutil
import subprocess
import sys
import tempfile
import unittest

from support import HOME, TOP
from weedle import _library

COMPILER = shutil.which(os.environ.get("CC", "cc"))
# What is read: a statement, what nests so deep that a table is filled, and two texts that are refused.
TEXTS = [
    "A includes B;",
    "typedef " + "sequence<" * 70 + "long" + ">" * 70 + " A;",
    "interface A {};\ninterface B {",
    "A includes B; typedef " + "(" * 70,
]
SAID = ["2:14: expected", "1:93: expected"]
NO_ROOM = ["2:1: unread from here on; memory ran out for more", "1:15: unread from here on; memory ran out for more"]
# Prints, for each text, what comes of it where the first request is refused, the second, and so on to the last.
SWEEP = """
import ctypes, itertools, json, sys, weedle

tool = ctypes.CDLL(None)

def answer(text):
    try:
        value = weedle.parse(text)[0].to_json()
        weedle.format(text)
        return value
    except weedle.Refused as refused:
        return str(refused)
    except MemoryError:
        return "MemoryError"

def sweep(text):
    for number in itertools.count(1):
        tool.refuse_request(ctypes.c_ulong(number))
        found, made = answer(text), tool.requests_made()
        tool.refuse_request(ctypes.c_ulong(0))
        yield found
        if made < number:
            return

print(json.dumps([list(sweep(text)) for text in json.load(sys.stdin)]))
"""


@unittest.skipUnless(COMPILER, "there is no C compiler")
class Requests(unittest.TestCase):
    @classmethod
    def setUpClass(cls):
        with tempfile.TemporaryDirectory() as room:
            tool, source = f"{room}/refuse_request.so", TOP / "tools/run/refuse_request.c"
            subprocess.run([COMPILER, "-O2", "-shared", "-fPIC", "-o", tool, source, "-ldl"], check=True)
            named = _library.place().name
            cls.done = subprocess.run(
                [sys.executable, "-c", SWEEP], input=json.dumps(TEXTS), capture_output=True, text=True, check=False,
                cwd=HOME, env={**os.environ, "LD_PRELOAD": tool, "REFUSED_OBJECT": named},
            )

    def test_each_of_a_text_that_is_read(self):
        self.assertEqual((self.done.returncode, self.done.stderr), (0, ""))
        for found in json.loads(self.done.stdout)[:2]:
            *refused, last = found
            self.assertGreater(len(refused), 1)
            self.assertEqual(set(refused), {"MemoryError"})
            self.assertIn('"', last)

    def test_each_of_a_text_that_is_refused(self):
        self.assertEqual((self.done.returncode, self.done.stderr), (0, ""))
        for found, said, no_room in zip(json.loads(self.done.stdout)[2:], SAID, NO_ROOM):
            self.assertTrue(found[-1].startswith(said), found[-1])
            # Where memory is refused for reading it by today's rules, nothing is said of these.
            self.assertEqual(set(found[:-1]) - {found[-1]}, {"MemoryError", no_room})


if __name__ == "__main__":
    unittest.main()
