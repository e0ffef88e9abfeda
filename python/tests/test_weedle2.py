"""Compares the package with weedle2's own answers, value for value.

    WEEDLE2=compare/target/release/compare WEEDLE_FILES=FOLDER python3 -m unittest test_weedle2

WEEDLE2 names the program of compare/, whose README.md says how it is built; without it these tests are
skipped. WEEDLE_FILES names a folder of *.webidl, *.idl and *.widl files, as those of Debian's
librust-web-sys-dev; without it the files are skipped. WEEDLE_TEXTS says how many random texts are read
(2,000 where it isn't set).

Expected is what weedle2 answers: its `Debug` texts, read by tools/shared/tree_json.py. Where the port differs on
purpose, by three rules, it is what the grammar's rows give by tools/rows/table_reader.py, and by the older rules
those have to give weedle2's answer.
"""

import json
import os
import sys
import tempfile
import unittest
from pathlib import Path

import support  # noqa: F401  (finds the package and the scripts)
import weedle
from measure.compare_with_weedle2 import (
    DEPTH, SUFFIXES, Weedle2, answer_by_rows, explanation, worked_texts,
)
from rows.random_texts import Maker
from shared.tree_json import plain

PROGRAM, FOLDER = os.environ.get("WEEDLE2"), os.environ.get("WEEDLE_FILES")
TEXTS, SEED, TOGETHER = int(os.environ.get("WEEDLE_TEXTS", 2_000)), 7, 200
# How the JSON of the package names what weedle2 names otherwise.
RENAMED = {"Type_": "Type", "record_": "record"}


def in_weedle2s_words(value):
    """JSON of the package as weedle2 would have it."""
    if isinstance(value, list):
        return [in_weedle2s_words(it) for it in value]
    if isinstance(value, dict):
        if "RecordTypes" in value:
            return in_weedle2s_words(value["RecordTypes"])
        return {RENAMED.get(name, name): in_weedle2s_words(it) for name, it in value.items()}
    return value


def of_package(text):
    """The values of a text, or the byte from which on it is unread."""
    try:
        definitions = weedle.parse(text)
    except weedle.Refused as refused:
        return refused.start
    return [in_weedle2s_words(json.loads(it.to_json())) for it in definitions]


def of_answer(answer):
    """The same of an answer of the scripts."""
    if answer.values is None:
        return int(answer.lines[-1].rpartition(" ")[2])
    return [plain(it) for it in answer.values]


@unittest.skipUnless(PROGRAM, "WEEDLE2 isn't set")
class Values(unittest.TestCase):
    @classmethod
    def setUpClass(cls):
        sys.setrecursionlimit(DEPTH)

    def assert_alike(self, texts):
        """Compares the answers of texts; how many differ on purpose."""
        on_purpose = 0
        for start in range(0, len(texts), TOGETHER):
            some = texts[start:start + TOGETHER]
            for text, answer in zip(some, answers(some)):
                if of_package(text) != of_answer(answer):
                    self.assert_on_purpose(text, answer)
                    on_purpose += 1
        return on_purpose

    def assert_on_purpose(self, text, answer):
        by_rows = answer_by_rows(text, ())
        self.assertEqual(of_package(text), of_answer(by_rows), text)
        self.assertIsNotNone(explanation(text, by_rows, answer), text)

    def test_texts_of_the_tests(self):
        texts = sorted(set(worked_texts()))
        self.assertGreater(len(texts), 500)
        self.assert_alike(texts)

    def test_random_texts(self):
        maker = Maker(SEED)
        texts = [maker.text() for _ in range(TEXTS)]
        self.assert_alike([*texts, *(maker.near(it) for it in texts)])

    @unittest.skipUnless(FOLDER, "WEEDLE_FILES isn't set")
    def test_real_files(self):
        files = sorted(it for it in Path(FOLDER).rglob("*") if it.suffix in SUFFIXES)
        self.assertTrue(files)
        self.assertEqual(self.assert_alike([it.read_text(encoding="utf-8") for it in files]), 0)


def answers(texts):
    """What weedle2 answers of texts."""
    with tempfile.TemporaryDirectory() as room:
        files = [Path(room, f"{number}.idl") for number in range(len(texts))]
        for file, text in zip(files, texts):
            file.write_bytes(text.encode())
        return Weedle2(PROGRAM).answers(list(map(str, files)))


if __name__ == "__main__":
    unittest.main()
