"""Texts laid out: some by hand, as docs/LAYOUT.md has it, and all of tests/ by what has to hold of them.

What is laid out has the values and the comments of the text, and is laid out already.
"""

import random
import sys
import unittest

from support import TOP
import weedle
from measure.compare_with_weedle2 import DEPTH
from shared.case_files import cases_of, folders
from shared.toml_files import loads
from weedle import _formatting

FOLDERS = [name for name in folders() if name != "real"]
# Texts, and how docs/LAYOUT.md lays them out; none where it isn't read whole.
LAYOUTS = loads((TOP / "tests/layouts.toml").read_text())
WORKED, PARTS = LAYOUTS["layout"], [(it["text"], it["laid_out"]) for it in LAYOUTS["partial"]]
# Long texts, and their layouts.
LONG = [
    ("typedef " + 1_001 * "sequence<" + "long" + 1_001 * ">" + " T;\n", None),
    ("A includes B;" + 4_000 * " ", "A includes B;\n"),
    ("A includes B;" + 4_000 * "\n", "A includes B;\n"),
    ("A includes B;" + 4_000 * "\t", "A includes B;\n"),
    ("A includes B;" + 4_000 * "\r\n", "A includes B;\r\n"),
    ("A includes B;\n" + 4_000 * "//\n", None),
    (
        "namespace N{undefined f(long a" + 14_300 * ",long a" + ");};",
        "namespace N {\n  undefined f(\n    long a" + 14_300 * ",\n    long a" + "\n  );\n};\n",
    ),
]

# Texts of whitespace and comments alone, and texts that only look so.
BLANK = [
    "", " ", "\n\n", "\t\r\n", "// a", "// a\n", "/* a */", "/**/", "/***/", " /* a\n */ // b\n//\n", "// \u00e9 */",
]
NOT_BLANK = [
    "/* a", "/*/", "/", "/// a\n", "//// a\n", "// a\n;", "/* a */ x */", "\f", "\ufeff", "\ufeff// a\n", "\0", "/ /",
]


def begins_behind(text):
    """Whether a statement behind a text is the first thing that is read."""
    try:
        (definition,) = weedle.parse(f"{text}\nA includes B;")
    except weedle.Refused:
        return False
    return definition.span.start == len(f"{text}\n".encode())


def said(text):
    """The values of a text, and its comments."""
    return weedle.parse(text), [it.text.rstrip() for it in weedle.syntax(text).comments]


class Formatting(unittest.TestCase):
    def test_worked_texts(self):
        for it in WORKED:
            text, wanted = it["text"], it.get("laid_out")
            with self.subTest(text):
                if wanted is None:
                    self.assertRaises(weedle.Refused, weedle.format, text)
                    continue
                self.assertEqual(weedle.format(text), wanted)
                self.assertEqual(weedle.format(wanted), wanted)
                self.assertEqual(weedle.format(text.encode()), wanted.encode())

    def test_what_is_read_of_a_text(self):
        for text, wanted in PARTS:
            with self.subTest(text):
                self.assertRaises(weedle.Refused, weedle.format, text)
                self.assertEqual(weedle.format(text, partial=True), wanted)
                self.assertEqual(weedle.format(text.encode(), partial=True), wanted.encode())
        self.assertEqual(weedle.format("A  includes B;", partial=True), "A includes B;\n")

    def test_long_texts(self):
        for text, wanted in LONG:
            with self.subTest(text[:20]):
                self.assertEqual(weedle.format(text), wanted or text)

    def test_texts_of_the_cases(self):
        # what is wanted of them, which nests deep too, is read by `json`
        self.addCleanup(sys.setrecursionlimit, sys.getrecursionlimit())
        sys.setrecursionlimit(DEPTH)
        count = 0
        for case in (it for folder in FOLDERS for it in cases_of(folder) if it.is_read):
            with self.subTest(case.name):
                made = weedle.format(case.text)
                self.assertEqual(said(made), said(case.text))
                self.assertEqual(weedle.format(made), made)
            count += 1
        self.assertGreater(count, 3000)

    def test_whitespace_and_comments_alone_stay_as_they_stand(self):
        for text in BLANK:
            with self.subTest(text):
                self.assertEqual(weedle.format(text), text)
                self.assertEqual(weedle.format(text.encode()), text.encode())
        for text in NOT_BLANK:
            with self.subTest(text):
                self.assertRaises(weedle.Refused, weedle.format, text)
        self.assertRaises(UnicodeDecodeError, weedle.format, b"// \xff")

    def test_what_is_blank_by_the_grammar(self):
        signs = ("/", "*", " ", "\n", "\t", "\r", "//", "/*", "*/", "A", ";", "\f", "\0", "\u00e9")
        maker = random.Random(20261129)
        count = 0
        for _ in range(20_000):
            text = "".join(maker.choices(signs, k=maker.randrange(8)))
            is_blank = _formatting.is_blank(text.encode())
            self.assertEqual(is_blank, begins_behind(text), text)
            count += is_blank
        self.assertGreater(count, 2_000)

    def test_what_has_no_layout(self):
        with self.assertRaises(weedle.Refused) as refused:
            weedle.format("interface A {}; foo")
        self.assertEqual(refused.exception.start, 16)
        self.assertRaises(UnicodeDecodeError, weedle.format, b"\xff")
        self.assertRaises(UnicodeEncodeError, weedle.format, "\ud800")
        self.assertRaises(TypeError, weedle.format, 1)


if __name__ == "__main__":
    unittest.main()
