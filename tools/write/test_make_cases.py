"""Tests make_cases.py and what it uses, with no program, in some seconds."""

import unittest
from unittest import mock

from rows.words import position, sentence
from shared.case_files import INDEX, Case, archive_of, cases_of, compact, folders, numbered, packed, unpacked, wrong_sums
from shared.test_support import Room
from write import make_cases
from write.make_cases import (
    Disagree, cases_anew, excerpt, real_cases, stale, sum_of, unlike, wanted_of, with_rows_again, without_text, worked,
)


class Words(unittest.TestCase):
    def test_sentences(self):
        self.assertEqual(sentence(["a"]), "expected a")
        self.assertEqual(sentence(["a", "b"]), "expected a or b")
        self.assertEqual(sentence(list("abcdef")), "expected a, b, c, d, e or f")
        self.assertEqual(sentence(list("abcdefgh")), "expected a, b, c, d, e, f or 2 more")

    def test_positions(self):
        table = [("", 0, (1, 1)), ("\n", 1, (2, 1)), ("a\né b", 5, (2, 3))]
        self.assertEqual([position(text, place) for text, place, _ in table], [it for *_, it in table])

    def test_excerpts(self):
        digits, hidden = "0123456789" * 30, "\u00a0" * 100
        table = [
            ("a\tb\x01\ufeff?", 7, "a\tbU+0001U+FEFF?\n \t" + " " * 13 + "^\n"),
            ("a\r\nb\r\n", 4, "b\n ^\n"), ("a\n", 2, "\n^\n"),
            (digits, 49, digits[:100] + "\n" + " " * 49 + "^\n"),
            (digits, 250, digits[:100] + "\n" + " " * 50 + "^\n"),
            (digits, 260, digits[:100] + "\n" + " " * 60 + "^\n"),
            (digits, 300, digits[:100] + "\n" + " " * 100 + "^\n"),
            (hidden, 0, "U+00A0" * 16 + "\n^\n"),
            (hidden + "?", 200, "U+00A0" * 16 + "?\n" + " " * 96 + "^\n"),
        ]
        for text, place, shown in table:
            self.assertEqual(excerpt(text, place), shown, (text, place))


class Wanted(unittest.TestCase):
    def test_a_text_that_is_read(self):
        self.assertEqual(wanted_of("\n A includes B;"), {
            "by": "the grammar's rows", "list": ["includes A"], "at": ["2:2"],
            "value": [{"IncludesStatement": {
                "attributes": None, "lhs_identifier": {"Identifier": "A"}, "includes": "Includes",
                "rhs_identifier": {"Identifier": "B"}, "semi_colon": "SemiColon"}}],
        })

    def test_a_text_that_is_refused(self):
        self.assertEqual(wanted_of("A includes B; foo"), {
            "by": "the grammar's rows", "rest": 14, "place": 17, "at": "1:18",
            "says": "expected `includes` or `implements`", "shows": "A includes B; foo\n                 ^\n",
        })

    def test_what_would_mend_it(self):
        self.assertEqual(wanted_of("\ufeffA includes B;")["hint"], "1:1: a byte order mark\n")
        self.assertEqual(wanted_of("A includs B;")["hint"], "1:3: `includes` in place of `includs`?\n")

    def test_what_the_rows_say_is_made_again(self):
        for text in ("A includes B; foo", "A includs B;", "A includes B;"):
            for kept in (text, None):
                wanted = wanted_of(text) if kept else without_text(text, wanted_of(text))
                older = {name: it for name, it in wanted.items() if name in ("by", "rest", "bytes", "sum")}
                case = Case("a", kept, older if "rest" in wanted else wanted)
                self.assertEqual(with_rows_again(case, text).wanted, wanted)

    def test_of_a_real_file_no_text_is_kept(self):
        text = "interface Zebra {};"
        kept = compact(without_text(text, wanted_of(text)))
        self.assertNotIn("Zebra", kept)
        self.assertIn('"bytes":19', kept)

    def test_a_real_file_is_the_one_that_is_known(self):
        for text, is_known in (("A includes B;", True), ("A includes B; ", False)):
            case = Case("a", None, {"by": "weedle2", "sum": sum_of("A includes B;")})
            with mock.patch.object(make_cases, "cases_of", lambda _: [case]), \
                    mock.patch.object(make_cases, "texts_of_real", lambda _: {"a": text}):
                if is_known:
                    self.assertEqual(list(real_cases("folder")), [case])
                else:
                    with self.assertRaisesRegex(Disagree, "a isn't the file that is known"):
                        list(real_cases("folder"))


class ByHand(unittest.TestCase):
    def test_the_rows_say_what_is_known_by_hand(self):
        cases = [Case("", text, wanted_of(text)) for text, _ in worked() if len(text) < 300]
        self.assertEqual(list(unlike(cases)), [])
        self.assertEqual([sum(key in known for _, known in worked()) for key in ("says", "hint")], [40, 63])

    def test_what_is_otherwise(self):
        text, known = next((text, known) for text, known in worked() if "says" in known)
        wanted = wanted_of(text) | {"says": "expected foo"}
        self.assertEqual([*unlike([Case("", text, wanted)])], [f"says of {text!r} isn't as tests/worked.toml has it, but 'expected foo'"])
        text, known = next((text, known) for text, known in worked() if "value" in known)
        wanted = wanted_of(text) | {"value": []}
        self.assertEqual(len([*unlike([Case("", text, wanted)])]), len(known["value"]))


class Archives(Room):
    CASES = numbered([("é\n", {"by": "weedle2", "rest": 0}), ("", {"by": "weedle2", "value": []})])

    def test_what_is_packed_is_unpacked(self):
        for cases in (self.CASES, [Case("a", None, {"by": "weedle2"})]):
            content = packed(cases)
            self.assertEqual(packed(cases), content)
            found = [(case.name, case.text, case.wanted) for case in unpacked(content)]
            self.assertEqual(found, [(case.name, case.text, case.wanted) for case in cases])
        self.assertEqual([case.is_read for case in self.CASES], [False, True])

    def test_texts_that_weedle2_is_not_asked_of(self):
        self.put({"added.txt": "# A note.\nA includes B;\n\\n A includes B;\n"})
        make_cases.write(self.root, {})
        self.assertEqual(len(list(stale(self.root))), 1)
        cases = cases_anew("added", self.root)
        self.assertEqual([case.wanted["at"] for case in cases], [["1:1"], ["2:2"]])
        make_cases.write(self.root, {"added": cases})
        self.assertEqual(list(stale(self.root)), [])
        (self.root / "added.txt").unlink()
        make_cases.write(self.root, {})
        self.assertEqual((folders(self.root), list(stale(self.root))), ([], []))

    def test_an_archive_that_is_not_made_stays(self):
        for folder in ("a", "real"):
            make_cases.write(self.root, {folder: self.CASES})
        self.assertEqual(folders(self.root), ["a", "real"])
        self.assertEqual(list(wrong_sums(self.root)), [])

    def test_what_is_stale(self):
        text = next(text for text, known in worked() if known == {"rest": 0})
        make_cases.write(self.root, {"worked": numbered([(text, {"by": "weedle2", "rest": 99})])})
        self.assertEqual(list(stale(self.root)), [f"tests/worked.tar.xz: rest of {text!r} isn't as tests/worked.toml has it, but 99"])
        make_cases.write(self.root, {"a": self.CASES, "b": self.CASES})
        self.put({archive_of("a"): packed(self.CASES[:1]), archive_of("c"): b""})
        (self.root / archive_of("b")).unlink()
        self.assertEqual(list(wrong_sums(self.root)), [
            f"tests/a.tar.xz: not what tests/{INDEX} lists", f"tests/b.tar.xz: lacking, and listed in tests/{INDEX}",
            f"tests/c.tar.xz: not what tests/{INDEX} lists",
        ])

    def test_those_of_this_repository(self):
        self.assertEqual(list(wrong_sums()), [])
        self.assertEqual(len(cases_of("worked")), 102)
