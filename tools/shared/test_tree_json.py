"""Tests tree_json.py, in a second."""

import unittest

from shared.tree_json import NoTree, debug, definition_of, plain, read

INCLUDES = (
    'IncludesStatement(IncludesStatementDefinition { attributes: None, lhs_identifier: Identifier("A"), '
    'includes: Includes, rhs_identifier: Identifier("B"), semi_colon: SemiColon })'
)


class Values(unittest.TestCase):
    def test_a_value_of_each_sort(self):
        table = [
            ("OpenBrace", "OpenBrace"),
            ("None", None),
            ("Some(QMark)", "QMark"),
            ('Some(Identifier("A"))', {"Identifier": "A"}),
            ("BooleanLit(true)", {"BooleanLit": True}),
            ("[]", []),
            ("[Or, Comma]", ["Or", "Comma"]),
            ("(Long, Long)", ["Long", "Long"]),
            ("RecordTypes(Byte(ByteString), Comma, Any(Any))",
             {"RecordTypes": [{"Byte": "ByteString"}, "Comma", {"Any": "Any"}]}),
            ("LongType { unsigned: None, long: Long }", {"unsigned": None, "long": "Long"}),
            ("Empty { }", {}),
            ("12", 12),
            ("-1.5", -1.5),
            ('""', ""),
        ]
        for text, value in table:
            self.assertEqual(plain(read(text)), value, text)

    def test_a_string_is_what_it_says(self):
        table = [
            (r'"a\nb\tc\r\0"', "a\nb\tc\r\0"),
            (r'"\\\"\'"', "\\\"'"),
            (r'"\u{feff}é\u{1f600}"', "\ufeffé\U0001f600"),
            ('"), [{ }"', "), [{ }"),
        ]
        for text, value in table:
            self.assertEqual(read(text), value, text)

    def test_a_definition(self):
        fields = {"attributes": None, "lhs_identifier": {"Identifier": "A"}, "includes": "Includes",
                  "rhs_identifier": {"Identifier": "B"}, "semi_colon": "SemiColon"}
        self.assertEqual(plain(read(INCLUDES)), {"IncludesStatement": fields})

    def test_names_count_where_values_are_compared(self):
        self.assertEqual(read("A { b: C }"), read("A { b: C }"))
        for other in ("D { b: C }", "A { b: D }", "A { c: C }", "A(C)", "C", "(C)"):
            self.assertNotEqual(read("A { b: C }"), read(other), other)

    def test_a_value_as_its_text_again(self):
        texts = ["RecordTypes(Byte(ByteString), (Long, Long), Some(QMark))", r'[StringLit("a\"\\b\nc"), BooleanLit(true), None, 1]']
        for text in [INCLUDES, *texts]:
            self.assertEqual(debug(read(text)), text)

    def test_no_debug_text(self):
        for text in ("", "A {", "A { b }", "A { b: C, b: C }", "A(B", "[A B]", "A B", '"a', "?"):
            with self.assertRaises(NoTree, msg=text):
                read(text)


class Lines(unittest.TestCase):
    def test_the_lines_that_hold_definitions(self):
        self.assertEqual(definition_of(f"3:1 {INCLUDES}"), INCLUDES)
        self.assertEqual(definition_of(f"  {INCLUDES}"), INCLUDES)
        for line in ("", "== a.webidl", "includes A", "definitions 1", "unread at byte 3", INCLUDES,
                     "a.webidl:1:4: expected `;`", "1 files, 0 refused"):
            self.assertIsNone(definition_of(line), line)
