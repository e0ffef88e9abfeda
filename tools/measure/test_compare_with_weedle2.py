"""Tests compare_with_weedle2.py and what it uses, with no program, in some seconds.

In the place of both programs stand the rows of the grammar: as they are, and as weedle2 has them.
"""

import unittest
from pathlib import Path

from measure import compare_with_weedle2 as comparing
from measure.compare_with_weedle2 import Answer, Comparison, answer_by_rows, explanation, renamed
from rows.ends import CHANGED
from rows.table_reader import Table
from shared.test_support import printed
from shared.tree_json import Held, debug, read

INCLUDES = (
    'IncludesStatement(IncludesStatementDefinition { attributes: None, lhs_identifier: Identifier("A"), '
    'includes: Includes, rhs_identifier: Identifier("B"), semi_colon: SemiColon })'
)
CALLBACK = (
    'Callback(CallbackDefinition { attributes: Some(Bracketed { open_bracket: OpenBracket, body: Punctuated { '
    'list: [NoArgs(ExtendedAttributeNoArgs(Identifier("X")))], separator: Comma }, close_bracket: CloseBracket }), '
    'callback: Callback, identifier: Identifier("C"), assign: Assign, return_type: Type_(Single(NonAny(RecordType('
    'MayBeNull { type_: RecordType { record_: Record, generics: Generics { open_angle: LessThan, body: RecordTypes('
    'DOM(DOMString), Comma, Single(Any(Any))), close_angle: GreaterThan } }, q_mark: Some(QMark) })))), '
    'arguments: ParenthesizedArgumentList { open_paren: OpenParen, body: Punctuated { list: [Single(SingleArgument { '
    'attributes: None, optional: Some(Optional), type_: AttributedType { attributes: None, type_: Single(NonAny('
    'Integer(MayBeNull { type_: LongLong(LongLongType { unsigned: None, long_long: (Long, Long) }), q_mark: None }))) }, '
    'identifier: Identifier("x"), default: Some(Default { assign: Assign, value: Boolean(BooleanLit(true)) }) })], '
    'separator: Comma }, close_paren: CloseParen }, semi_colon: SemiColon })'
)
ENUM = (
    'Enum(EnumDefinition { docstring: Some(Docstring("a\\n b")), attributes: None, enum_: Enum, identifier: '
    'Identifier("E"), values: Braced { open_brace: OpenBrace, body: PunctuatedNonEmpty { list: [EnumVariant { '
    'docstring: None, value: StringLit("c") }], separator: Comma }, close_brace: CloseBrace }, semi_colon: SemiColon })'
)


class BySomeRows:
    """A side that answers by the rows, those of some rules as they were before."""

    def __init__(self, older=()):
        self.older = older

    def answers(self, files):
        return [answer_by_rows(Path(file).read_bytes().decode(), self.older) for file in files]


class Wrong(BySomeRows):
    def answers(self, files):
        return [Answer(["definitions 0"], []) for _ in files]


def compared(texts, weedle2):
    """The counts of a comparison, and what it prints."""
    one = Comparison(BySomeRows(), weedle2)
    _, out, _ = printed(one.add, texts)
    return dict(one.counts), out


class ByRows(unittest.TestCase):
    def test_values(self):
        table = [
            ("A includes B;", INCLUDES),
            ("[X] callback C = record<DOMString, any>? (optional long long x = true);", CALLBACK),
            ('///a\n/// b\nenum E {"c",};', ENUM),
        ]
        for text, value in table:
            end, values = Table().read(text)
            self.assertEqual((end, [debug(it) for it in values]), (len(text), [value]), text)

    def test_the_rest(self):
        for text, end in [("", 0), ("  ", 0), ("A includes B; é", 14), ("A includes B; // é", 19), ("interface 9 {};", 0)]:
            self.assertEqual(Table().read(text)[0], end, text)

    def test_the_rows_as_they_were(self):
        texts = ["interface 9 {};", "interface A { const long B = 0x; };", "A includes B; // c"]
        older = ["a name that begins with a digit", "a hexadecimal number with no digit", "a line comment with no LF"]
        for text, rule in zip(texts, older):
            self.assertNotEqual(answer_by_rows(text, ()), answer_by_rows(text, (rule,)), text)
            for other in set(older) - {rule}:
                self.assertEqual(answer_by_rows(text, ()), answer_by_rows(text, (other,)), text)

    def test_an_answer_has_the_lines_of_the_list(self):
        self.assertEqual(answer_by_rows("A includes B; typedef long C;", ()).lines, ["includes A", "typedef C", "definitions 2"])
        self.assertEqual(answer_by_rows("A includes B; x", ()).lines, ["unread at byte 14"])


class Names(unittest.TestCase):
    def test_what_is_renamed(self):
        was = "Type_(RecordType { record_: Record, body: RecordTypes(A, B), args: ParenthesizedArgumentList { list: [A] } })"
        now = "Type(RecordType { record: Record, body: (A, B), args: Parenthesized { list: [A] } })"
        self.assertEqual(renamed(read(was)), read(now))
        self.assertEqual(renamed(Held("Some", [None])), Held("Some", [None]))


class Compared(unittest.TestCase):
    def test_the_same(self):
        self.assertEqual(compared(["A includes B;", "x", ""], BySomeRows()), ({"read whole": 2, "left": 1}, ""))

    def test_what_differs_on_purpose(self):
        counts, out = compared(["interface 9 {}; // c", "x", "9 includes A;"], BySomeRows(tuple(CHANGED)))
        both = "a name that begins with a digit and a line comment with no LF"
        self.assertEqual((counts, out), ({both: 1, "a name that begins with a digit": 1, "left": 1}, ""))

    def test_what_differs_otherwise(self):
        counts, out = compared(["x"], Wrong())
        self.assertEqual(counts, {"different": 1})
        self.assertIn("DIFFERENT: 'x'", out)

    def test_a_wrong_port_isn_t_explained(self):
        text, wrong = "interface 9 {};", Answer(["unread at byte 3"], None)
        self.assertIsNone(explanation(text, wrong, answer_by_rows(text, tuple(CHANGED))))

    def test_the_strings_of_the_tests(self):
        texts = set(comparing.worked_texts())
        self.assertGreater(len(texts), 500)
        self.assertIn("interface A {};\n// é\nenum E {\"é\"};\n", texts)
