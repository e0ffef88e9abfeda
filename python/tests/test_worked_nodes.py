"""Nodes of worked texts, by hand from the rows of the grammar, as docs/GRAMMAR.md tells them: of the first texts every node,
with its depth, its rule and its bytes, and of the others the nodes of some rules."""

import unittest

import support  # noqa: F401  (finds the package)
import weedle

# A name with `_`, a comma that no value follows, and a comment behind the last symbol, among others.
WHOLE = {
    "": [(0, "definitions", "")],
    'A includes B;': [
        (0, "definitions", "A includes B;"),
        (1, "definition", "A includes B;"),
        (2, "includes_statement_definition", "A includes B;"),
        (3, "opt_extended_attribute_list", ""),
        (3, "identifier", "A "),
        (4, "trivia", ""),
        (4, "opt_bytes_underscore", ""),
        (4, "identifier_text", "A"),
        (5, "one_of_letter", "A"),
        (5, "run_name", ""),
        (4, "trivia", " "),
        (5, "piece", " "),
        (6, "blanks", " "),
        (7, "one_of_blank", " "),
        (7, "run_blank", ""),
        (3, "includes", "includes "),
        (4, "trivia", ""),
        (4, "bytes_includes", "includes"),
        (4, "not_next_name", ""),
        (4, "trivia", " "),
        (5, "piece", " "),
        (6, "blanks", " "),
        (7, "one_of_blank", " "),
        (7, "run_blank", ""),
        (3, "identifier", "B"),
        (4, "trivia", ""),
        (4, "opt_bytes_underscore", ""),
        (4, "identifier_text", "B"),
        (5, "one_of_letter", "B"),
        (5, "run_name", ""),
        (4, "trivia", ""),
        (3, "semi_colon", ";"),
        (4, "trivia", ""),
        (4, "bytes_semi_colon", ";"),
        (4, "trivia", ""),
    ],
    'enum/**/_E{"a",};//c': [
        (0, "definitions", 'enum/**/_E{"a",};//c'),
        (1, "definition", 'enum/**/_E{"a",};//c'),
        (2, "enum_definition", 'enum/**/_E{"a",};//c'),
        (3, "opt_docstring", ""),
        (3, "opt_extended_attribute_list", ""),
        (3, "enum", "enum/**/"),
        (4, "trivia", ""),
        (4, "bytes_enum", "enum"),
        (4, "not_next_name", ""),
        (4, "trivia", "/**/"),
        (5, "piece", "/**/"),
        (6, "block_comment", "/**/"),
        (7, "bytes_slash_star", "/*"),
        (7, "past_star_slash", "*/"),
        (3, "identifier", "_E"),
        (4, "trivia", ""),
        (4, "opt_bytes_underscore", "_"),
        (5, "bytes_underscore", "_"),
        (4, "identifier_text", "E"),
        (5, "one_of_letter", "E"),
        (5, "run_name", ""),
        (4, "trivia", ""),
        (3, "braced_enum_value_list", '{"a",}'),
        (4, "open_brace", "{"),
        (5, "trivia", ""),
        (5, "bytes_open_brace", "{"),
        (5, "trivia", ""),
        (4, "enum_value_list", '"a",'),
        (5, "list1_enum_variant_comma", '"a"'),
        (6, "enum_variant", '"a"'),
        (7, "opt_docstring", ""),
        (7, "string_lit", '"a"'),
        (8, "trivia", ""),
        (8, "bytes_quote", '"'),
        (8, "run_not_quote", "a"),
        (8, "bytes_quote", '"'),
        (8, "trivia", ""),
        (6, "tail_enum_variant_comma", ""),
        (5, "opt_comma", ","),
        (6, "comma", ","),
        (7, "trivia", ""),
        (7, "bytes_comma", ","),
        (7, "trivia", ""),
        (4, "close_brace", "}"),
        (5, "trivia", ""),
        (5, "bytes_close_brace", "}"),
        (5, "trivia", ""),
        (3, "semi_colon", ";//c"),
        (4, "trivia", ""),
        (4, "bytes_semi_colon", ";"),
        (4, "trivia", "//c"),
        (5, "piece", "//c"),
        (6, "line_comment", "//c"),
        (7, "bytes_slash_slash", "//"),
        (7, "not_next_slash", ""),
        (7, "run_not_line_feed", "c"),
        (7, "line_end", ""),
        (8, "not_next_any", ""),
    ],
}
BY_RULE = {
    "interface A { attribute long x; undefined f(); };\nA includes B; // c\n": {
        "definition": ["interface A { attribute long x; undefined f(); };\n", "A includes B; // c\n"],
        "interface_member": ["attribute long x; ", "undefined f(); "],
        "identifier": ["A ", "x", "f", "A ", "B"],
    },
    # A docstring is no comment; a comment has its LF.
    '///d\n///e\ninterface A {}; // c\n/*b*/enum E {"x"};': {
        "docstring": ["///d\n///e\n"],
        "line_comment": ["// c\n"],
        "block_comment": ["/*b*/"],
    },
    # An extended attribute may have a list of names, arguments, or both; each is tried in this order.
    "[A, B=C, D=(E, F), G(long h), I=J(any k)] typedef long L;": {
        "extended_attribute": ["A", "B=C", "D=(E, F)", "G(long h)", "I=J(any k)"],
        "argument": ["long h", "any k"],
    },
    "typedef sequence<(unsigned long or A?)> T;": {
        "type": ["sequence<(unsigned long or A?)> ", "(unsigned long or A?)"],
        "long_type": ["unsigned long "],
    },
    # A default is read only behind a mark `optional`, the last part of a row with a condition.
    "interface A { void f(optional long a = 1, long b); };": {
        "default": ["= 1"],
        "single_argument": ["optional long a = 1", "long b"],
    },
    "interface A { const long a = -12; const long b = 0x1F; const float c = 1.5e3; };": {
        "dec_lit": ["-12"],
        "hex_lit": ["0x1F"],
        "float_value_lit": ["1.5e3"],
    },
}


class Worked(unittest.TestCase):
    def test_every_node(self):
        for text, wanted in WHOLE.items():
            with self.subTest(text):
                self.assertEqual([(it.depth, it.name, it.text) for it in weedle.syntax(text).walk()], wanted)

    def test_the_nodes_of_a_rule(self):
        for text, rules in BY_RULE.items():
            root = weedle.syntax(text)
            for rule, wanted in rules.items():
                with self.subTest(text, rule=rule):
                    self.assertEqual([it.text for it in root.find(rule)], wanted)

    def test_what_is_left_has_no_nodes(self):
        for text, start in (("A includes B; interface {", 14), ("  ", 0)):
            with self.assertRaises(weedle.Refused) as refused:
                weedle.syntax(text)
            self.assertEqual(refused.exception.start, start)


if __name__ == "__main__":
    unittest.main()
