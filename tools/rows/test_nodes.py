"""Tests of tools/rows/nodes.py: nodes by hand, from the rows of docs/GRAMMAR.md."""

import unittest

from rows.nodes import nodes_of, printed

ENUM = """\
definitions 0..12
  definition 0..12
    enum_definition 0..12
"""


class TestNodes(unittest.TestCase):
    def test_no_byte_is_one_leaf(self):
        self.assertEqual(nodes_of(b""), [(0, "definitions", 0, 0, b"")])

    def test_nodes_stand_in_preorder_with_their_bytes(self):
        nodes = nodes_of(b'enum E{"a"};')
        self.assertEqual(nodes[:3], printed(ENUM.splitlines()))
        words = [(name, leaf) for _, name, _, _, leaf in nodes if leaf]
        self.assertEqual(words, [
            ("bytes_enum", b"enum"), ("one_of_blank", b" "), ("one_of_letter", b"E"), ("bytes_open_brace", b"{"),
            ("bytes_quote", b'"'), ("run_not_quote", b"a"), ("bytes_quote", b'"'), ("bytes_close_brace", b"}"),
            ("bytes_semi_colon", b";"),
        ])

    def test_the_leaves_are_the_text(self):
        text = "/* \u00e9 */ [A] interface B : C { readonly attribute (long or D)? e; }; // f".encode()
        self.assertEqual(b"".join(node[4] or b"" for node in nodes_of(text)), text)

    def test_a_line_says_a_node(self):
        self.assertEqual(printed(['    bytes_lf 3..4 "\\n"', "x"]), [(2, "bytes_lf", 3, 4, b"\n"), "x"])
