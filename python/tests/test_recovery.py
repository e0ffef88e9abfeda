"""All errors of a text, and what is read beside them. Expected is what docs/RECOVERY.md says, by hand."""

import copy
import pickle
import subprocess
import sys
import tempfile
import unittest
from pathlib import Path
from unittest import mock

import support  # noqa: F401  (finds the package)
import weedle
from test_program import environment, run
from test_values import read_texts
from weedle import _library
from weedle.common import Identifier
from weedle.errors import Hint

# Two members of an interface are wrong, and so are an enum and a definition of none of the kinds.
TEXT = """\
interface A {
  atribute long x;
  attribute long y;
  long z;
};
enum Kind { "é" "b" };
typedef long T;
foo;
A includes B;
"""
# Line, column, words, the kind of the hint, and what it speaks of.
ERRORS = [
    (2, 17, ["`(`"], Hint.KEYWORD, "atribute"),
    (4, 9, ["`(`"], None, None),
    (6, 17, ["`}`", "`,`"], Hint.MISSING, ""),
]


class Recovered(unittest.TestCase):
    def test_parts_are_the_text(self):
        for text in (TEXT, TEXT.encode(), "", "foo", "// a"):
            found = weedle.recover(text)
            whole = text if isinstance(text, str) else text.decode()
            self.assertEqual("".join(it.text for it in found.parts), whole)
            self.assertEqual(found.text, whole)

    def test_each_part_that_is_read_is_read_alone(self):
        for it in weedle.recover(TEXT).parts:
            self.assertEqual((it.node is None, it.refusal is None), (not it.is_read, it.is_read))
            if it.node:
                alone = weedle.syntax(it.text, it.rule)
                self.assertEqual(it.node.text, it.text)
                self.assertEqual((it.node.name, it.node.depth), (it.rule, 0))
                self.assertEqual([n.name for n in it.node.walk()], [n.name for n in alone.walk()])
                self.assertEqual(it.value, alone.value)

    def test_errors(self):
        found = weedle.recover(TEXT)
        for it, (line, column, words, kind, said) in zip(found.errors, ERRORS):
            self.assertEqual((it.line, it.column, it.words, it.hint_kind), (line, column, words, kind), str(it))
            self.assertEqual(it.expected, " or ".join(words))
            start, end = it.hint_span or (0, 0)
            self.assertEqual(TEXT.encode()[start:end].decode() if it.hint_span else None, said)
            self.assertTrue(str(it).startswith(f"{line}:{column}: expected {it.expected}\n"), str(it))
        self.assertEqual(len(found.errors), 4)
        self.assertEqual((found.errors[-1].line, found.errors[-1].start), (8, TEXT.encode().index(b"foo")))

    def test_errors_where_they_stand(self):
        """What is said of a part where its own stretch is read is what C says of it in the whole text."""
        text = "\ufeffenum Kind { \"é\" \"b\" };\n" + TEXT * 3 + "interface A {\n  long x\n"
        for it in weedle.recover(text).errors:
            whole = _library.explain_part(text.encode(), it.args[1])
            self.assertEqual((it.place, it.line, it.column), whole[:3])
            self.assertEqual((it.message, it.hint or ""), (whole.message.rstrip("\n"), whole.hint))
            found = it.hint_kind.value if it.hint_kind else 0, *(it.hint_span or (0, 0))
            ends = (whole.kind, whole.hint_place, whole.hint_place + whole.hint_length)
            self.assertEqual(found, ends if whole.kind else (0, 0, 0))
            self.assertEqual(it.words, _library.expected_part(text.encode(), it.args[1]))

    def test_members_that_are_read(self):
        found = weedle.recover(TEXT)
        members = [it for it in found.parts if it.rule == "interface_member" and it.is_read]
        self.assertEqual([it.value.value.identifier.value for it in members], ["y"])
        self.assertEqual({it.definition for it in members}, {0})
        self.assertEqual((members[0].position, members[0].value.position), ((3, 1), (3, 3)))
        self.assertIsNone(members[0].value.parent)
        (name,) = [it.value.value for it in found.parts if it.rule == "identifier" and it.definition]
        self.assertEqual(name, "Kind")

    def test_definitions(self):
        found = weedle.parse(TEXT, recover=True)
        self.assertEqual([it.variant for it in found], ["Typedef", "IncludesStatement"])
        self.assertEqual(len(found.errors), 4)
        self.assertEqual([(it.text, it.role.name) for it in found.names()], [
            ("T", "TYPEDEF"), ("A", "INCLUDER"), ("B", "INCLUDED"),
        ])
        self.assertEqual([it.value for it in found.find(Identifier)], ["T", "A", "B"])
        self.assertEqual(found.to_webidl(), "typedef long T;\n\nA includes B;\n")
        self.assertEqual(found.text, TEXT)
        with self.assertRaisesRegex(ValueError, "recover=True"):
            found.syntax

    def test_what_is_read_whole(self):
        for text, definitions in read_texts():
            found = weedle.parse(text, recover=True)
            self.assertEqual((found, found.errors), (definitions, []))
            self.assertEqual(list(found.names()), list(definitions.names()))

    def test_texts_that_are_none(self):
        with self.assertRaises(UnicodeDecodeError):
            weedle.recover(b"foo \xff")
        with self.assertRaises(UnicodeEncodeError):
            weedle.parse("\ud800", recover=True)
        self.assertEqual(weedle.parse(TEXT[:0], recover=True), [])
        self.assertEqual(weedle.parse("typedef long T;").errors, ())

    def test_copies(self):
        found = weedle.parse(TEXT, recover=True)
        for again in (pickle.loads(pickle.dumps(found)), copy.deepcopy(found), copy.copy(found)):
            self.assertEqual(again, found)
            self.assertEqual([it.span for it in again.find(Identifier)], [it.span for it in found.find(Identifier)])
        fault = pickle.loads(pickle.dumps(found.errors[0]))
        self.assertEqual(str(fault), str(found.errors[0]))

    def test_more_parts_or_nodes_than_there_is_room_for(self):
        whole = weedle.recover(TEXT)
        for name in ("LEAST_PARTS", "LEAST_NODES", "NODES_A_BYTE"):
            with mock.patch.object(_library, name, {"LEAST_PARTS": 1 - len(TEXT.encode())}.get(name, 0)):
                found = weedle.recover(TEXT)
            self.assertEqual([it.span for it in found.parts], [it.span for it in whole.parts])
            self.assertEqual([it.value for it in found.parts], [it.value for it in whole.parts])

    def test_little_room_for_words(self):
        with mock.patch.multiple(_library, WORDS_ROOM=1, MESSAGE_ROOM=1):
            fault = weedle.recover(TEXT).errors[2]
            self.assertEqual((fault.words, fault.line), (["`}`", "`,`"], 6))
            self.assertTrue(fault.message.endswith("`,` missing here?"), fault.message)

    def test_more_words_than_a_message_has(self):
        with self.assertRaises(weedle.Refused) as raised:
            weedle.parse("interface A { attribute [B] ; };")
        fault = raised.exception
        self.assertGreater(len(fault.words), 0)
        self.assertTrue(str(fault).startswith(f"{fault.line}:{fault.column}: expected {fault.expected}\n"))
        for text in ("", "partial", "interface A {", "typedef", "["):
            with self.assertRaises(weedle.Refused) as raised:
                weedle.parse(text + " é")
            fault = raised.exception
            said = str(fault).split("\n")[0].split(": expected ")[1]
            self.assertEqual(fault.expected, said)


class Program(unittest.TestCase):
    def test_every_error(self):
        status, out, err = run(given=TEXT.encode())
        self.assertEqual((status, err), (1, ""))
        lines = [it for it in out.splitlines() if it.startswith("<stdin>:")]
        self.assertEqual([it.split(":")[1] for it in lines], ["2", "4", "6", "8"])
        self.assertTrue(out.endswith("\n1 file, 1 refused, 4 errors\n"), out)

    def test_so_many(self):
        status, out, _ = run("--errors", "2", given=TEXT.encode())
        self.assertEqual(status, 1)
        self.assertIn("\n<stdin>: 2 more errors\n1 file, 1 refused, 4 errors\n", out)
        self.assertIn("\n<stdin>: 1 more error\n", run("--errors", "3", given=TEXT.encode())[1])
        self.assertEqual(run("--errors", "0", given=b"")[0], 5)
        self.assertEqual(run("--errors", "x", given=b"")[0], 5)

    def test_twenty_where_no_number_is_given(self):
        text = b"typedef long;\n" * 50
        status, out, _ = run(given=text)
        self.assertEqual((status, out.count("expected")), (1, 20))
        self.assertTrue(out.endswith("\n<stdin>: 30 more errors\n1 file, 1 refused, 50 errors\n"), out[-90:])

    def test_of_several_files(self):
        with tempfile.TemporaryDirectory() as room:
            files = [Path(room, name) for name in ("a", "b")]
            for file in files:
                file.write_text(TEXT, encoding="utf-8")
            done = subprocess.run(
                [sys.executable, "-m", "weedle", "--json", *files], capture_output=True, check=False, env=environment(),
            )
            self.assertEqual((done.returncode, done.stdout), (1, b""))
            self.assertEqual(done.stderr.decode().count(": expected "), 8)


if __name__ == "__main__":
    unittest.main()
