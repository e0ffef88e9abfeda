"""Random changes of a text, and every request at random places of it: no request fails, and the text stays as the editor's.

An editor's text is held as UTF-16 beside the server's, and its changes are made by hand there.
"""

import json
import random
import re
import unittest

from lsp_client import PAGE, range_
from weedle.lsp.features import NOTIFICATIONS, REQUESTS
from weedle.lsp.protocol import Fault
from weedle.lsp.session import Session

TEXT = """\
/// Of a page.
[Exposed=(Window,Worker), A(long b), C=D]
interface Page : Base {
  // \u00e9\U0001f600 how wide
  readonly attribute long? width; // in points
  undefined turn(Page other, optional record<DOMString, (Store or long)> store = {});
  const double DEPTH = -1.5e3; iterable<Page>; constructor(any... rest); stringifier; getter long ();
};\r
partial dictionary Store : Other { required DOMString name = "x"; };
enum Kind { "left", "\u00e9" }; Page includes Shown; typedef sequence<Page> Pages; callback F = any (Page p);
"""
PIECES = [
    *"{}()[]<>;,:=?\"/* \n\r", "//", "/*", "*/", "///", "\r\n", "interface ", "Page", "attribute ", "long", "\U0001f600", "\u00e9", "x",
    "partial ", "};", "[A=", "(", "typedef long T;\n", "dictionary D {};\n", " = {}", "_", "-1", "\ufeff", "\u2028",
]
LINE_END = re.compile("\r\n?|\n")
STEPS = 300


class Editor:
    """A text as an editor of UTF-16 has it."""

    def __init__(self, text):
        self.units = text.encode("utf-16-le")

    def text(self):
        return self.units.decode("utf-16-le")

    def lines(self):
        """Where lines begin, in units."""
        text = self.text()
        starts = [0, *(it.end() for it in LINE_END.finditer(text))]
        return [len(text[:it].encode("utf-16-le")) // 2 for it in starts]

    def position(self, place):
        """The line and the character of a place in units."""
        starts = self.lines()
        line = max(at for at, start in enumerate(starts) if start <= place)
        return line, place - starts[line]

    def places(self, dice):
        """Two places that no character lies around, nor an end of a line."""
        text = self.text()
        free = [
            at for at in range(len(text) + 1)
            if text[at - 1:at + 1] != "\r\n"
        ]
        chosen = sorted((dice.choice(free), dice.choice(free)))
        if dice.random() < 0.8:
            chosen[1] = min(chosen[0] + dice.randrange(6), len(text))
            chosen[1] -= text[chosen[1] - 1:chosen[1] + 1] == "\r\n"
            chosen.sort()
        return [len(text[:it].encode("utf-16-le")) // 2 for it in chosen]

    def change(self, dice):
        """Makes a change: as a message has it."""
        start, end = self.places(dice)
        new = "".join(dice.choice(PIECES) for _ in range(dice.choice([0, 1, 1, 1, 2, 5])))
        given = {"range": range_(*self.position(start), *self.position(end)), "text": new}
        self.units = self.units[:2 * start] + new.encode("utf-16-le") + self.units[2 * end:]
        return given


class Random(unittest.TestCase):
    def setUp(self):
        self.session = Session()
        self.session.initialize({})
        self.editor = Editor(TEXT)
        NOTIFICATIONS["textDocument/didOpen"](self.session, {
            "textDocument": {"uri": PAGE, "languageId": "webidl", "version": 1, "text": TEXT}})

    def ask_all(self, dice):
        """Makes each request at a random place."""
        start, end = self.editor.places(dice)
        line, character = self.editor.position(start)
        params = {
            "textDocument": {"uri": PAGE}, "position": {"line": line, "character": character}, "context": {"diagnostics": []},
            "range": range_(line, character, *self.editor.position(end)), "newName": dice.choice(["x", "long", "Page2"]),
            "positions": [{"line": line, "character": character}], "query": dice.choice(["", "p", "e"]), "options": {},
        }
        for method, answer in REQUESTS.items():
            try:
                json.dumps(answer(self.session, params))
            except Fault:
                pass  # as a name that is taken
            except Exception as fault:
                raise AssertionError((method, params, self.editor.text())) from fault

    def test_changes(self):
        dice = random.Random(64)
        for step in range(STEPS):
            if step % 40 == 39:  # else it is errors throughout
                self.editor = Editor(TEXT)
                changes = [{"text": TEXT}]
            else:
                changes = [self.editor.change(dice) for _ in range(dice.choice([1, 1, 2]))]
            NOTIFICATIONS["textDocument/didChange"](self.session, {
                "textDocument": {"uri": PAGE, "version": step + 2}, "contentChanges": changes})
            source = self.session.workspace.document(PAGE).source
            self.assertEqual(source.data.decode(), self.editor.text(), changes)
            self.ask_all(dice)


if __name__ == "__main__":
    unittest.main()
