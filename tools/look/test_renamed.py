"""Tests renamed.py over a made-up checkout of git, in a second."""

import subprocess

from look import renamed
from shared.test_support import Room

HOME = "crates/weedle_statements/src/callback.rt"
DECLARED = "pub struct Callback {\n    pub name: Or,\n    pub result: Or,\n}\npub fn read(x: usize) {}\n"
FILES = {
    HOME: DECLARED,
    "crates/weedle_view/src/titles.rt": "callback.result,\n",
    "crates/weedle_view/src/others.rt": "other.result,\n",
    "crates/weedle_view/src/written.rt": "//! Callback. Written by tools/x.py.\n\nit.result\n",
    "docs/USING.md": "`read` reads.\n",
    "CHANGELOG.md": "`read` is new.\n",
}


class Renames(Room):
    FILES = FILES

    def found(self, changed, is_checkout=True):
        """What is found where the file that declares is changed behind the commit."""
        for words in (["init", "-q"], ["add", "-A"], ["commit", "-q", "-m", "one"]) if is_checkout else ():
            author = ["-c", "user.name=a", "-c", "user.email=a@b.c"]
            subprocess.run(["git", "-C", self.root, *author, *words], check=True)
        self.put({HOME: changed})
        return list(renamed.renamed(self.root))

    def test_nothing_is_renamed(self):
        self.assertEqual(self.found(DECLARED + "pub fn more() {}\n"), [])

    def test_a_field_in_files_that_name_its_type(self):
        self.assertEqual(self.found(DECLARED.replace("result", "answer")), [
            "Callback.result is declared no more, and 1 lines have the word:",
            "  crates/weedle_view/src/titles.rt:1: callback.result,",
        ])

    def test_a_function_anywhere_but_in_what_is_written_or_past(self):
        self.assertEqual(self.found(DECLARED.replace("fn read", "fn take")), [
            "read is declared no more, and 1 lines have the word:", "  docs/USING.md:1: `read` reads.",
        ])

    def test_a_type_is_told_once_without_its_fields(self):
        found = self.found(DECLARED.replace("Callback", "Call"))
        self.assertEqual(found, [])

    def test_a_module_of_the_name_is_another_thing(self):
        lines = "mod result;\npub use result::Callback;\nuse x.declared.result.Callback.{Callback}\n"
        self.put({"crates/weedle_view/src/lib.rt": lines})
        self.assertEqual(len(self.found(DECLARED.replace("result", "answer"))), 2)

    def test_how_many_rules_there_are(self):
        self.put({renamed.GRAMMAR: "pub const RULES: usize = 71;\n", "README.md": "At most 71.\n"})
        self.found(DECLARED)
        self.put({renamed.GRAMMAR: "pub const RULES: usize = 74;\n"})
        self.assertEqual(list(renamed.renamed(self.root)), [
            "71 is declared no more, and 1 lines have the word:", "  README.md:1: At most 71.",
        ])

    def test_no_checkout(self):
        self.assertEqual(self.found(DECLARED.replace("result", "answer"), is_checkout=False), [])
