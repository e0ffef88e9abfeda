"""Tests forgotten.py over the repository with one thing changed, in a second."""

import unittest
from unittest import mock

from description.declarations import declared_in
from description.readings import Declared
from look import forgotten
from shared.test_support import Room

DECLARED = Declared.of(forgotten.TOP)
TEXT_IN = forgotten.text_in


class Definitions(unittest.TestCase):
    def found(self, path, old, new):
        """What is found where one text of a file is another."""
        def text_in(root, name):
            text = TEXT_IN(root, name)
            return text.replace(old, new, 1) if name == path else text

        self.assertIn(old, TEXT_IN(forgotten.TOP, path))
        with mock.patch.object(forgotten, "text_in", text_in):
            rows = [*forgotten.of_definitions(forgotten.TOP, DECLARED), *forgotten.of_reserved(forgotten.TOP)]
        return rows

    def test_the_repository_lacks_nothing(self):
        self.assertEqual(self.found(forgotten.KINDS, "fn kind_of", "fn kind_of"), [])

    def test_a_field_that_is_said_to_lack(self):
        path = "weedle_view/src/definition.rt"
        old = "        Definition::Dictionary(dictionary) => dictionary.inheritance.as_ref(),\n"
        found = self.found(path, f"{old}        Definition::Callback(_)\n", "        Definition::Dictionary(_)\n")
        self.assertEqual(found, [f"crates/{path}: inheritance_of says that Dictionary has no inheritance"])

    def test_members_that_are_said_to_lack(self):
        path = "weedle_view/src/members.rt"
        found = self.found(path, "Definition::Typedef(_)", "Definition::Interface(_)")
        self.assertEqual(found, [f"crates/{path}: members_of says that Interface has no members"])

    def test_a_kind_is_its_keywords(self):
        found = self.found(forgotten.KINDS, '"interface mixin"', '"mixin"')
        self.assertEqual(found, [f"crates/{forgotten.KINDS}: kind_of says otherwise of InterfaceMixin than `interface mixin`"])

    def test_a_part_by_its_keyword(self):
        found = self.found(forgotten.PARTS, "        | Definition::PartialNamespace(_) => true", " => true")
        self.assertEqual(len(found), 1)
        self.assertIn("is_part says otherwise of PartialNamespace", found[0])

    def test_a_word_that_may_be_read(self):
        found = self.found(forgotten.RESERVED, '"mixin"', '"mixer"')
        place = f"crates/{forgotten.RESERVED}: behind `interface`"
        self.assertEqual(found, [f"{place} `mixin` may be read, and isn't listed", f"{place} `mixer` is listed, and isn't read"])


class Types(unittest.TestCase):
    def test_all_have_what_they_want(self):
        self.assertEqual(list(forgotten.of_types(forgotten.TOP, DECLARED)), [])

    def test_a_new_one(self):
        [new] = declared_in("#[derive(Debug)]\npub struct Brandnew {\n    pub or: Or,\n}\n")
        new.crate, new.module = "weedle_x", "x"
        self.assertEqual(list(forgotten.of_types(forgotten.TOP, Declared([new]))), [
            "weedle_x: Brandnew has no `Parse`", "weedle_x: Brandnew has no `TryClone`",
            "weedle_x: Brandnew has no path below `weedle`",
        ])


class Laws(Room):
    def test_what_is_not_passed_on(self):
        above = "pub use written::members::{\n    member,\n};\npub use written::types::type_;\n"
        below = "pub fn member() {}\npub fn other() {}\n"
        files = {"laws.rt": above, "laws/written/members.rt": below, "laws/written/types.rt": "pub fn type_() {}\n"}
        self.put({f"crates/a/src/{path}": text for path, text in files.items()})
        self.assertEqual(list(forgotten.of_laws(self.root)), ["crates/a/src/laws.rt: its `pub use written::members` lacks other"])


class Files(Room):
    FILES = {"crates.txt": "a:\n", "crates/a/src/lib.rt": "mod b;\n"}

    def found(self, files):
        self.put(files)
        return list(forgotten.of_files(self.root))

    def test_files_that_are_named(self):
        files = {"crates/a/src/b.rt": "pub mod c;\n", "crates/a/src/b/c.rt": "", "crates/a/src/main.rt": ""}
        logic = {"crates/a/specs/written.antt": "pub mod T\n", "crates/a/specs/written/T.antt": ""}
        self.assertEqual(self.found({**files, **logic}), [])

    def test_files_that_are_not(self):
        found = self.found({"crates/a/src/b.rt": "", "crates/a/src/b/c.rt": "", "crates/a/specs/written/T.antt": ""})
        self.assertEqual(found, [
            "crates/a/src/b/c.rt: no line `mod` of crates/a/src/b.rt names it",
            "crates/a/specs/written/T.antt: no line `mod` of crates/a/specs/written.antt names it",
        ])
