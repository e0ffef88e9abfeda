"""Tests rust_surface.py and compare_rust_types.py over made-up packages, in a second."""

import unittest

from measure import compare_rust_types
from measure.rust_surface import Surface, differing, type_text
from shared.crates import Unfit
from shared.test_support import Room


def path(name, *arguments):
    """A type with arguments, as rustdoc's JSON has it."""
    args = {"angle_bracketed": {"args": [{"type": it} for it in arguments]}} if arguments else None
    return {"resolved_path": {"path": name, "args": args}}


def item(name, kind, value, attrs=()):
    return {"name": name, "visibility": "public", "attrs": list(attrs), "inner": {kind: value}}


def crate(items=(), **more):
    """A crate with a module, a struct in it, these items and what else is given, by numbers."""
    index = {
        "0": item("weedle", "module", {"items": ["1", *items]}),
        "1": item("types", "module", {"items": ["2", "5"]}),
        "2": item("A", "struct", {"generics": {"params": [{"name": "'a"}]}, "kind": {"plain": {"fields": ["3"]}}, "impls": ["4"]}),
        "3": item("b", "struct_field", path("Option", {"generic": "T"})),
        "4": item(None, "impl", {"trait": path("std::fmt::Debug")["resolved_path"], "is_synthetic": False, "blanket_impl": None}),
        "5": item("hidden", "module", {"items": ["2"]}, ["#[doc(hidden)]"]),
    }
    return {"root": "0", "index": {**index, **more}}


class Types(unittest.TestCase):
    def test_types_are_written_by_their_last_words(self):
        table = [
            (path("crate::a::Vec", path("term::Comma")), "Vec<Comma>"), ({"tuple": []}, "()"),
            ({"tuple": [{"primitive": "u8"}, {"generic": "T"}]}, "(u8, T)"),
            ({"borrowed_ref": {"lifetime": "'a", "type": {"primitive": "str"}}}, "&'a str"), (None, "()"),
        ]
        for given, text in table:
            self.assertEqual(type_text(given), text)


class Items(unittest.TestCase):
    def test_a_struct_with_fields_and_traits(self):
        self.assertEqual(Surface(crate()).items, {
            "weedle::types::A": ("struct", ["'a"], [("b", "Option<T>")], ["Debug"]),
        })

    def test_another_field_differs(self):
        theirs = Surface(crate()).items
        for named in ("b", "c"):
            ours = {"weedle::types::A": ("struct", ["'a"], [(named, "Option<T>")], ["Debug"])}
            self.assertEqual(len(list(differing(theirs, ours))), named == "c")

    def test_what_lacks_differs_and_what_is_added_may_stand(self):
        theirs = Surface(crate()).items
        self.assertEqual(len(list(differing(theirs, {}))), 1)
        macro = item("term", "macro", "")
        self.assertEqual(len(list(differing(theirs, Surface(crate("9", **{"9": macro})).items))), 1)
        self.assertEqual(list(differing(theirs, {**theirs, "weedle::syntax::Node": ("struct",)})), [])

    def test_a_function_and_a_trait_without_what_is_hidden(self):
        sig = {"inputs": [["raw", {"primitive": "str"}]], "output": None}
        shown, hidden = item("parse", "function", {}), item("__RULE", "assoc_const", {}, ["#[doc(hidden)]"])
        found = Surface(crate("67", **{
            "6": item("parse", "function", {"sig": sig}), "7": item("Parse", "trait", {"items": ["8", "9"]}),
            "8": shown, "9": hidden,
        })).items
        self.assertEqual(found["weedle::parse"], ("function", [("raw", "str")], "()"))
        self.assertEqual(found["weedle::Parse"], ("trait", ["parse"]))


class Programs(Room):
    def test_each_type_is_asked_for(self):
        names = list(compare_rust_types.types())
        self.assertEqual(len(names), len(set(names)))
        for name in ("@term::Comma", "@types::Type", "@Definitions", "@common::Identifier", "@types::ReturnType"):
            self.assertIn(name, names)
        text = compare_rust_types.types_text()
        self.assertIn('"Definitions": here::Definitions, weedle2::Definitions, changed::Definitions;', text)

    def test_a_change_applies_once_or_not_at_all(self):
        self.assertEqual(compare_rust_types.put("a b", "b", "c", "x.rs"), "a c")
        for text in ("a", "b b"):
            with self.assertRaises(Unfit):
                compare_rust_types.put(text, "b", "c", "x.rs")

    def test_a_copy_has_another_name_and_the_changes(self):
        self.put({"weedle2/Cargo.toml": '[package]\nname = "weedle2"\n', "weedle2/src/a.rs": "x y"})
        compare_rust_types.copy_of(self.root / "weedle2", "other", self.root, [("a.rs", "y", "z")])
        self.assertEqual((self.root / "other/src/a.rs").read_text(), "x z")
        self.assertIn('name = "other"', (self.root / "other/Cargo.toml").read_text())
        self.assertEqual((self.root / "weedle2/src/a.rs").read_text(), "x y")

    def test_texts_are_those_of_the_seed(self):
        texts = list(compare_rust_types.texts_of(3, 9))
        self.assertEqual(texts, list(compare_rust_types.texts_of(3, 9)))
        self.assertEqual(len(texts), 9)
