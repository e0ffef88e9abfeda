"""Tests builds.py over made-up crates with types of the grammar, in a second."""

from unittest import mock

from shared.crates import Unfit
from shared.test_support import Room
from write import builds

FILES = {"build_low/low": ("What is low.", "low::default"), "build_high/high": ("What is high.", "high")}
TEXTS = {
    "crates.txt": "weedle_base:\nlow: weedle_base\nweedle_build_base: low weedle_base\nhigh: low\n"
                  "build_low: weedle_build_base low weedle_base\nbuild_high: build_low weedle_build_base high\n",
    "crates/low/src/lib.rt": "mod default;\n\npub use default::Default;\n",
    "crates/low/src/default.rt": "pub struct Default {\n    pub assign: Assign,\n    pub colon: Assign,\n}\n",
    "crates/low/specs/Trees.antt": "abbrev pub default_tree : Default → Tree\n",
    "crates/weedle_base/src/lib.rt": "pub mod term;\n",
    "crates/weedle_base/src/term.rt": "pub struct Assign;\n",
    "crates/weedle_build_base/src/lib.rt": "pub use build::{Build, BuildResult};\n",
    "crates/build_low/src/lib.rt": "",
    "crates/build_low/src/part.rt": "pub struct LowPart<T>(T);\n",
    "crates/high/src/lib.rt": "mod definition;\n\npub use low::Default;\n",
    "crates/high/src/definition.rt": "pub enum Definition<'a> {\n    Callback(Default<'a>),\n}\n",
    "crates/high/specs/Trees.antt": "abbrev pub definition_tree : Definition → Tree\n",
    "crates/build_high/src/lib.rt": "",
    "crates/build_high/src/part.rt": "pub struct HighPart<T>(T);\n",
}


class BuildsTest(Room):
    FILES = TEXTS

    def setUp(self):
        super().setUp()
        crates = ["weedle_base::term", "low", "high"]
        self.patch(builds, FILES=FILES, CRATES=crates, TYPES="none", TYPES_BUILT="build_low")

    def test_a_module_without_types_is_refused(self):
        with mock.patch.dict(builds.FILES, {"build_low/low": ("What is low.", "low::none")}):
            with self.assertRaisesRegex(Unfit, "build_low/low is to build what low::none declares"):
                builds.main(self.root)

    def test_a_crate_that_no_file_names_is_refused(self):
        with mock.patch.object(builds, "CRATES", ["weedle_base::term", "low", "high", "new"]):
            with self.assertRaisesRegex(Unfit, "no place is said for what is of new: FILES says"):
                builds.main(self.root)

    def test_a_type_that_no_file_builds_is_refused(self):
        trees = TEXTS["crates/low/specs/Trees.antt"] + "abbrev pub inheritance_tree : Inheritance → Tree\n"
        declared = "pub struct Inheritance {\n    pub colon: Assign,\n}\n"
        self.put({"crates/low/specs/Trees.antt": trees, "crates/low/src/other.rt": declared})
        with self.assertRaisesRegex(Unfit, "no file of FILES has Inheritance"):
            builds.main(self.root)

    def test_a_crate_without_a_part_is_refused(self):
        self.put({"crates/build_high/src/part.rt": ""})
        with self.assertRaisesRegex(Unfit, "build_high has no part for what high declares"):
            builds.main(self.root)

    def test_a_type_without_a_tree_is_refused(self):
        self.put({"crates/high/specs/Trees.antt": ""})
        with self.assertRaisesRegex(Unfit, "crates/high/specs states the tree of Definition"):
            builds.main(self.root)

    def test_more_fields_than_one_call_builds_are_refused(self):
        fields = "".join(f"    pub f{k}: Assign,\n" for k in range(9))
        self.put({"crates/low/src/default.rt": "pub struct Default {\n" + fields + "}\n"})
        said = "Default has 9 fields, and crates/weedle_build_base/src/structs.rt builds 2 to 8 by one call"
        with self.assertRaisesRegex(Unfit, said):
            builds.main(self.root)

    def test_each_function_for_fields_is_there(self):
        text = (builds.TOP / builds.STRUCTS).read_text(encoding="utf-8")
        for word in builds.COUNTS.values():
            self.assertIn(f"pub fn {word}_fields<", text)

    def test_a_name_that_nothing_brings_in_is_refused(self):
        self.put({"crates/high/src/lib.rt": "//! High.\n"})
        with self.assertRaisesRegex(Unfit, "nothing that build_high stands on brings Default in"):
            builds.main(self.root)
