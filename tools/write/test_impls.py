"""Tests impls.py over a made-up crate, in a second."""

from shared.crates import Unfit
from shared.test_support import Room
from shared.written_places import apart
from write import impls

MODULE = """//! Members.

mod written;

use leaves::{Sign, Word};
use types::{Label, List};
use weedle_types::attribute::ExtendedAttributeList;

#[derive(Debug)]
pub struct Member<'a> {
    pub attributes: Option<ExtendedAttributeList<'a>>,
    pub word: Word,
    pub list: List<'a>,
    pub label: Option<Label<'a>>,
}
"""
COPIES = """
pub fn copy_attributes<'a>(
    attributes: &Option<ExtendedAttributeList<'a>>,
    alloc: Global,
) -> Result<Option<ExtendedAttributeList<'a>>, AllocError>
"""
FILES = {
    "low/src/member.rt": MODULE,
    "low/specs/Trees.antt": "pub member_tree :\n",
    "low/proofs/MemberRules.antt": "pub ruleset member_steps\n",
    apart("weedle_grammar/specs/Table/Members.antt"): "abbrev pub MEMBER : Rule\n",
    "weedle_types/src/fields/all.rt": "pub fn attributes_and_three<'a, A: Parse<'a>>(\n",
    "weedle_base/src/term.rt": "#[derive(Clone, Copy)]\npub struct Word;\n",
    "weedle_types/src/copies.rt": COPIES,
}


class ImplsTest(Room):
    FILES = {f"crates/{path}": text for path, text in FILES.items()}

    def setUp(self):
        super().setUp()
        self.patch(impls, CRATES=["low"])

    def test_a_parse_of_another_form_has_to_be_written_by_hand(self):
        self.put({"crates/low/src/member.rt": MODULE.replace("    pub word: Word,\n", "")})
        with self.assertRaisesRegex(Unfit, "the Parse of Member has no plain form"):
            impls.main(self.root)

    def test_a_type_that_nothing_brings_in_is_refused(self):
        self.put({"crates/low/src/member.rt": MODULE.replace("{Label, List}", "List")})
        with self.assertRaisesRegex(Unfit, "Label is named, and no `use` brings it in"):
            impls.main(self.root)

    def test_a_tree_that_is_stated_nowhere_is_refused(self):
        self.put({"crates/low/specs/Trees.antt": ""})
        with self.assertRaisesRegex(Unfit, "low: member_tree is stated nowhere"):
            impls.main(self.root)
