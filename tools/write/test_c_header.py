"""Tests c_header.py over made-up sources, in a second."""

import re

from description.today import RULES
from shared.crates import Unfit
from shared.test_support import Room
from write import c_header

CODE = "/// The version.\nconst VERSION: u32 = 0x010203;\n"
STATUSES = """//! Statuses.

/// It is read.
pub const READ: u32 = 0;

/// It isn't,
/// not whole.
pub const REFUSED: u32 = 1;
"""
HINTS = """//! Hints.

/// There is none.
pub const NONE: usize = 0;

/// A sign is missing there.
pub const MISSING: usize = 1;
"""
DIALECTS = """//! Dialects.

/// The old rules.
pub const OLD: u32 = 0;

/// Today's.
pub const TODAY: u32 = 1;
"""


class Header(Room):
    def header(self, code=CODE):
        texts = {"lib.rt": code, "status.rt": STATUSES, "hint.rt": HINTS, "dialect.rt": DIALECTS}
        self.put({f"crates/weedle_c/src/{name}": text for name, text in texts.items()})
        return c_header.header_of(self.root)

    def test_the_version_is_the_crates(self):
        self.assertIn("#define WEEDLE_VERSION 0x010203\n", self.header())

    def test_a_source_without_a_version_is_unfit(self):
        with self.assertRaises(Unfit):
            self.header(code="")

    def test_each_status_has_its_doc_and_the_last_no_comma(self):
        text = self.header()
        self.assertIn("    WEEDLE_STATUS_READ = 0, /* It is read. */\n", text)
        self.assertIn("    WEEDLE_STATUS_REFUSED = 1 /* It isn't, not whole. */\n};", text)

    def test_each_kind_of_hint_has_its_doc_and_the_last_no_comma(self):
        text = self.header()
        self.assertIn("    WEEDLE_HINT_NONE = 0, /* There is none. */\n", text)
        self.assertIn("    WEEDLE_HINT_MISSING = 1 /* A sign is missing there. */\n};", text)

    def test_each_dialect_has_its_doc_and_the_last_no_comma(self):
        text = self.header()
        self.assertIn("    WEEDLE_DIALECT_OLD = 0, /* The old rules. */\n", text)
        self.assertIn("    WEEDLE_DIALECT_TODAY = 1 /* Today's. */\n};", text)

    def test_each_rule_has_a_constant_and_a_name_at_its_number(self):
        text = self.header()
        constants = re.findall(r"^    (WEEDLE_\w+) = (\d+),?$", text, re.M)
        names = re.findall(r'^    "(\w+)",?$', text, re.M)
        self.assertEqual(constants, [(f"WEEDLE_{it.name}", str(at)) for at, it in enumerate(RULES)])
        self.assertEqual(names, [it.name.lower() for it in RULES])

    def test_no_constant_is_named_as_another(self):
        names = re.findall(r"^(?:#define |    )(WEEDLE_\w+)\b", self.header(), re.M)
        self.assertEqual(len(names), len(set(names)))

    def test_it_names_its_writer(self):
        self.assertIn("Written by tools/write/c_header.py, and not edited by hand.", self.header().partition("*/")[0])
