"""Tests tools/write/proofs/idl_parts.py over the declared types, in a second."""

import unittest

from write.proofs.idl_parts import ABOUT, CRATES, DECLARED, files


class Files(unittest.TestCase):
    def test_each_type_has_its_file(self):
        named = [it.name for file in files() for it in file.types]
        declared = [name for name, it in DECLARED.types.items() if it.home in CRATES]
        self.assertEqual(sorted(named), sorted(declared))

    def test_what_is_said_otherwise_is_of_modules_and_types_that_there_are(self):
        modules = {f"{it.crate}.{it.module}" for it in DECLARED.types.values()}
        self.assertEqual(set(ABOUT) - modules - set(DECLARED.types), set())
