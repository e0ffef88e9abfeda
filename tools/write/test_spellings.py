"""Tests spellings.py over declared types, in a second."""

import unittest

from write import spellings


class Files(unittest.TestCase):
    def test_each_stands_behind_what_it_is_made_of(self):
        [file] = [it for it in spellings.FILES if it.name == "Iterables"]
        names = [it.base for it in spellings.items_of(file, set())]
        for before, behind in (("key_and_value", "double_typed_iterable"),
                               ("double_typed_iterable", "iterable_interface_member"),
                               ("async_iterable", "single_typed_async_iterable")):
            self.assertLess(names.index(before), names.index(behind))

    def test_each_type_has_its_file(self):
        done = set()
        for file in spellings.FILES:
            spellings.items_of(file, done)
        self.assertEqual(list(spellings.unwritten(done)), [])
        self.assertIn("ConstMember", spellings.unwritten(done - {"const_member_spelling"}))
