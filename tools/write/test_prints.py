"""Tests prints.py over declared types, in a second."""

import unittest
from unittest import mock

from description.declarations import type_of
from shared.crates import Unfit
from write import prints
from write.proofs.spelling_terms import Item


def own(text: str) -> prints.Own:
    return prints.Own(Item(type_of(text)))


class Files(unittest.TestCase):
    def test_each_declared_type_is_written_once(self) -> None:
        names = [it.type.name for _, _, impls in [*prints.handed_on(), *prints.families()] for it in impls]
        self.assertEqual(len(names), len(set(names)))
        declared = {it.name for it in prints.DECLARED.types.values() if it.home != prints.TERMINALS}
        generic = {name for name in declared if not prints.is_written(prints.DECLARED.types[name])}
        self.assertLessEqual(declared - generic, set(names))

    def test_what_is_named_is_brought_in(self) -> None:
        for _, about, impls in [*prints.handed_on(), *prints.families()]:
            text = prints.text(about, impls)
            uses = "\n".join(line for line in text.split("\n\nimpl")[:1])
            for name in prints.PART.findall("".join(map(prints.impl, impls))):
                self.assertIn(name, uses)


class Refused(unittest.TestCase):
    def test_too_many_fields(self) -> None:
        with mock.patch.dict(prints.COUNTS, clear=True), self.assertRaises((Unfit, ValueError)):
            own("StringifierMember").body

    def test_no_spelling(self) -> None:
        it = own("StringifierMember")
        it.spelling = "unknown_spelling"
        with self.assertRaisesRegex(Unfit, "no spelling unknown_spelling"):
            prints.ghost_lines([it])
