"""Tests calling.py over the repository, in a second."""

import unittest

from write import calling


class OfTheRepository(unittest.TestCase):
    @classmethod
    def setUpClass(cls):
        cls.text = calling.page(calling.TOP)

    def test_paths_that_readme_and_using_name(self):
        self.assertIn("### [`weedle::parse_quick`](", self.text)
        for path in ("weedle::interface::InterfaceMember", "weedle::Definition"):
            home, _, name = path.rpartition("::")
            section = self.text.partition(f"\n## `{home}`\n")[2].partition("\n## ")[0]
            self.assertTrue(f"\npub enum {name}<'a> {{\n" in section, path)

    def test_a_former_is_shown_as_the_alias_has_it(self):
        self.assertTrue("\npub enum SingleType<'a> { Any(Any), NonAny(NonAnyType<'a>) }\n" in self.text)

    def test_where_a_docstring_may_stand(self):
        """As docs/GRAMMAR.md has it: before a dictionary's member, and before no typedef."""
        may, may_not = self.text.partition("## Where a docstring")[2].partition("## Types")[0].split("These may not")
        self.assertIn("`DictionaryMember`", may)
        self.assertNotIn("`TypedefDefinition`", may)
        self.assertIn("`TypedefDefinition`", may_not)

    def test_links_lead_somewhere(self):
        for path in calling.re.findall(r"\]\(\.\./([^)]+)\)", self.text):
            self.assertTrue((calling.TOP / path).exists(), path)
