"""What today's rules read whole and refuse, of texts by hand, by the rows alone."""

import re
import tomllib
import unittest

from description import today, webidl
from rows.dialects import TODAY, WEEDLE2
from rows.words import position, refusal
from shared.crates import TOP

PAGE = (TOP / "docs/TODAY.md").read_text(encoding="utf-8")
TEXTS = tomllib.loads((TOP / "tests/today.toml").read_text(encoding="utf-8"))
# How many texts of each kind have a production of the standard at least.
LEAST = 60


def productions_of(page):
    """The productions of the standard that the page's table has."""
    table = page.partition("## Productions")[2].partition("\n## ")[0]
    rows = re.findall(r"^\| ([^|`]+) \| `", table, re.M)
    return {word for row in rows for word in re.findall(r"[A-Z][A-Za-z]+", row)}


class TodayTest(unittest.TestCase):
    def test_what_is_read(self):
        for it in TEXTS["read"]:
            with self.subTest(it["name"]):
                self.assertTrue(TODAY.is_whole(it["text"].encode()))
                self.assertEqual(WEEDLE2.is_whole(it["text"].encode()), it.get("weedle2", True))

    def test_what_is_refused(self):
        for it in TEXTS["refused"]:
            with self.subTest(it["name"]):
                raw = it["text"].encode()
                self.assertEqual(raw[:TODAY.end_of(raw)].decode(), it.get("front", ""))
                self.assertNotEqual(it.get("front", ""), it["text"])
                self.assertFalse(WEEDLE2.is_whole(raw))

    def test_why_it_is_refused(self):
        """The furthest place and the words, of those texts that have these by hand."""
        for it in TEXTS["refused"]:
            if "at" in it:
                with self.subTest(it["name"]):
                    place, said = refusal(it["text"], len(it.get("front", "").encode()), TODAY)
                    self.assertEqual("{}:{}".format(*position(it["text"], place)), it["at"])
                    self.assertEqual(said, it.get("says", said))

    def test_each_production_has_a_text(self):
        of = {kind: [it["production"] for it in TEXTS[kind] if "production" in it] for kind in ("read", "refused")}
        self.assertEqual({*of["read"]}, productions_of(PAGE))
        self.assertLessEqual({*of["refused"]}, {*of["read"]})
        self.assertGreaterEqual(min(map(len, of.values())), LEAST)

    def test_names_are_told_apart(self):
        for kind in ("read", "refused"):
            names = [it["name"] for it in TEXTS[kind]]
            self.assertEqual(len(names), len(set(names)))

    def test_no_rule_of_weedle2_reads_one_of_today(self):
        for rule in webidl.RULES:
            for part in webidl.parts_of(rule.row):
                self.assertIn(part, webidl.NUMBER)

    def test_weedle2_comes_first(self):
        self.assertEqual([it.name for it in today.RULES[:len(webidl.RULES)]], [it.name for it in webidl.RULES])

    def test_the_page_names_rules(self):
        named = set(re.findall(r"`((?!WEEDLE)[A-Z][A-Z0-9_]+)`", PAGE))
        self.assertEqual(named - today.NUMBER.keys(), set())
        own = today.RULES[len(webidl.RULES):]
        told = {it.name for it in own if it.doc and it.name.startswith("TODAY_")}
        self.assertEqual(sorted(told - named), [])

    def test_no_choice_is_longer_than_weedle2s(self):
        longest = max(len(it.row[1]) for it in webidl.RULES if it.row[0] == "First")
        for rule in today.RULES:
            if rule.row[0] == "First":
                self.assertLessEqual(len(rule.row[1]), longest, rule.name)
