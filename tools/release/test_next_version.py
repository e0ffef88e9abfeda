"""Tests next_version.py: which number a change asks for, by hand from semver and by CHANGELOG's head, and a repository of two
versions that is made up.
"""

import shutil
import subprocess
import unittest

from release import next_version
from release.next_version import Change, Version, newest_commit, verdict
from release.prebuilt import HEADER
from shared.crates import TOP, Unfit
from shared.test_support import Room, printed

GIT = shutil.which("git")
DECLARED = """\
#define WEEDLE_VERSION {version}
struct weedle_answer {{
    size_t count;{more}
}};
uint32_t weedle_rules({given});
"""


class Numbers(unittest.TestCase):
    def test_while_the_first_number_is_0(self):
        least = {Change.NONE: "0.11.3", Change.ADDED: "0.11.3", Change.ABI: "0.12.0", Change.BROKEN: "0.12.0"}
        self.assertEqual({it: str(Version(0, 11, 2).behind(it)) for it in Change}, least)

    def test_from_the_first_version_on(self):
        least = {Change.NONE: "1.4.3", Change.ADDED: "1.5.0", Change.ABI: "1.5.0", Change.BROKEN: "2.0.0"}
        self.assertEqual({it: str(Version(1, 4, 2).behind(it)) for it in Change}, least)

    def test_the_verdict(self):
        last = Version(0, 11, 0)
        self.assertEqual(verdict(last, last, Change.NONE)[0], 0)
        self.assertEqual(verdict(last, last, Change.ADDED), (1, "the version is 0.11.0, and has to become 0.11.1"))
        self.assertEqual(verdict(last, Version(0, 11, 1), Change.ABI), (1, "the version is 0.11.1, and has to become 0.12.0"))
        for now in (Version(0, 12, 0), Version(1, 0, 0)):
            self.assertEqual(verdict(last, now, Change.BROKEN), (0, f"the version is {now}, and had to be 0.12.0 at least"))

    def test_the_newest_commit(self):
        text = "# New\n\n## 0.3.0 (2026)\n\nNot done.\n\n## 0.2.0 (2026)\n\nCommit `0123456789ab`. Proved.\n\n## 0.1.0 (2026)\n\nCommit `abcdef0`.\n"
        self.assertEqual(newest_commit(text), "0123456789ab")
        self.assertRaises(Unfit, newest_commit, "# New\n")

    def test_each_version_of_the_changelog_but_the_newest_names_its_commit(self):
        sections = (TOP / "CHANGELOG.md").read_text(encoding="utf-8").split("\n## ")[1:]
        versions = [it for it in sections if it[0].isdigit()]
        for section in versions[1:]:
            named = next_version.COMMIT.search(section) or "no commit of its own" in section
            self.assertTrue(named, section.splitlines()[0])


@unittest.skipUnless(GIT, "there is no git")
class Compared(Room):
    """A repository with a version 0.1.0, whose commit CHANGELOG.md names."""

    def setUp(self):
        super().setUp()
        self.declare("0x000100")
        self.git("init", "-q")
        self.git("add", ".")
        self.git("-c", "user.name=a", "-c", "user.email=a@b", "commit", "-q", "-m", "a")
        commit = self.git("rev-parse", "--short=12", "HEAD").strip()
        self.put({"CHANGELOG.md": f"## 0.1.0 (2026-01-01)\n\nCommit `{commit}`.\n"})

    def git(self, *words):
        return subprocess.run([GIT, *words], cwd=self.root, capture_output=True, text=True, check=True).stdout

    def declare(self, version, more="", given="void"):
        self.put({HEADER: DECLARED.format(version=version, more=more, given=given)})

    def ran(self, *words):
        """The status, and what is printed."""
        return printed(next_version.run, self.root, *(words or (None, 10)))[:2]

    def test_nothing_has_changed(self):
        status, out = self.ran()
        self.assertEqual(status, 0)
        self.assertIn("C: nothing has changed\n", out)
        self.assertTrue(out.endswith("the version may stay 0.1.0, and is 0.1.1 at least where it is a new one\n"), out)

    def test_a_struct_grows(self):
        self.declare("0x000100", "\n    size_t rest;")
        status, out = self.ran()
        self.assertEqual(status, 1)
        self.assertIn("C: 1 ABI\n    ABI: struct weedle_answer was size_t count, and is size_t count, size_t rest\n", out)
        self.assertTrue(out.endswith("has to become 0.2.0\n"), out)

    def test_a_call_takes_something_else(self):
        self.declare("0x000200", given="int rule")
        status, out = self.ran()
        self.assertEqual(status, 0)
        self.assertIn("broken: weedle_rules was uint32_t (void), and is uint32_t (int)\n", out)

    def test_how_many_are_told(self):
        self.declare("0x000200", given="int rule")
        self.assertIn("    ...\n", self.ran(None, 0)[1])
        self.assertNotIn("...", self.ran(None, None)[1])

    def test_a_commit_that_is_not_there(self):
        status, out = self.ran("0000000", 10)
        self.assertEqual(status, 0)
        self.assertTrue(out.startswith("left out: "), out)
