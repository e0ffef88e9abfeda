"""The hooks for pre-commit: each names a call of the program that does what it says.

docs/CONTINUOUS.md says what that is.
"""

import re
import shlex
import subprocess
import sys
import tempfile
import unittest
from pathlib import Path

from support import HOME

HOOKS = HOME.parent / ".pre-commit-hooks.yaml"
HOOK = re.compile(r"^- id: (\S+)\n((?:  .*\n)+)", re.M)


@unittest.skipUnless(HOOKS.exists(), "this is no repository")
class Hooks(unittest.TestCase):
    def setUp(self):
        room = tempfile.TemporaryDirectory()
        self.addCleanup(room.cleanup)
        self.room = Path(room.name)
        self.hooks = dict(HOOK.findall(HOOKS.read_text(encoding="utf-8")))

    def run_hook(self, name, text):
        """Runs a hook over a file with this text: its status, and the text behind it."""
        entry = re.search(r"^  entry: weedle(.*)$", self.hooks[name], re.M)[1]
        words = [*shlex.split(entry), *re.findall(r"^    - (--.*)$", self.hooks[name], re.M)]
        file = self.room / "a.webidl"
        file.write_text(text)
        done = subprocess.run(
            [sys.executable, "-m", "weedle", *words, str(file)], capture_output=True, check=False, cwd=HOME,
        )
        self.assertNotIn(b"Traceback", done.stderr)
        return done.returncode, file.read_text()

    def test_each_is_tried_here(self):
        tried = {"weedle-check", "weedle-format", "weedle-format-check", "weedle-lint"}
        self.assertEqual(self.hooks.keys(), tried)

    def test_what_they_let_pass(self):
        text = "[Exposed=Window] interface A : Elsewhere {\n  attribute Other x;\n};\nA includes Mixin;\n"
        for name in self.hooks:
            self.assertEqual(self.run_hook(name, text), (0, text), name)

    def test_what_is_not_read(self):
        for name in self.hooks:
            self.assertEqual(self.run_hook(name, "interface A {\n"), (1, "interface A {\n"), name)

    def test_a_layout(self):
        loose, laid_out = "A  includes B;", "A includes B;\n"
        self.assertEqual(self.run_hook("weedle-format-check", loose), (1, loose))
        self.assertEqual(self.run_hook("weedle-format", loose), (0, laid_out))

    def test_a_rule(self):
        text = "dictionary A {};\ndictionary A {};\n"
        self.assertEqual(self.run_hook("weedle-lint", text), (1, text))

    def test_which_files_they_take(self):
        for name, said in self.hooks.items():
            files = re.search(r"^  files: (.*)$", said, re.M)[1]
            self.assertTrue(re.search(files, "dom/A.webidl"), name)
            self.assertFalse(re.search(files, "a.webidl.py"), name)


if __name__ == "__main__":
    unittest.main()
