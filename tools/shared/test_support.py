"""What tests of several scripts share: a folder of made-up files, and what a call prints."""

import contextlib
import io
import tempfile
import unittest
from pathlib import Path
from unittest import mock


def put(root, files):
    """Writes files of these texts or bytes, by their paths below a folder."""
    for path, content in files.items():
        file = Path(root, path)
        file.parent.mkdir(parents=True, exist_ok=True)
        file.write_bytes(content if isinstance(content, bytes) else content.encode())


def printed(call, *words, **more):
    """What a call gives, and what it prints on standard output and on standard error."""
    with contextlib.redirect_stdout(io.StringIO()) as out, contextlib.redirect_stderr(io.StringIO()) as err:
        given = call(*words, **more)
    return given, out.getvalue(), err.getvalue()


class Room(unittest.TestCase):
    """A test with a folder of its own, `root`, in which FILES stand."""

    FILES = {}

    def setUp(self):
        self.root = Path(self.enterContext(tempfile.TemporaryDirectory())).resolve() / "room"
        self.root.mkdir()
        self.put(self.FILES)

    def put(self, files):
        put(self.root, files)

    def put_command(self, path, text):
        """Writes a program."""
        self.put({path: text})
        (self.root / path).chmod(0o755)
        return str(self.root / path)

    def patch(self, target, **named):
        """Puts other things in the place of what a module or a class has, up to the end of the test."""
        self.enterContext(mock.patch.multiple(target, **named))
