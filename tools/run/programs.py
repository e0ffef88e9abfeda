"""Programs that cases are run through: those that are built, and those that `rt try` builds and runs."""

import os
import subprocess
import sys
from pathlib import Path

from rows.dialects import TODAY, WEEDLE2
from shared.crates import TOP, Unfit

# What rt ci calls the second build of a program.
BUILDS = ("", ".by-rattle")
# How many seconds a program may run.
SECONDS, TRIED_SECONDS = 300, 1_500
# What compiles and runs a program that isn't built.
TRY = (sys.executable, str(TOP / "tools/run/try_alone.py"))


class Built:
    def __init__(self, program):
        self.program = program

    def run(self, words, names=(), room=None, given=b""):
        """How it ended with these arguments and files of the room: its status, and what it wrote."""
        try:
            words = [self.program, *words, *names]
            return subprocess.run(words, input=given, capture_output=True, timeout=SECONDS, check=False, cwd=room)
        except OSError as fault:
            raise Unfit(f"{self.program}: {fault.strerror}") from None
        except subprocess.TimeoutExpired:
            return subprocess.CompletedProcess(words, -1, b"", f"it hadn't ended after {SECONDS} s".encode())


class Tried:
    """A program that `rt try` builds and runs."""

    def __init__(self, crate):
        self.crate = crate

    def run(self, words, names=(), room=None, given=b""):
        """How it ended with these arguments and files; what is on standard error is rt's."""
        data = [word for name in dict.fromkeys(names) for word in ("--data", f"{name}={room}/{name}")]
        words = [*TRY, "--seconds", str(TRIED_SECONDS), *data, "--", *words, *names]
        try:
            ended = subprocess.run(words, input=given, capture_output=True, cwd=self.crate, check=False)
        except OSError as fault:
            raise Unfit(f"{self.crate}: {fault.strerror}") from None
        if b"run=ended" not in ended.stderr:
            raise Unfit(f"rt try gave no answer: {ended.stderr.decode(errors='replace')[-600:]}")
        return subprocess.CompletedProcess(words, ended.returncode, ended.stdout, b"")


class With:
    """A program that is given options in front of all other arguments."""

    def __init__(self, program, options):
        self.inner, self.options, self.program = program, options, program.program

    def run(self, words, names=(), room=None, given=b""):
        """How it ended with these arguments and files, behind the options."""
        return self.inner.run([*self.options, *words], names, room, given)


def told(ended):
    """What a program wrote and how it ended, in one text."""
    return f"status {ended.returncode}\n" + (ended.stdout + ended.stderr).decode(errors="replace")


def place_of(name):
    return TOP / f"crates/{name}/out/{name}"


def add_program(parser, name, can_be_tried=False):
    """Takes a program as an argument, or else the one that the gate builds."""
    parser.add_argument("program", nargs="?", default=place_of(name), metavar="PROGRAM", help=f"a built {name}")
    if can_be_tried:
        parser.add_argument("--try", dest="is_tried", action="store_true", help="PROGRAM is a crate, which rt try builds and runs")


def meant(path, is_tried=False):
    """The program that a path means."""
    if not (Path(path) / "src/main.rt" if is_tried else Path(path)).is_file():
        raise Unfit(f"{path} is no {'crate of a program' if is_tried else 'program that is built'}")
    return (Tried if is_tried else Built)(str(Path(path).resolve()))


def add_dialect(parser):
    """Takes the option that has texts read by today's rules."""
    parser.add_argument("--today", action="store_true", help="the texts are of today's WebIDL, and read by its rules")


def dialect_of(wanted):
    """The dialect that is asked for."""
    return TODAY if wanted.today else WEEDLE2


def meant_in(wanted, is_tried=False):
    """The program that is named, with the option of the dialect that is asked for."""
    return With(meant(wanted.program, is_tried), dialect_of(wanted).options)


def built_at(path, names):
    """The programs of these names that are built, each with its name: the one that a path names, or those below a folder."""
    path = Path(path)
    if path.is_dir():
        return [(str(file.resolve()), name) for name in names for build in BUILDS
                for file in sorted(path.rglob(name + build)) if is_program(file)]
    return [(str(path.resolve()), name) for name in names if is_program(path) and path.name.startswith(name)]


def is_program(file):
    return file.is_file() and os.access(file, os.X_OK)
