"""Reads crates.txt: which crates a repository has, and what each of them stands on."""

import hashlib
import os
import re
import shutil
from pathlib import Path

# The top of the repository that the scripts stand in.
TOP = Path(__file__).resolve().parents[2]
LIST = "crates.txt"
# The folders of a crate that a check reads.
PARTS = ("src", "specs", "proofs")
ROW = re.compile(r"(?P<name>\w+)(?P<more>[^:]*)(:(?P<uses>.*))?")


def sum_of(content):
    """The SHA-256 of bytes."""
    return hashlib.sha256(content).hexdigest()


class Unfit(Exception):
    """Why something can't be done, in one line."""


class Line:
    """A line of crates.txt: its words, without a comment, and the names that stand in it."""

    def __init__(self, words, name, uses):
        self.words, self.name, self.uses = words, name, uses


def line_of(text):
    """The Line of a line's text, or None where no crate stands there."""
    words = " ".join(text.partition("#")[0].split())
    found = ROW.fullmatch(words)
    if not found:
        return None
    return Line(words, found["name"], re.split(r"[\s,]+", (found["uses"] or "").strip()))


def is_repository(root):
    return (Path(root) / LIST).is_file()


def read_lines(root):
    """The lines of a repository's crates.txt, by the names of their crates, in the file's order."""
    if not is_repository(root):
        raise Unfit(f"{root} is no repository of crates: it has no {LIST}")
    lines = {}
    for text in (Path(root) / LIST).read_text(encoding="utf-8").splitlines():
        line = line_of(text)
        if line and line.name in lines:
            raise Unfit(f"{root}/{LIST}: {line.name} is on two lines")
        if line:
            lines[line.name] = line
    return lines


def closure(lines, names):
    """These crates and all of the repository that they stand on, in the order of the file."""
    wanted, found = list(names), set()
    while wanted:
        name = wanted.pop()
        if name in lines and name not in found:
            found.add(name)
            wanted += lines[name].uses
    return [name for name in lines if name in found]


def files_of(root, name):
    """The files of a crate that a check reads, as paths from the root on, in their order."""
    begin = len(os.path.join(root, ""))
    folders = [os.path.join(root, "crates", name, part) for part in PARTS]
    files = [
        f"{below}/{file}"
        for folder in folders
        for below, _, names in os.walk(folder)
        for file in names
    ]
    return sorted(file[begin:] for file in files if os.path.isfile(file))


def copy_crate(root, name, into):
    """Copies what a check reads of a crate to the same places of another repository."""
    for path in files_of(root, name):
        to = Path(into) / path
        to.parent.mkdir(parents=True, exist_ok=True)
        shutil.copyfile(Path(root) / path, to)
