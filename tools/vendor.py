"""Copies the parser into another repository of crates, or brings an earlier copy there up to date.

    python3 tools/vendor.py [--check] DEST

It copies src/, specs/ and proofs/ of the crate `weedle` and of each that it stands on, and the
LICENSE into crates/weedle, and puts their lines into DEST/crates.txt. DEST is the top of a
repository of crates: it has a crates.txt, which may be empty. Any crate of DEST can then name
`weedle`. Python 3.11 is needed; git, where it is there, names the commit.

The record DEST/crates/weedle.vendored.json has the version and commit, each line that was put
there, and a SHA-256 of each file. By it a later run knows its own copies: it brings what has
changed here, and removes files, crates and lines that are no more. What was changed, added or
removed there by hand it lists, and then changes nothing at all. A crate's out/ is left alone, and
removed with its crate. After a run that was cut off, the next one goes on.

It prints the versions and which crates were added, changed and removed. With --check it prints
the same and changes nothing.

The status is 0 where DEST is up to date, 1 where it refuses, or where --check finds something to
change, 2 where the arguments are wrong.
"""

import json
import os
import re
import shutil
import subprocess
import sys
from pathlib import Path

from shared.command_line import parser_of
from shared.crates import LIST, TOP, Unfit, closure, files_of, is_repository, line_of, read_lines, sum_of

LIBRARY = "weedle"
LICENSE = f"crates/{LIBRARY}/LICENSE"
RECORD = f"crates/{LIBRARY}.vendored.json"
# Each file is written here first, and then takes its place whole.
UNFINISHED = f"{RECORD}.new"


class State:
    """Crates as they stand somewhere: the words of their lines, the checksums of their files."""

    def __init__(self, lines, files):
        self.lines, self.files = lines, files

    def names(self):
        """The crates that have a line or a file, in the order of the lines."""
        return list(dict.fromkeys([*self.lines, *(path.split("/")[1] for path in self.files)]))

    def changes_to(self, other, name):
        """What differs of a crate, in words, or nothing."""
        folder = f"crates/{name}/"
        paths = {it for it in {*self.files, *other.files} if it.startswith(folder)}
        count = sum(self.files.get(it) != other.files.get(it) for it in paths)
        words = [f"{count} file{'s' * (count != 1)}"] if count else []
        words += ["its line"] if self.lines.get(name) != other.lines.get(name) else []
        return " and ".join(words)


class Source:
    """What is copied from this repository, with its version."""

    def __init__(self, root):
        root = Path(root)
        lines = read_lines(root)
        if LIBRARY not in lines:
            raise Unfit(f"{root}/{LIST} has no crate {LIBRARY}")
        names = closure(lines, [LIBRARY])
        paths = [path for name in names for path in files_of(root, name)]
        self.contents = {path: (root / path).read_bytes() for path in paths}
        self.contents[LICENSE] = (root / "LICENSE").read_bytes()
        sums = {path: sum_of(content) for path, content in self.contents.items()}
        self.state = State({name: lines[name].words for name in names}, sums)
        self.version = f"{version_of(root)} ({commit_of(root)})"


class Record:
    """What earlier runs left in DEST. Where one was cut off, `states` has what it found and what
    it was to leave, and each file and line is as one of them says."""

    def __init__(self, version, states):
        self.version, self.states = version, states

    def is_cut_off(self):
        return len(self.states) > 1

    def names(self):
        return {name for state in self.states for name in state.names()}

    def paths(self):
        return {path for state in self.states for path in state.files}


def version_of(root):
    """The newest version that CHANGELOG.md has a heading of."""
    file = root / "CHANGELOG.md"
    found = re.search(r"^## (\d+\.\d+\.\d+)", file.read_text(encoding="utf-8"), re.MULTILINE)
    if not found:
        raise Unfit(f"{file} has no heading `## VERSION`")
    return found[1]


def commit_of(root):
    def git(*words):
        ran = subprocess.run(["git", "-C", root, *words], capture_output=True, text=True)
        return ran.stdout.strip() if ran.returncode == 0 else ""

    if not shutil.which("git") or not (root / ".git").exists():
        return "no commit"
    commit = git("rev-parse", "--short=12", "HEAD") or "no commit"
    changes = git("status", "--porcelain", "--", "crates", LIST, "LICENSE", "CHANGELOG.md")
    return f"{commit} with changes" if changes else commit


def read_record(dest):
    file = dest / RECORD
    if not file.exists():
        return Record(None, [])
    try:
        said = json.loads(file.read_text(encoding="utf-8"))
        states = [State(it["lines"], it["files"]) for it in said["states"]]
        return Record(said["version"], states)
    except (ValueError, KeyError, TypeError) as error:
        raise Unfit(f"{file} isn't as this script writes it") from error


def write_file(dest, path, content):
    """Writes a file so that it is never there in part."""
    to = dest / path
    to.parent.mkdir(parents=True, exist_ok=True)
    (dest / UNFINISHED).write_bytes(content)
    os.replace(dest / UNFINISHED, to)


def write_record(dest, version, states):
    said = {"version": version, "states": [vars(state) for state in states]}
    write_file(dest, RECORD, (json.dumps(said, indent=1) + "\n").encode())


def state_in(dest, names):
    """What stands in DEST under these names, out/ aside."""
    lines = {name: line.words for name, line in read_lines(dest).items() if name in names}
    files = {}
    for name in sorted(names):
        top = dest / "crates" / name
        for folder, below, found in os.walk(top):
            if Path(folder) == top and "out" in below:
                below.remove("out")
            for file in (Path(folder, it) for it in found):
                content = os.readlink(file).encode() if file.is_symlink() else file.read_bytes()
                files[file.relative_to(dest).as_posix()] = sum_of(content)
    return State(lines, files)


def refuse_others(dest, record, source, there):
    """Refuses a DEST that has a crate of its own under one of our names."""
    for name in source.state.names():
        if name not in record.names() and name in there.names():
            raise Unfit(f"{dest} has a crate {name} that isn't from here; nothing was changed")


def refuse_changes_by_hand(dest, record, there):
    found = []
    for path in sorted(record.paths() | {*there.files}):
        if there.files.get(path) not in [state.files.get(path) for state in record.states]:
            word = "changed" if path in there.files else "removed"
            found.append(f"{word if path in record.paths() else 'added'} {path}")
    for name, words in there.lines.items():
        if words not in [state.lines.get(name) for state in record.states]:
            found.append(f"changed {LIST}: {words}")
    if found:
        head = f"copies in {dest} were changed by hand: move the changes away, or undo them"
        raise Unfit("\n  ".join([head, *found]))


def list_with(text, before, after):
    """The text of a crates.txt with the lines of `after` in the place of those of `before`."""
    rows, left = [], dict(after.lines)
    for row in text.splitlines(keepends=True):
        line = line_of(row)
        if not line or line.name not in {*before.lines, *left}:
            rows.append(row)
        elif line.name in left:
            comment = row.partition("#")[1] + row.partition("#")[2].rstrip()
            words = left.pop(line.name)
            rows.append(row if words == line.words else f"{words} {comment}".rstrip() + "\n")
    if rows and not rows[-1].endswith("\n"):
        rows[-1] += "\n"
    return "".join([*rows, *(f"{words}\n" for words in left.values())])


def remove_file(dest, path):
    """Removes a file, and the folders that are empty then, up to its crate's."""
    file = dest / path
    file.unlink(missing_ok=True)
    for folder in list(file.parents)[: path.count("/") - 1]:
        if folder.is_dir() and not any(folder.iterdir()):
            folder.rmdir()


def bring(dest, source, there):
    """Makes DEST's copies what the source has. Cut off at any place, the next run can go on."""
    after = source.state
    write_record(dest, source.version, [there, after])
    for name in {*there.names()} - {*after.names()}:
        shutil.rmtree(dest / "crates" / name / "out", ignore_errors=True)
    for path in there.files.keys() - after.files.keys():
        remove_file(dest, path)
    for path, content in source.contents.items():
        if there.files.get(path) != after.files[path]:
            write_file(dest, path, content)
    text = (dest / LIST).read_bytes().decode()
    if list_with(text, there, after) != text:
        write_file(dest, LIST, list_with(text, there, after).encode())
    write_record(dest, source.version, [after])


def changes(there, after):
    """A line for each crate that was added, changed or removed."""
    old, new = there.names(), after.names()
    added = [f"added {name}" for name in new if name not in old]
    both = [(name, there.changes_to(after, name)) for name in new if name in old]
    changed = [f"changed {name}: {what}" for name, what in both if what]
    return [*added, *changed, *(f"removed {name}" for name in old if name not in new)]


def heading(record, source):
    """From which version to which a run goes, and how much that is."""
    old = "a copy that was cut off" if record.is_cut_off() else record.version
    versions = source.version
    if record.states and old != source.version:
        versions = f"{old} to {source.version}"
    count = f"{len(source.state.lines)} crates, {len(source.contents)} files"
    return f"{LIBRARY} {versions}: {count}"


def vendor(root, dest, is_check=False):
    """Brings DEST up to date with the repository at `root`. Returns the lines to print, and
    whether there was something to change."""
    dest = Path(dest)
    if not is_repository(dest):
        raise Unfit(f"{dest} is no repository of crates: it has no {LIST}, which may be empty")
    if os.path.samefile(root, dest):
        raise Unfit(f"{dest} is this repository itself")
    source, record = Source(root), read_record(dest)
    there = state_in(dest, record.names() | {*source.state.names()})
    refuse_others(dest, record, source, there)
    refuse_changes_by_hand(dest, record, there)
    found = changes(there, source.state)
    is_due = bool(found) or record.is_cut_off()
    if not is_check and (is_due or record.version != source.version):
        bring(dest, source, there)
    head = heading(record, source) + ("" if found else ", none changed")
    return [head, *(found if record.states else [])], is_due


def main():
    parser = parser_of(__doc__)
    parser.add_argument("dest", metavar="DEST", help="the top of the other repository")
    parser.add_argument("--check", action="store_true", help="change nothing")
    arguments = parser.parse_args()
    try:
        said, is_changed = vendor(TOP, arguments.dest, arguments.check)
    except (Unfit, OSError) as error:
        print(f"vendor: {error}", file=sys.stderr)
        return 1
    print("\n".join(said))
    return 1 if arguments.check and is_changed else 0


if __name__ == "__main__":
    sys.exit(main())
