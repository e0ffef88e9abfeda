"""Finds what the gate can say without a proof: stale files, and types that aren't the grammar's.

    python3 tools/look/check.py

In a copy of the repository all that scripts write is written anew, and each crate is formatted, as
tools/write/write_all.py does it. The copy then has to hold the very files of the repository. Beside that the
scripts of LOOKS look, each at what its --help says; docs/TOOLS.md has them in a table.

It prints a line for each file that is stale, for each that no script writes though it says so, and
for whatever else was found. It changes nothing. It needs the toolchain's command `rt` on PATH, and
nine seconds of processor time: about four by the clock where four processors are idle.

The status is 0 where nothing was found, 1 where something was, 2 where it could not be looked at.
"""

import subprocess
import sys
from concurrent.futures import ThreadPoolExecutor
from pathlib import Path

if not __package__:
    sys.path[0] = str(Path(__file__).resolve().parent.parent)

from shared.command_line import ended, take_none, told
from shared.crates import TOP
from write.write_all import sources, write_anew, writer_in, writers

# What is looked at where it stands.
LOOKS = (
    ["look/unmatched.py"],
    ["look/forgotten.py"],
    ["look/renamed.py"],
    ["write/calling.py", "--check"],
    ["look/try_edits.py", "--check"],
    ["look/try_edits.py", "--programs", "--check"],
    ["look/pages.py"],
    ["write/make_cases.py", "--check"],
    ["write/slips.py", "--check"],
    ["look/try_pages.py", "--no-run"],
    ["release/prebuilt.py", "--check"],
    ["write/man_pages.py", "--check"],
)


def stale_in(files, anew):
    """A line for each file that differs where it is written anew."""
    named = writers(files)
    for path in sorted({*files, *anew}):
        if path not in anew:
            yield f"{path}: no script writes it, though it names {named[path]}"
        elif path not in files:
            yield f"{path}: lacking, and written by {writer_in(anew[path].decode())}"
        elif files[path] != anew[path]:
            script = f"{named[path]} writes it" if path in named else "a script or `rt fmt` has it"
            yield f"{path}: stale, {script} otherwise"


def look(script, *words):
    """Runs a script that looks at the repository where it stands."""
    words = [sys.executable, f"tools/{script}", *words]
    return subprocess.run(words, cwd=TOP, capture_output=True, text=True)


def looked(ends):
    """What such scripts print, where they find something."""
    for ran in ends:
        sys.stderr.write(ran.stderr)
        if ran.returncode:
            yield ran.stdout.strip()


def found():
    """All lines to print. The looks are taken while the files are written anew."""
    files = sources(TOP)
    with ThreadPoolExecutor() as pool:
        ends = pool.map(lambda words: look(*words), LOOKS)
        anew = write_anew(TOP, files)
    return [*stale_in(files, anew), *looked(ends)]


def main():
    return told(found())


if __name__ == "__main__":
    take_none(__doc__)
    sys.exit(ended(main))
