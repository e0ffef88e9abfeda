"""Writes all that scripts write, and lays it out: the one command after a change to grammar or types.

    python3 tools/write/write_all.py

Files of crates and of the packages in C, Python, Rust and JavaScript that a script writes name it at their heads, those
of crates without its room, as `Written by tools/grammar.py`. In a copy of the repository without these files it runs the
scripts of WRITERS, and each crate in which something differs is laid out by `rt fmt`. What differs then is brought back: so
where a script fails, nothing is changed. Behind that it writes the pages of docs/ that follow from the crates, and those of
man/.

It prints a line for each file that it changed, removed or wrote for the first time. It needs the
toolchain's command `rt` on PATH, and about four seconds where four processors are idle.
tools/look/check.py says in the same way what is stale.

The status is 0 where all is written, also where nothing was to change, and 2 where a script failed.
"""

import os
import re
import shutil
import subprocess
import sys
import tempfile
from concurrent.futures import ThreadPoolExecutor
from pathlib import Path

if not __package__:
    sys.path[0] = str(Path(__file__).resolve().parent.parent)

from shared.command_line import ended, take_none
from shared.crates import LIST, TOP, Unfit, files_of, read_lines

# Where a script moves, its files below crates/ keep their heads: a crate with another head is proved anew.
WRITTEN = re.compile(r"[Ww]ritten by tools/(?:write/)?(\w+\.py)")
# A head is the comment that a file begins with; further down a file may speak of scripts.
HEAD = re.compile(r'/\*(?:.|\n)*?\*/|"""(?:.|\n)*?"""|(?:(?://!|--).*\n)*')
# The files beside those of crates that scripts write, or may write.
BESIDE = ("include/*.h", "python/weedle/*.py", "rust/src/*.rs", "js/lib/written/*.js", "js/lib/written/*.ts")
# The scripts that write, each behind those whose files it reads; and how one is run, which refuses it by hand.
WRITERS = (
    "grammar starts terminals idl_proofs builds spellings prints impls orders c_header python_types rust_types javascript_types"
).split()
RUN = "import sys; sys.path[0] = 'tools'; from shared.command_line import ended; from write.{} import main; sys.exit(ended(main))"
# The scripts that write pages of docs/ and of man/ from the sources, and print what they changed.
PAGES = ("calling.py", "man_pages.py")
# Where files are made in memory, on systems that have it: a disk takes long to make a thousand.
MEMORY = "/dev/shm"


def writer_in(text):
    """The script that a file's head names, or None."""
    found = WRITTEN.search(HEAD.match(text)[0])
    return found and f"tools/write/{found[1]}"


def files_beside(root):
    """The files of BESIDE, as paths from the root on."""
    found = (it for pattern in BESIDE for it in Path(root).glob(pattern))
    return [it.relative_to(root).as_posix() for it in found]


def sources(root):
    """The files of all crates that a check reads, and those beside them, by their paths, with their bytes."""
    paths = [*(it for name in read_lines(root) for it in files_of(root, name)), *files_beside(root)]
    return {it: (Path(root) / it).read_bytes() for it in paths}


def writers(files):
    """The script that each file names at its head, by the path, where it names one."""
    found = {path: writer_in(data.decode(errors="replace")) for path, data in files.items()}
    return {it: script for it, script in found.items() if script}


def copy(root, files, into):
    """Makes a copy for the scripts: their own files are left out, though the folders are there."""
    for folder in {Path(into, path).parent for path in files}:
        folder.mkdir(parents=True, exist_ok=True)
    for path in files.keys() - writers(files).keys():
        Path(into, path).write_bytes(files[path])
    shutil.copyfile(Path(root, LIST), Path(into, LIST))
    shutil.copytree(Path(root, "tools"), Path(into, "tools"))


def call(words, folder, name=None):
    """Runs a command, and gives what it says; that is shown where it fails, behind the command or this name."""
    ran = subprocess.run(words, cwd=folder, stdout=subprocess.PIPE, stderr=subprocess.STDOUT, text=True)
    if ran.returncode:
        raise Unfit(f"{name or ' '.join(words)} failed:\n{ran.stdout.strip()}")
    return ran.stdout


def crates_changed(files, anew):
    """The crates with a file that isn't among these."""
    changed = [path.split("/") for path, data in anew.items() if files.get(path) != data]
    return sorted({name for top, name, *_ in changed if top == "crates"})


def lay_out_together(room, crates):
    """Lays out some crates by one call, as the parts of one crate: `rt fmt` takes long to begin."""
    with tempfile.TemporaryDirectory(dir=room) as one:
        home, parts = Path(room, "crates"), Path(one, "src")
        parts.mkdir()
        for crate in crates:
            (home / crate).rename(parts / crate)
        call(["rt", "fmt"], one)
        for crate in crates:
            (parts / crate).rename(home / crate)


def lay_out(room, files):
    """Lays out each crate that has a file which isn't among these."""
    crates, count = crates_changed(files, sources(room)), os.cpu_count() or 1
    with ThreadPoolExecutor() as pool:
        for end in [pool.submit(lay_out_together, room, crates[at::count]) for at in range(min(count, len(crates)))]:
            end.result()


def write_anew(root, files):
    """The files of a copy of the repository in which all that scripts write is written anew."""
    if not shutil.which("rt"):
        raise Unfit("the toolchain's command rt isn't on PATH")
    with tempfile.TemporaryDirectory(dir=MEMORY if os.access(MEMORY, os.W_OK) else None) as room:
        copy(root, files, room)
        for script in WRITERS:
            call([sys.executable, "-c", RUN.format(script)], room, f"tools/write/{script}.py")
        lay_out(room, files)
        return sources(room)


def bring(root, files, anew):
    """Brings the files that are written anew to their places, with a line for each that differs."""
    for path in sorted({*files, *anew}):
        place = Path(root) / path
        if path not in anew:
            place.unlink()
            yield f"removed {path}"
        elif files.get(path) != anew[path]:
            place.parent.mkdir(parents=True, exist_ok=True)
            place.write_bytes(anew[path])
            yield f"{'changed' if path in files else 'new'} {path}"


def main():
    files = sources(TOP)
    for row in bring(TOP, files, write_anew(TOP, files)):
        print(row)
    for page in PAGES:
        print(call([sys.executable, f"tools/write/{page}"], TOP), end="")


if __name__ == "__main__":
    take_none(__doc__)
    sys.exit(ended(main))
