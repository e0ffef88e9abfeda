"""The command lines of the scripts of tools/: `--help` prints what a script says of itself, and does nothing else.

A script that writes below crates/ is run by tools/write/write_all.py, in a copy of the repository. Run by hand it
says so, with status 2: else what it writes would stand there without the work of the scripts behind it,
and not laid out.
"""

import argparse
import shutil
import sys
from pathlib import Path

from shared.crates import Unfit


def parser_of(doc):
    """A parser of arguments whose `--help` prints the whole of a script's docstring."""
    return argparse.ArgumentParser(
        description=doc, formatter_class=argparse.RawDescriptionHelpFormatter
    )


def take_none(doc):
    """Takes the arguments of a script that has none: ends it at `--help`, and at any other."""
    parser_of(doc).parse_args()


def told(rows):
    """Prints what was found, each a line, for a script whose status is 1 where there is something. The status."""
    found = [str(row) for row in rows]
    print("".join(f"{row}\n" for row in found), end="")
    return 1 if found else 0


def ended(do, *given, faults=()):
    """The status of what a script does, or 2 where it can't: why stands on standard error, behind the script's name."""
    try:
        return do(*given) or 0
    except (Unfit, OSError, *faults) as why:
        print(f"{Path(do.__code__.co_filename).stem}: {why}", file=sys.stderr)
        return 2


def write_page(doc, top, path, text_of):
    """What a script does that writes a page, or with --check says that it is stale. The status."""
    parser = parser_of(doc)
    parser.add_argument("--check", action="store_true", help="say that it is stale, and write nothing")
    is_check, file, text = parser.parse_args().check, Path(top, path), text_of()
    if file.is_file() and file.read_text(encoding="utf-8") == text:
        return 0
    if is_check:
        return told([f"{path}: stale, tools/write/{parser.prog} writes it"])
    file.write_text(text, encoding="utf-8")
    print(f"changed {path}")
    return 0


def refuse_writer(doc):
    """What a script that writes, and takes no arguments, does when it is run by hand. The status."""
    parser = parser_of(doc)
    parser.parse_args()
    print(
        f"{parser.prog}: nothing is written. `python3 tools/write/write_all.py` runs this script and all "
        "others that write, and lays out what they wrote; --help says what it writes.",
        file=sys.stderr,
    )
    return 2


def runnable(path):
    """The type of an argument that names a program: one that can't be run is refused."""
    found = shutil.which(path)
    if not found:
        raise argparse.ArgumentTypeError(f"{path} is no program that can be run")
    return found
