"""Writes the texts of a release: CHANGES.md, what is new in this version, and SUMS.

    python3 tools/release/texts.py FOLDER [BUILT..]

FOLDER has the files of the release, as tools/release/make.sh makes them. CHANGES.md is the section of CHANGELOG.md for the
version of include/weedle.h, with links that lead nowhere from there left out. SUMS has the version, the toolchain that built
the library, for each BUILT file, a program or a shared object, which processors and which glibc it wants, and a SHA-256 of
each file, as `sha256sum -c` reads it.

The status is 0, or 2 where CHANGELOG.md has no such section, and a line says so.
"""

import re
import sys
from pathlib import Path

if not __package__:
    sys.path[0] = str(Path(__file__).resolve().parent.parent)

from release.prebuilt import FOLDER, HEADER, SUMS, SharedObject, read_sums, version_in
from shared.command_line import ended, parser_of
from shared.crates import TOP, Unfit, sum_of

CHANGES = "CHANGES.md"
LINK = re.compile(r"\[([^\[\]]+)\]\((?!https?:)[^()]+\)")
GLIBC = re.compile(r"GLIBC_(\d+)\.(\d+)(?:\.\d+)?")
# What is said of a processor.
PROCESSORS = {"x86_64": "x86-64", "aarch64": "aarch64"}


def section_of(changelog: str, version: str) -> str:
    """What CHANGELOG.md has of a version, heading included."""
    found = re.search(rf"^## {re.escape(version)} .*?(?=^## |\Z)", changelog, re.M | re.S)
    if not found:
        raise Unfit(f"CHANGELOG.md has no section {version}")
    return found[0].strip() + "\n"


def without_links(text: str) -> str:
    """A text whose links to other files are their words alone."""
    return LINK.sub(r"\1", text)


def glibc_of(file: SharedObject) -> str | None:
    """The oldest glibc that has what a file wants, as 2.14; None where it wants none."""
    names = (name for names in file.wants().values() for name in names)
    found = [(int(it[1]), int(it[2])) for it in map(GLIBC.fullmatch, names) if it]
    return ".".join(map(str, max(found))) if found else None


def wants_of(place: Path) -> str:
    """A line on which processors and which glibc a built file wants."""
    file = SharedObject(place.read_bytes())
    glibc = glibc_of(file)
    return f"{place.name}: Linux, {PROCESSORS[file.processor()]}, {f'glibc {glibc} or later' if glibc else 'no glibc'}"


def sums_of(folder: Path, top: Path, built: list[Path]) -> str:
    sums = read_sums(top / FOLDER)
    files = sorted(it for it in folder.iterdir() if it.is_file() and it.name != SUMS)
    heads = [f"weedle {sums.version}", sums.kit, *map(wants_of, built)]
    rows = [*(f"# {it}" for it in heads), *(f"{sum_of(it.read_bytes())}  {it.name}" for it in files)]
    return "".join(f"{row}\n" for row in rows)


def write(folder: Path, top: Path, built: list[Path]) -> None:
    version = version_in((top / HEADER).read_text(encoding="utf-8"))
    changelog = (top / "CHANGELOG.md").read_text(encoding="utf-8")
    changes = without_links(section_of(changelog, version))
    (folder / CHANGES).write_text(changes, encoding="utf-8")
    (folder / SUMS).write_text(sums_of(folder, top, built), encoding="utf-8")


def main() -> None:
    parser = parser_of(__doc__)
    parser.add_argument("folder", metavar="FOLDER", type=Path)
    parser.add_argument("built", metavar="BUILT", type=Path, nargs="*")
    wanted = parser.parse_args()
    write(wanted.folder, TOP, wanted.built)


if __name__ == "__main__":
    sys.exit(ended(main, faults=[ValueError]))
