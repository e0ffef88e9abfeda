"""The archives of tests/, one for each folder of cases, and the list of them in tests/INDEX.

In FOLDER.tar.xz stand NAME.webidl, a text, and NAME.json, what is wanted of it. The names are in order and no time
is kept, so the same cases give the same bytes. tests/README.md says what a wanted value holds.
"""

import io
import json
import lzma
import tarfile
from pathlib import Path

from shared.crates import TOP, sum_of

TESTS = TOP / "tests"
INDEX = "INDEX"
TEXT, WANTED = ".webidl", ".json"
# How much all archives may take together.
MOST_BYTES = 5_000_000


class Case:
    """A text, or None where it isn't the repository's to keep, and what is wanted of it."""

    def __init__(self, name, text, wanted):
        self.name, self.text, self.wanted = name, text, wanted

    @property
    def is_read(self):
        return "rest" not in self.wanted


def numbered(pairs):
    """Cases of texts and what is wanted of them, named by their numbers."""
    return [Case(f"{number:05}", text, wanted) for number, (text, wanted) in enumerate(pairs)]


def members_of(cases):
    """The files of cases, by their names."""
    for case in cases:
        if case.text is not None:
            yield case.name + TEXT, case.text.encode()
        yield case.name + WANTED, compact(case.wanted).encode() + b"\n"


def compact(value):
    """A value as JSON on one line, without blanks."""
    return json.dumps(value, ensure_ascii=False, separators=(",", ":"))


def packed(cases):
    room = io.BytesIO()
    with tarfile.open(fileobj=room, mode="w", format=tarfile.USTAR_FORMAT) as archive:
        for name, content in sorted(members_of(cases)):
            info = tarfile.TarInfo(name)
            info.size = len(content)
            archive.addfile(info, io.BytesIO(content))
    return lzma.compress(room.getvalue(), preset=9)


def unpacked(content):
    """The cases of an archive's bytes, in order."""
    files = {}
    with tarfile.open(fileobj=io.BytesIO(lzma.decompress(content))) as archive:
        for member in archive:
            files[member.name] = archive.extractfile(member).read()
    names = sorted(name.removesuffix(WANTED) for name in files if name.endswith(WANTED))
    return [Case(name, files[name + TEXT].decode() if name + TEXT in files else None, json.loads(files[name + WANTED])) for name in names]


def archive_of(folder):
    return f"{folder}.tar.xz"


def cases_of(folder, tests=TESTS):
    return unpacked((Path(tests) / archive_of(folder)).read_bytes())


def folders(tests=TESTS):
    """The names of all folders, in order."""
    return sorted(path.name.removesuffix(".tar.xz") for path in Path(tests).glob("*.tar.xz"))


def line_of(folder, content, cases):
    """The line of an archive in the list."""
    read = sum(case.is_read for case in cases)
    by_rows = sum(not case.wanted["by"].startswith("weedle2") for case in cases)
    return (f"{sum_of(content)}  {archive_of(folder)}  {len(content)} bytes, {len(cases)} texts: "
            f"{read} read, {len(cases) - read} refused, {by_rows} by the rows\n")


def wrong_sums(tests=TESTS):
    """A line for each archive that isn't the one that is listed, or that is listed and isn't there."""
    tests = Path(tests)
    listed = {}
    for line in (tests / INDEX).read_text(encoding="utf-8").splitlines():
        sum_, name, _ = line.split("  ", 2)
        listed[name] = sum_
    found = {path.name: path.read_bytes() for path in tests.glob("*.tar.xz")}
    for name in sorted({*listed, *found}):
        if name not in found:
            yield f"tests/{name}: lacking, and listed in tests/{INDEX}"
        elif listed.get(name) != sum_of(found[name]):
            yield f"tests/{name}: not what tests/{INDEX} lists"
    if sum(map(len, found.values())) > MOST_BYTES:
        yield f"tests: more than {MOST_BYTES} bytes"
