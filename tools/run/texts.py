"""Texts by their kinds, which a program is given in files, many at once; and what weedle2 reads of two."""

import tempfile
import tomllib
from argparse import ArgumentParser, Namespace
from collections.abc import Callable, Iterable, Iterator
from pathlib import Path

from measure.compare_with_weedle2 import Weedle2, files_of
from run.report import Report, Wrong
from shared.case_files import TESTS, Case, cases_of, folders
from shared.command_line import runnable

# How many texts a process is given, and of which folder weedle2 isn't asked, since it takes too long.
TOGETHER, DEEP = 250, "deep"
# The folders with texts that nest deep: of these today's rules don't say why they are refused.
NESTED = (DEEP, "hostile")
# What is wrong with each text that is read, or None, by the texts and an empty folder.
Work = Callable[[list[str], Path], list[tuple[str, str | None]]]


def add_arguments(parser: ArgumentParser) -> None:
    """Takes what says which texts there are."""
    parser.add_argument("--real", metavar="FOLDER", help="files that are read too")
    parser.add_argument("--weedle2", metavar="PROGRAM", type=runnable, help="the program of compare/")
    parser.add_argument("--seed", type=int, default=7)
    parser.add_argument("--most", type=int, default=5_000, metavar="N", help="of a kind so many texts at most")


def kinds(wanted: Namespace, is_taken: Callable[[Case], bool] = lambda case: True) -> Iterator[tuple[str, list[str]]]:
    """The texts of tests/ and of real files, by their kinds."""
    for folder in folders():
        texts = [case.text for case in cases_of(folder) if case.text is not None and is_taken(case)][:wanted.most]
        if texts:
            yield folder, texts
    if wanted.real:
        yield "real files", [file.read_bytes().decode() for file in files_of(wanted.real)][:wanted.most]


def today_file() -> dict[str, list[dict[str, str]]]:
    """What tests/today.toml has: texts that are read, and such that are refused."""
    return tomllib.loads((TESTS / "today.toml").read_text(encoding="utf-8"))


def of_today() -> list[str]:
    """The texts of today's WebIDL that are written by hand, those that are refused too."""
    return [it["text"] for rows in today_file().values() for it in rows]


def shallow_folders() -> list[str]:
    """The folders whose texts don't nest deep."""
    return [folder for folder in folders() if folder not in NESTED]


def add(report: Report, kind: str, texts: list[str], work: Work) -> None:
    """Adds to a report what is wrong with the texts of a kind, so many at a time."""
    found = []
    for start in range(0, len(texts), TOGETHER):
        with tempfile.TemporaryDirectory() as room:
            found += work(texts[start:start + TOGETHER], Path(room))
    failures = [Wrong(text, why) for text, why in found if why]
    report.add(kind, len(found), failures, f", {len(texts) - len(found)} not read")


def laid(texts: Iterable[str], kind: str, room: Path) -> list[str]:
    """The names of files with these texts."""
    names = []
    for number, text in enumerate(texts):
        names.append(f"{kind}{number:05}")
        (room / names[-1]).write_bytes(text.encode())
    return names


def other_values(weedle2: Weedle2 | None, names: list[str], others: list[str], room: Path) -> set[int]:
    """The numbers of the texts that weedle2 reads, and of whose other forms it reads other values."""
    if not weedle2 or not names:
        return set()
    both = [weedle2.answers([str(room / name) for name in those]) for those in (names, others)]
    return {number for number, (a, b) in enumerate(zip(*both)) if a.values is not None and (a.lines, a.values) != (b.lines, b.values)}
