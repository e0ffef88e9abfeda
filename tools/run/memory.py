"""Runs built programs over long texts: each has to answer, and to ask for no more memory than the documents say.

    python3 tools/run memory [PROGRAMS]

PROGRAMS is a built program, as weedle_list, or a folder below which some were built; crates/ where none is named: a
gate, or `rt run` in their folders, builds them. The runs stand in tests/memory.toml. Each has to come to what is said
there, as those of tests/runs.toml. Their key `asks` says for how much memory they may ask:

    above     requests for at most so many bytes, for each place of the text, aren't looked at
    sizes     those that are larger, each by the bytes that it may ask for, for each place of the text; there may be fewer
    held      how many bytes the program may hold at once, for each place of the text
    requests  how many requests it may make for each time that the text's piece stands, beside FEW others; any number
              where it is left out

A text has a place for each byte, and one for its end. A C compiler has to be there, as `cc`, for
tools/run/count_requests.c. Of a program that is built with checks, as `rt try` builds one, requests can't be counted so: it
is given shorter texts, and no request for more than a hundredth above the largest size is granted it. The number of its
requests is what the checks tell; there each list that is cut to its length is a request more.

For each run it prints how much was asked for.
"""

import re
import subprocess
import tempfile
from argparse import ArgumentParser, Namespace
from pathlib import Path

from run.programs import built_at
from run.report import Report, Wrong
from run.worked_runs import Run, has_checks, runs, text_of
from shared.case_files import TESTS
from shared.crates import TOP, Unfit

RUNS = TESTS / "memory.toml"
# What may be there beside what grows with the text: room for the output, the arguments, a formatter's buffers.
FIXED = 65_536
# What a size may be rounded up by.
ROUNDED = 64
# How many requests there may be that don't grow with the text, or as its logarithm alone.
FEW = 100


class Asked:
    """What a run asked for: how many requests, the large ones, and the most that was held."""

    def __init__(self, said: str) -> None:
        rows = [line.split() for line in said.splitlines()]
        (self.requests,) = (int(number) for word, number in rows if word == "requests")
        (self.held,) = (int(number) for word, number in rows if word == "held")
        self.large = [int(number) for word, number in rows if word == "request"]

    def told(self, places: int) -> str:
        large = ", ".join(f"{size / places:,.2f}" for size in self.large) or "none"
        return f"{self.requests} requests, large ones {large}, held {self.held / places:,.2f} bytes a place"

    def excess(self, asks: dict, places: int, pieces: int) -> str | None:
        """What is more than is allowed of a text with so many places and pieces, if anything is."""
        most = sorted((size * places + ROUNDED for size in asks["sizes"]), reverse=True)
        came = sorted(self.large, reverse=True)
        if len(came) > len(most):
            return f"{len(came)} large requests where {len(most)} are allowed"
        if any(size > allowed for size, allowed in zip(came, most)):
            return "a request is too large"
        if self.held > asks["held"] * places + FIXED:
            return f"more is held than {asks['held']} bytes a place"
        if self.requests > asks.get("requests", self.requests) * pieces + FEW:
            return f"more requests than {asks['requests']} for each piece"
        return None


def places_of(run: Run) -> int:
    """How many places the texts of a run have."""
    return sum(len(text_of(text).encode()) + 1 for text in run.texts())


def pieces_of(run: Run) -> int:
    """How many times the pieces of its texts stand."""
    return sum(text["times"] for text in run.texts() if isinstance(text, dict))


def counted(run: Run, program: str, library: str) -> tuple[str, Asked | None]:
    """What came of a run of a program, and what it asked for."""
    with tempfile.TemporaryDirectory() as room:
        file = Path(room) / "counted"
        above = int(run.keys["asks"]["above"] * places_of(run))
        run.env = {"LD_PRELOAD": library, "COUNTED": str(file), "COUNTED_ABOVE": str(above)}
        came = run.came(program)
        run.env = {}
        return came, Asked(file.read_text()) if file.is_file() else None


def failure_of(run: Run, program: str, library: str) -> tuple[str, str | None]:
    """What a run asked for, in a line, and why it fails, if it does."""
    if has_checks(program):
        return limited(run, program)
    came, asked = counted(run, program, library)
    if came != run.wanted():
        return "", f"wanted: {run.wanted()!r}\n  came:   {came[:2_000]!r}"
    if asked is None:
        return "", "its requests weren't counted"
    places = places_of(run)
    return asked.told(places), asked.excess(run.keys["asks"], places, pieces_of(run))


def limited(run: Run, program: str) -> tuple[str, str | None]:
    """The same of a program with checks: over a shorter text, with no request larger than the largest allowed."""
    short, asks = run.for_checks(), run.keys["asks"]
    short.memory = int(max([asks["above"], *asks["sizes"]]) * places_of(short) * 1.01) + (1 << 20)
    with tempfile.TemporaryDirectory() as room:
        short.checks = f":atexit=1:log_path={room}/checks"
        came = short.came(program)
        said = "".join(file.read_text(errors="replace") for file in Path(room).iterdir())
    if came != short.wanted():
        return "", f"wanted: {short.wanted()!r}\n  came:   {came[:2_000]!r}"
    requests = max((int(number) for number in re.findall(r"malloced.* by (\d+) calls", said)), default=None)
    told = f"{requests} requests with those of lists that are cut, none for more than {short.memory >> 20} MiB"
    if "requests" not in asks:
        return told, None
    if requests is None:
        return told, "its requests weren't counted"
    return told, "more requests than that" if requests > 2 * (asks["requests"] * pieces_of(short) + FEW) else None


def built_library(room: str | Path) -> str:
    """The library that counts, built in a folder."""
    library = f"{room}/count_requests.so"
    source = str(TOP / "tools/run/count_requests.c")
    subprocess.run(["cc", "-O2", "-shared", "-fPIC", "-o", library, source, "-ldl"], check=True)
    return library


def add_arguments(parser: ArgumentParser) -> None:
    parser.add_argument("programs", nargs="?", default=TOP / "crates", metavar="PROGRAMS")
    parser.add_argument("--runs", default=RUNS, metavar="FILE", help="the runs, if not tests/memory.toml")


def run(wanted: Namespace, report: Report) -> None:
    all_runs = runs(wanted.runs)
    found = built_at(wanted.programs, sorted({one.program for one in all_runs}))
    if not found:
        raise Unfit(f"{wanted.programs} is none of the programs, and has none built below it")
    with tempfile.TemporaryDirectory() as room:
        library = built_library(room)
        for program, name in found:
            for one in (one for one in all_runs if one.program == name):
                told, why = failure_of(one, program, library)
                report.add(f"{name}, {one.what}", 1, [Wrong(one.what, why)] if why else [], f"; {told}")
