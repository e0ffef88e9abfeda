"""Holds what calls cost to the length of the text: nothing may grow much faster than that.

    python3 tools/run growth [PROGRAM]

Each family of tests/families.txt goes through the C library's calls, and through the places and names of the built
program weedle_table, in two lengths, of which one is four times the other. The bytes that are asked for may grow MOST
times at the most, and so may the instructions of the C library's calls, where valgrind is there. The texts of a family
are of READ_LENGTHS for the bytes, and of RUN_LENGTHS for the instructions; where these don't go the same way, as where
the longer one nests too deep for descent, the next longer pair decides.

The text of OPEN is of 163 kB and lacks two `]`: a call that took the table of ends for it would ask for 1,544 bytes a byte, and
take some 2,500 ns. Of that text, and of a random one that lacks as many, each call may ask for MOST_BYTES a byte at the most,
and take MOST_RUN instructions a byte, which is 200 ns where 2.5 GHz do three of them at once.

Where weedle_table isn't built a line says that it is left out. The library is c/out/libweedle.a, or else the one in prebuilt/.
"""

import os
import platform
import re
import shutil
import subprocess
import tempfile
from argparse import ArgumentParser, Namespace
from concurrent.futures import ThreadPoolExecutor
from pathlib import Path
from typing import Callable, Iterator, NamedTuple

from run import sown_errors
from run.families import Family, families
from run.memory import built_library
from run.programs import add_program
from run.report import Report, Wrong
from shared.crates import TOP

# How many times as much the longer of two texts may cost.
MOST = 5
# The longer texts of the pairs, in bytes; the shorter one has a quarter.
READ_LENGTHS, RUN_LENGTHS = (40_000, 160_000), (4_000, 16_000)
# What is asked for, or run, whatever the text is.
FIXED_BYTES, FIXED_INSTRUCTIONS = 4_096, 300_000
# A piece that stands fewer times than this in a family stands as often in each text of it.
FEW = 50
# The family whose whole text is held to bounds of its own, and a random text of its length: how many bytes a byte of it a call
# may ask for, and how many instructions it may take.
OPEN, SEED = "two attributes that stay open in a long text", 3
MOST_BYTES, MOST_RUN = 600, 1_500
CALLS = "syntax", "explain", "recover", "format"
WORDS = "places", "names"


class Tried(NamedTuple):
    """A family, what was called, and how many times as much the longer text of the last pair took."""

    family: str
    call: str
    what: str
    growth: float

    def line(self) -> str:
        return f"{self.family}, {self.call}: {self.growth:.1f} times the {self.what} for four times the text"


class Cost(NamedTuple):
    """What a call takes of a text, for each of its bytes."""

    text: str
    call: str
    what: str
    each: float
    most: int

    @property
    def is_within(self) -> bool:
        return self.each <= self.most

    def line(self) -> str:
        return f"{self.text}, {self.call}: {self.each:.0f} {self.what} a byte, where {self.most} are the most"


def texts_with_two_open() -> dict[str, bytes]:
    """Texts in which two `[` aren't closed, by their names."""
    text = next(family.text() for family in families() if family.name == OPEN)
    random_text = sown_errors.joined(sown_errors.Maker(SEED).text(len(text)))
    closing = [place for place, sign in enumerate(random_text) if sign == "]"]
    first, second = closing[len(closing) // 3], closing[2 * len(closing) // 3]
    dropped = random_text[:first] + random_text[first + 1:second] + random_text[second + 1:]
    return {OPEN: text, "a random text without two `]`": dropped.encode()}


def text_of(family: Family, length: int) -> bytes:
    """A text of a family with about so many bytes."""
    part = length / max(1, len(family.text()))
    pieces = [(piece, times if times < FEW else max(1, round(times * part))) for piece, times in family.front + family.back]
    return b"".join(piece * times for piece, times in pieces)


def growth(cost: Callable[[bytes], int], family: Family, lengths: tuple[int, ...], fixed: int) -> float:
    """How many times as much the longer text of a pair costs, by the first pair that is within MOST, or by the last."""
    found = 0.0
    for length in lengths:
        short, long = (cost(text_of(family, it)) for it in (length // 4, length))
        found = (long + fixed) / (short + fixed)
        if found <= MOST:
            break
    return found


class Runner:
    """Runs the programs over texts in files of a folder."""

    def __init__(self, room: str, table: Path) -> None:
        self.room, self.table = Path(room), table
        self.library = built_library(room)
        self.program = self.room / "growth"
        folder = TOP / "c/out"
        if not (folder / "libweedle.a").is_file():
            folder = TOP / f"prebuilt/{platform.machine()}-linux"
        flags = ["-O2", f"-I{TOP / 'include'}", "-Wl,--wrap=malloc,--wrap=realloc"]
        source, archive = str(TOP / "c/tests/growth.c"), str(folder / "libweedle.a")
        subprocess.run(["cc", *flags, "-o", str(self.program), source, archive], check=True)

    def file_of(self, text: bytes) -> str:
        with tempfile.NamedTemporaryFile(dir=self.room, delete=False) as file:
            file.write(text)
        return file.name

    def asked(self, call: str, text: bytes) -> int:
        """For how many bytes a call of the C library asks."""
        file = self.file_of(text)
        ran = subprocess.run([self.program, call, file], check=True, capture_output=True, text=True)
        os.unlink(file)
        return int(ran.stdout.split()[1])

    def instructions(self, call: str, text: bytes) -> int:
        """How many instructions a call of the C library takes."""
        file = self.file_of(text)
        tool = ["valgrind", "--tool=callgrind", "--callgrind-out-file=/dev/null", f"--toggle-collect=weedle_{call}"]
        ran = subprocess.run([*tool, self.program, call, file], check=True, capture_output=True, text=True)
        os.unlink(file)
        found = re.search(r"Collected : (\d+)", ran.stderr)
        if found is None:
            raise RuntimeError(f"callgrind says otherwise: {ran.stderr[-300:]}")
        return int(found[1])

    def held(self, word: str, text: bytes) -> int:
        """The most bytes that weedle_table holds."""
        counted = self.file_of(b"")
        names = {"LD_PRELOAD": self.library, "COUNTED": counted, "COUNTED_ABOVE": str(1 << 40)}
        subprocess.run([self.table, word], input=text, env={**os.environ, **names}, capture_output=True, check=False)
        said = Path(counted).read_text(encoding="utf-8")
        os.unlink(counted)
        found = re.search(r"^held (\d+)$", said, re.MULTILINE)
        if found is None:
            raise RuntimeError(f"{self.table.name} {word}: its requests weren't counted")
        return int(found[1])

    def costs(self, name: str, text: bytes) -> Iterator[Cost]:
        """What each call takes of a text."""
        for call in CALLS:
            yield Cost(name, f"weedle_{call}", "bytes", self.asked(call, text) / len(text), MOST_BYTES)
            if shutil.which("valgrind"):
                yield Cost(name, f"weedle_{call}", "instructions", self.instructions(call, text) / len(text), MOST_RUN)

    def tries(self, family: Family) -> Iterator[Tried]:
        """All that is measured of a family."""
        for call in CALLS:
            found = growth(lambda text: self.asked(call, text), family, READ_LENGTHS, FIXED_BYTES)
            yield Tried(family.name, f"weedle_{call}", "bytes", found)
            if shutil.which("valgrind"):
                found = growth(lambda text: self.instructions(call, text), family, RUN_LENGTHS, FIXED_INSTRUCTIONS)
                yield Tried(family.name, f"weedle_{call}", "instructions", found)
        if self.table.is_file():
            for word in WORDS:
                found = growth(lambda text: self.held(word, text), family, READ_LENGTHS[:1], FIXED_BYTES)
                yield Tried(family.name, word, "bytes", found)


def add_arguments(parser: ArgumentParser) -> None:
    add_program(parser, "weedle_table")


def run(wanted: Namespace, report: Report) -> None:
    program = Path(wanted.program).resolve()
    if not shutil.which("valgrind"):
        print("left out: how many instructions calls take: there is no valgrind")
    if not program.is_file():
        print("left out: what places and names ask for: weedle_table isn't built")
    with tempfile.TemporaryDirectory() as room, ThreadPoolExecutor(os.cpu_count()) as pool:
        runner = Runner(room, program)
        found = [it for tries in pool.map(lambda family: [*runner.tries(family)], families()) for it in tries]
        costs = [cost for name, text in texts_with_two_open().items() for cost in runner.costs(name, text)]
    report.add("growth", len(found), [Wrong(it.family, it.line()) for it in found if it.growth > MOST])
    report.add("costs", len(costs), [Wrong(it.text, it.line()) for it in costs if not it.is_within])
