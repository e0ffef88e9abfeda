"""Builds programs with wrong bodies, and says how many runs of tests/ find one, for tools/look/try_edits.py --programs.

The library for C is built so too, and its tests in C are run.

A program runs by tests/runs.toml; where none fails, by tests/memory.toml, of which a program with checks is given the
shorter texts; and where none of these fails, weedle_check reads the texts of the folder `tests`, and weedle_format is run
over files (tools/run/layout_runs.py).
"""

import contextlib
import os
import subprocess
import tempfile
import threading
import time
from pathlib import Path

from run import memory
from run.cases import TRIED_TEXT, check_texts
from run.layout_runs import all_runs
from run.programs import Built
from run.worked_runs import failures_of, runs
from shared.case_files import cases_of
from shared.crates import TOP


# How often it is looked whether a program is built, and for how many seconds one is built at most.
MOMENT, PATIENCE = 0.05, 3_600
# The crate of the library for C, and its tests.
LIBRARY, TESTS_IN_C = "weedle_c", ("test_weedle", "test_recovery", "test_dialects", "test_hostile")
# Over how many texts a program is run by `rt try`.
CASES = 40


class NotBuilt(Exception):
    """Why a program wasn't built."""


def built_by_try(crate: Path, room: Path) -> Path:
    """The program that `rt try` builds of a crate: it keeps none, so it is taken from its folder while it is there."""
    program = room / crate.name
    program.unlink(missing_ok=True)
    arguments = (crate / "args").read_text().split() if (crate / "args").is_file() else []
    with tempfile.TemporaryDirectory(dir=room) as folder:
        words = ["rt", "try", "--cases", cases_in(Path(folder)), "--", *arguments]
        how = {"cwd": crate, "env": os.environ | {"TMPDIR": folder}, "stdin": subprocess.DEVNULL, "text": True}
        with subprocess.Popen(words, stdout=subprocess.DEVNULL, stderr=subprocess.PIPE, **how) as tried:
            reader = threading.Thread(target=lambda: said.append(tried.stderr.read()))
            said: list[str] = []
            reader.start()
            while tried.poll() is None:
                keep_newest(Path(folder), program)
                time.sleep(MOMENT)
            reader.join()
    if f"cases={CASES}" not in said[0] or not program.is_file():
        raise NotBuilt(f"rt try gave no program: {said[0][-400:]}")
    return program


def cases_in(folder: Path) -> str:
    """A folder of texts, over each of which a program runs, so that it is there for a while."""
    texts = folder / "cases"
    texts.mkdir()
    for number in range(CASES):
        (texts / f"{number:02}").write_text("A includes B;\n")
    return str(texts)


def keep_newest(folder: Path, program: Path) -> None:
    """Keeps the program that was built below a folder, if one is there: the same file by a second name."""
    for below, _, files in os.walk(folder):
        if "program" in files:
            # It may go away meanwhile, or not be whole yet: then it is looked for again.
            with contextlib.suppress(OSError):
                file = Path(below, "program")
                if not program.is_file() or not program.samefile(file):
                    program.unlink(missing_ok=True)
                    os.link(file, program)


def proved(crate: Path, words: list[str], made: str) -> Path:
    """What `rt` proves and builds of a crate."""
    file = crate / "out" / made
    file.unlink(missing_ok=True)
    how = {"stdin": subprocess.DEVNULL, "stdout": subprocess.PIPE, "stderr": subprocess.STDOUT, "text": True}
    ran = subprocess.run(["rt", *words], cwd=crate, timeout=PATIENCE, check=False, **how)
    if not file.is_file():
        raise NotBuilt(f"rt {words[0]} gave no {made}: {ran.stdout[-400:]}")
    return file


def built_by_lib(crate: Path, room: Path) -> Path:
    """The library for C, of the archive that `rt lib` builds of its crate."""
    archive, whole = proved(crate, ["lib", "--cpu", "x86-64"], f"lib{crate.name}.a"), room / "libweedle.a"
    subprocess.run([TOP / "c/join.sh", archive, whole], check=True)
    return whole


def failing_tests(archive: Path, room: Path) -> list[bool]:
    """Of each test in C of a library whether it fails; one that ends its program is the last."""
    found = []
    for name in TESTS_IN_C:
        wraps = [] if name == "test_hostile" else ["-Wl,--wrap=malloc,--wrap=realloc"]
        words = ["cc", "-std=c11", "-O2", f"-I{TOP / 'include'}", "-o", room / name, TOP / f"c/tests/{name}.c", archive]
        subprocess.run([*words, "-pthread", *wraps], check=True)
        ran = subprocess.run([room / name, TOP / "tests/families.txt"], capture_output=True, text=True, check=False)
        ends = [row.rpartition(": ")[2] for row in ran.stdout.splitlines()]
        found += [end == "FAILED" for end in ends if end in ("ok", "FAILED")] + [True] * (ran.returncode < 0)
    return found


def failing_runs(program: str, name: str) -> list[bool]:
    """Of each run of tests/runs.toml whether it fails."""
    return [bool(it) for it in failures_of(program, [run for run in runs() if run.program == name])]


def failing_memory(program: str, name: str, library: str) -> list[bool]:
    """Of each run of tests/memory.toml."""
    return [bool(memory.failure_of(run, program, library)[1]) for run in runs(memory.RUNS) if run.program == name]


def failing_texts(program: str, name: str) -> list[bool]:
    """Of each of the shorter texts of tests/tests, where it is weedle_check; of each run over files, of weedle_format."""
    if name == "weedle_format":
        return [bool(it) for it in failures_of(program, all_runs())]
    if name != "weedle_check":
        return []
    failures, count = check_texts(Built(program), [case for case in cases_of("tests") if len(case.text) <= TRIED_TEXT])
    return [True] * len(failures) + [False] * (count - len(failures))


class Runs:
    """What finds a wrong body: the runs and texts of tests/. What is built lies in a folder."""

    def __init__(self, room: Path) -> None:
        self.room, self.library = room, memory.built_library(room)

    def failures_of(self, crate: Path, is_proved: bool) -> tuple[int, int]:
        """Of the program of a crate, how many fail of what finds something first, and how many there are; or none of all."""
        if crate.name == LIBRARY:
            found = failing_tests(built_by_lib(crate, self.room), self.room)
            return sum(found), len(found)
        program = str(proved(crate, ["run"], crate.name) if is_proved else built_by_try(crate, self.room))
        return failures_in(program, crate.name, self.library)


def failures_in(program: str, name: str, library: str) -> tuple[int, int]:
    """How many fail of what finds something first, and how many there are; or none of all."""
    count = 0
    for failing in (lambda: failing_runs(program, name), lambda: failing_memory(program, name, library),
                    lambda: failing_texts(program, name)):
        found = failing()
        if any(found):
            return sum(found), len(found)
        count += len(found)
    return 0, count
