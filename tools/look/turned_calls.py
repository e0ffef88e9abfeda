"""Turns calls of the library for C, one in one way at a time, and says which of its tests find that.

    python3 tools/look/turned_calls.py [CALL-HOW ..]

What is turned keeps each clause of the call's contract, so no proof would miss it: a table for texts of 1 to 20 kB, the
work done twice, 'out of memory' past 50 kB, the place of the hint in the message, its length, the zero behind it; of a
layout a text that stays as it stood, and eight times the memory. It lies in c/tests/turned.c, between the tests and the
library, c/out/libweedle.a or else the one in prebuilt/: so it takes seconds for each, and no toolchain. A wrong body is
tried by try_edits.py --programs; this is which tests would find it.

It prints a line for each, as `syntax-twice: found by bytes that are asked for`, and then how many were found. The status
is 0 where each was.
"""

import subprocess
import sys
import tempfile
from concurrent.futures import ThreadPoolExecutor
from pathlib import Path

if not __package__:
    sys.path[0] = str(Path(__file__).resolve().parent.parent)

from shared.command_line import parser_of
from shared.crates import TOP

CALLS = "syntax", "syntax_of", "explain", "explain_from", "explain_part", "expected", "expected_part", "recover", "format"
TOLD = "explain", "explain_from", "explain_part"
HOWS = {
    **{how: CALLS for how in ("table", "twice", "gives-up")},
    **{how: TOLD for how in ("offset", "length", "zero")},
    **{how: ("format",) for how in ("stands", "pieces")},
}
TESTS = "test_weedle", "test_recovery"


def library() -> Path:
    """The library that is tested: the one that was built anew, where there is one."""
    built = TOP / "c/out/libweedle.a"
    return built if built.is_file() else TOP / "prebuilt/x86_64-linux/libweedle.a"


def names() -> list[str]:
    """Each call with each way in which it is turned."""
    return [f"{call}-{how}" for how, calls in HOWS.items() for call in calls]


def built(test: str, name: str, room: Path) -> Path:
    """A program of tests with a call turned."""
    program, (call, _, how) = room / f"{test}-{name}", name.partition("-")
    wraps = ",".join(f"--wrap={it}" for it in ("malloc", "realloc", *(f"weedle_{it}" for it in CALLS)))
    sources = [TOP / "c/tests" / f"{test}.c", TOP / "c/tests/turned.c"]
    words = ["cc", "-std=c11", "-O2", f"-I{TOP / 'include'}", f'-DTURNED="{call} {how}"', "-o", program, *sources, library()]
    subprocess.run([*words, "-pthread", f"-Wl,{wraps}"], check=True)
    return program


def found_by(name: str, room: Path) -> list[str]:
    """The tests that find a call which is turned so."""
    found = []
    for test in TESTS:
        program = built(test, name, room)
        ran = subprocess.run([program], capture_output=True, text=True, check=False)
        found += [row.removesuffix(": FAILED") for row in ran.stdout.splitlines() if row.endswith(": FAILED")]
        found += [f"{test}, which ends"] * (ran.returncode < 0)
        program.unlink()
    return found


def main(words: list[str] | None = None) -> int:
    parser = parser_of(__doc__)
    parser.add_argument("names", nargs="*", metavar="CALL-HOW", help="as syntax-twice; else all")
    given = parser.parse_args(words).names
    if unknown := [it for it in given if it not in names()]:
        print(f"turned_calls: there is no {unknown[0]}", file=sys.stderr)
        return 2
    wanted, missed = given or names(), 0
    with tempfile.TemporaryDirectory() as room, ThreadPoolExecutor(2) as pool:
        for name, found in zip(wanted, pool.map(lambda it: found_by(it, Path(room)), wanted)):
            print(f"{name}: {'found by ' + ', '.join(found) if found else 'NOT FOUND'}", flush=True)
            missed += not found
    print(f"{len(wanted) - missed} found, {missed} not found")
    return 1 if missed else 0


if __name__ == "__main__":
    sys.exit(main())
