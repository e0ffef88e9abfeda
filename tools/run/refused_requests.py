"""Refuses tests or built programs their requests for memory: the first in the first run, the second in the second, and so on.

    python3 tools/run/refused_requests.py [CRATE..]
    python3 tools/run/refused_requests.py --programs [--cases FOLDER] [PROGRAMS]

Of tests it takes those in modules `requests`, or named `.._or_want_memory` or `.._by_N_requests`, of each CRATE or of all
that have such. Run `rt test` in their folders first, which builds them. Up to the run in which none of its calls has a
request left, the test has to pass and to say that a call wanted memory: a call that goes on behind a refusal would say
nothing. The calls of tests that are named `no_..`, of any module, make no request at all; those of tests named
`.._by_N_requests` make so many, no fewer and no more. For one N, `rt try --test --fail-alloc N` in a crate's folder does
the same without a C compiler, and needs no proof.

With --programs it is weedle_check and weedle_list, each in out/ of its own folder of PROGRAMS, or of crates/: a gate, or
`rt run` in their folders, builds them. Without --cases weedle_check checks a file that is read and one that isn't, and
prints the definitions, as values and anew. With it weedle_check prints the definitions of each text of that folder of
tests/, as worked, in both ways, and weedle_list lists them. A run that ends otherwise than with all its memory has to say
so: with status 3 and `out of memory`, weedle_list with nothing written; or weedle_check, where memory ran out for more
than the place of a slip, with the status that it has else and `memory ran out for more`. None may be ended by a signal.
After ENOUGH runs in a row that are as with all its memory, no request is left to refuse.

A C compiler has to be there, as `cc`, for tools/run/refuse_request.c. It prints how many requests were refused, of each test.
The status is 0 where each was answered as it should be, else 1.
"""

import os
import re
import subprocess
import sys
import tempfile
from pathlib import Path

if not __package__:
    sys.path[0] = str(Path(__file__).resolve().parent.parent)

from shared.case_files import cases_of
from shared.command_line import parser_of
from shared.crates import TOP, read_lines

# What a test says that was refused a request, and one whose calls had none left.
WANTED, BEHIND = "a call wanted memory", "a request behind the calls was refused"
# How weedle_check prints definitions, of which files where no folder is named.
WAYS, DATA, FILES = ("--tree", "--print"), TOP / "crates/weedle_check/data", ("good.webidl", "slip.webidl")
ENOUGH, MOST = 100, 100_000


def ended(words, library, number, **more):
    """The status of a run in which this request is refused, and what it wrote on both outputs."""
    env = {**os.environ, "LD_PRELOAD": library, "REFUSED_REQUEST": str(number)}
    done = subprocess.run(words, capture_output=True, env=env, check=False, **more)
    return done.returncode, done.stdout.decode(), done.stderr.decode()


# Tests.
def wanted_of(test):
    """How many requests a test's calls have to make, by its name; None where it says nothing of it."""
    if "::no_" in test:
        return 0
    found = re.search(r"_by_(\d+)_requests$", test)
    return int(found[1]) if found else None


def is_swept(test):
    """Whether a test is run with requests refused."""
    return "requests::" in test or test.endswith("_or_want_memory") or wanted_of(test) is not None


def tests_of(program):
    listed = subprocess.run([program, "--list"], capture_output=True, text=True, check=True).stdout
    names = [line.rsplit(": ", 1)[0] for line in listed.splitlines() if line.endswith(": test")]
    return [name for name in names if is_swept(name)]


def sweep_test(program, test, library):
    """How many requests of the test's calls were refused, one a run."""
    for number in range(1, MOST):
        status, *said = ended([program, test], library, number)
        if status == 0 and WANTED in "".join(said):
            continue
        if status == 0 and BEHIND in "".join(said):
            return number - 1
        sys.exit(f"{test}, request {number}: status {status}\n{''.join(said)}")
    sys.exit(f"{test}: no end after {MOST} requests")


def of_tests(crates, library):
    for crate in crates:
        program = built(TOP / "crates", crate, f"{crate}_tests", "rt test")
        for test in tests_of(program):
            count = sweep_test(program, test, library)
            if wanted_of(test) not in (None, count):
                sys.exit(f"{crate} {test}: {count} requests, where {wanted_of(test)} should be made")
            print(f"{crate} {test}: {count} requests, each refused once")


# Programs.
def is_told(words, run, ample):
    """Whether a run that ended otherwise says that memory ran out; weedle_list is given no arguments."""
    status, written, said = run
    if status == 3:
        return "out of memory" in said and (words[1:] or not written)
    return bool(words[1:]) and status == ample[0] and "memory ran out for more" in written


def sweep(words, library, **more):
    """How many requests were refused, or a line of the first that was answered otherwise."""
    ample, refused, alike = ended(words, library, 0, **more), 0, 0
    for number in range(1, MOST):
        run = ended(words, library, number, **more)
        alike = alike + 1 if run == ample else 0
        if alike == ENOUGH:
            return refused, None
        if not alike:
            refused += 1
            if not is_told(words, run, ample):
                return refused, f"request {number}: status {run[0]}\n{run[1]}{run[2]}"
    return refused, f"no end after {MOST} requests"


def runs_of(folder, programs, room):
    """The runs: what each is, its words, and where it runs with what on standard input."""
    check = built(programs, "weedle_check", "weedle_check", "rt run")
    if not folder:
        yield from ((f"files {way}", [check, way, *FILES], {"cwd": DATA}) for way in WAYS)
        return
    lister = built(programs, "weedle_list", "weedle_list", "rt run")
    for case in cases_of(folder):
        name = f"{case.name}.webidl"
        Path(room, name).write_text(case.text, encoding="utf-8", newline="")
        yield from ((f"{folder} {case.name} {way}", [check, way, name], {"cwd": room}) for way in WAYS)
        yield f"{folder} {case.name}, listed", [lister], {"cwd": room, "input": case.text.encode()}


def of_programs(folder, programs, library, room):
    """Prints what went wrong, and how many requests were refused. Whether all was well."""
    all_refused, is_well = 0, True
    for what, words, more in runs_of(folder, programs, room):
        refused, why = sweep(words, library, **more)
        all_refused += refused
        if why:
            is_well = False
            print(f"{what}: {why}")
    print(f"{all_refused} requests were refused, each in a run of its own")
    return is_well


def built(folder, crate, name, command):
    """The program of this name that was built of a crate."""
    path = (Path(folder) / crate / "out" / name).resolve()
    if not path.is_file():
        sys.exit(f"{path} isn't built: run {command} in crates/{crate}")
    return str(path)


def main():
    parser = parser_of(__doc__)
    parser.add_argument("--programs", action="store_true", help="those that are built, and no tests")
    parser.add_argument("--cases", metavar="FOLDER", help="a folder of tests/ that the programs read")
    parser.add_argument("names", nargs="*", metavar="NAME", help="crates of tests; of programs where they are built")
    given = parser.parse_args()
    with tempfile.TemporaryDirectory() as room:
        library = f"{room}/refuse_request.so"
        source = f"{TOP}/tools/run/refuse_request.c"
        subprocess.run(["cc", "-O2", "-shared", "-fPIC", "-o", library, source, "-ldl"], check=True)
        if given.programs:
            return 0 if of_programs(given.cases, (given.names or [TOP / "crates"])[0], library, room) else 1
        of_tests(given.names or [name for name in read_lines(TOP) if name.endswith("_rows")], library)
    return 0


if __name__ == "__main__":
    sys.exit(main())
