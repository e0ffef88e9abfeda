"""Runs `rt ci`, with an order of its own: long proofs that all others wait for get more than one processor.

    python3 tools/gate/ci.py [--library FILE] [--programs]

What is proved, built and run is rt's own, and so is what is printed: this loads the command `rt` as a module, puts a
function in the place of its scheduler, and calls its `ci`. By rt's order a proof gets a second processor only where
hardly anything else is ready. So the longest chain of proofs, which decides how long the gate takes, is walked by one
processor while others idle. Here it goes by the times of docs/gate_times.json: what has the longest chain of times
behind it begins first, and a proof of four minutes or more on the longest chain, of a crate or of its tests, gets two
processors, or three where it takes half an hour, if memory holds that. What is next on the longest chain finds its
memory: nothing begins that would be in its way. What a task takes is what was measured of it, and a tenth more.

A wrong body that names the function which it turns is tried by that function alone (tools/gate/edits.py). Before all
else the layout of all sources is looked at, which `rt ci` does crate by crate: where one isn't laid out, nothing is
proved.

With --library the static library of the crate weedle_c is built as FILE, for any x86-64 processor, over the libraries
as `rt ci` has just proved and built them, and behind it for any aarch64 processor, as FILE with `aarch64-linux` before its
last ending. With --programs the programs of a release are built so too, once they are proved: each as NAME.x86-64 beside
the program that the gate runs. Where one of all these fails what was said is printed, and there is no such file; the status
is the same.

Where `rt` has another scheduler than the one that is known here, or can't be read as Python, it is plain `rt ci`,
there is no FILE, and a line says so. The status is that of `rt ci`. `rt ci` itself gives the same verdict, later.
"""

import inspect
import json
import os
import subprocess
import sys
from concurrent.futures import FIRST_COMPLETED, ThreadPoolExecutor, wait
from contextlib import nullcontext
from pathlib import Path

if not __package__:
    sys.path[0] = str(Path(__file__).resolve().parent.parent)

from gate import edits
from shared import toolchain
from shared.command_line import parser_of
from shared.crates import TOP

TIMES = TOP / "docs/gate_times.json"
# Of a task that was never measured: its seconds for each line of its crate.
SECONDS_OF_A_LINE = 0.3
# How much later a proof may come to its end, by one processor each, and be on the longest chain, in seconds.
SLACK = 300
# From how many seconds on a proof on the longest chain gets two processors, and from how many three.
LONG, LONGEST = 240, 1800
# What is proved, and may be by several processors.
PROOFS = ("proof", "tests")
# What is done of a crate once its wrong bodies were tried: whether it is still proved, and that their results are kept.
LAST = ("sound", "again")
# With fewer processors than these none is idle for long, and each task gets one.
FEWEST = 3
# What part of the free memory is used, as rt has it.
ROOM = 0.85
# How many times the memory that was measured of a task is left for it.
SPARE = 1.1
# Of a task whose memory wasn't measured: how many times rt's figure a check takes that doesn't stand on the recursive
# types, and how many times one that does, but for the types themselves MOST bytes at most. And how much more for each
# further job. As seen: 1.3 GB of the first, 4 to 5.5 of the others, 8 of the types themselves by one job and 11 by four.
OF_A_SMALL_CHECK, OF_A_CHECK, MOST, OF_A_JOB = 0.5, 1.4, 5_500_000_000, 0.3
TYPES = "weedle_types"
# The crate of the static library, and what it is built for: the compiler's name of each, its processor, and what the name
# of the file has of it.
LIBRARY = "weedle_c"
FIRST = ("x86_64-unknown-linux-gnu", "x86-64", "")
TARGETS = (FIRST, ("aarch64-unknown-linux-gnu", "generic", ".aarch64-linux"))
# The programs of a release, which are built for the first of these, and how the names of their files end.
PROGRAMS, ENDING = ("weedle_check", "weedle_format"), ".x86-64"


class Task:
    """A task of rt: what it waits for, whether it is a proof (of a crate or of its tests), its seconds, its bytes, and the
    call that does it."""

    def __init__(self, waits, is_proof, seconds, needs, call=None):
        self.waits, self.is_proof, self.seconds = set(waits), is_proof, seconds
        self.needs, self.call = needs, call

    def memory(self, jobs):
        return self.needs * (1 + OF_A_JOB * (jobs - 1))


def expected(name, needs, waits):
    """The bytes that a check of a crate takes, by rt's figure and by what its proof waits for."""
    if name == TYPES:
        return OF_A_CHECK * needs
    return min(MOST, (OF_A_CHECK if (TYPES, "proof") in waits else OF_A_SMALL_CHECK) * needs)


def known(tasks, times, peaks=None):
    """The tasks of rt by their keys: a crate, what is done of it, and of a wrong body that is a task of its own its
    number. `peaks` is what was measured of their memory."""
    found = {}
    for key, (waits, lines, needs, call) in tasks.items():
        name, kind = key[:2]
        seconds = times.get((name, kind), SECONDS_OF_A_LINE * lines)
        peak = (peaks or {}).get((name, kind))
        memory = SPARE * peak if peak else expected(name, needs, tasks[name, "proof"][0])
        found[key] = Task(waits, kind in PROOFS, seconds, memory, call)
    return found


def times_in(file):
    """What a file of times.py holds; nothing where it isn't there."""
    return json.loads(file.read_text()) if file.is_file() else {}


def measured(times):
    """The seconds of tasks by crate and kind. Of wrong bodies those of one, which are as many as those of the check that
    they begin with."""
    if not times:
        return {}
    found = {(name, "tests"): seconds for name, seconds in times["tests"].items()}
    found |= {(name, "library"): seconds for name, seconds in times.get("library", {}).items()}
    for name, (number, whole) in times["edits"].items():
        found[name, "edits"] = found[name, "seed"] = whole / (number + 1)
    for name, seconds in times["proof"].items():
        found[name, "proof"] = seconds + times["programs"].get(name, 0)
    return found


def remembered(times):
    """The bytes of tasks by crate and kind. A program is built where its proof is."""
    kinds = {"programs": ["proof"], "edits": ["edits", "seed"]}
    found = {}
    for kind, memory in times.get("memory", {}).items():
        for key in ((name, it) for name in memory for it in kinds.get(kind, [kind])):
            found[key] = max(found.get(key, 0), 1e9 * memory[key[0]])
    return found


def chains(tasks):
    """Of each task the seconds of the longest chain that ends before it, and of the longest that begins with it."""
    ahead, behind = {}, {key: 0 for key in tasks}
    for key, task in tasks.items():
        ahead[key] = max((ahead[it] + tasks[it].seconds for it in task.waits), default=0)
    for key in reversed([*tasks]):
        behind[key] += tasks[key].seconds
        for it in tasks[key].waits:
            behind[it] = max(behind[it], behind[key])
    return ahead, behind


class Order:
    """Which task begins, and by how many jobs."""

    def __init__(self, tasks, processors, memory):
        self.tasks, self.processors, self.room = tasks, processors, memory
        self.ahead, self.behind = chains(tasks)
        self.longest = max(self.behind.values(), default=0)

    def wish(self, key):
        """How many jobs a task is to have."""
        task = self.tasks[key]
        slack = self.longest - self.ahead[key] - self.behind[key]
        if self.processors < FEWEST or not task.is_proof or slack > SLACK or task.seconds < LONG:
            return 1
        return 3 if task.seconds >= LONGEST else 2

    def jobs(self, key, running):
        """By how many jobs a ready task begins beside those that run; 0 where it has to wait.

        One that is to have several begins where all but one of them lack an idle processor, and by as many as memory
        holds. Where nothing runs a task begins however little memory there is."""
        wish, idle = self.wish(key), self.processors - sum(running.values())
        left = self.room - sum(self.tasks[it].memory(jobs) for it, jobs in running.items())
        for jobs in range(min(wish, idle + wish - 1), 0, -1):
            if self.tasks[key].memory(jobs) <= left or jobs == 1 and not running:
                return jobs
        return 0

    def next_on_chain(self, key, waiting, given, running):
        """The task with the longest chain behind it of those that wait for tasks which run, and for no others, or
        `key` where that is longer."""
        lacking = {it: self.tasks[it].waits.difference(given) for it in waiting}
        coming = [it for it, waits in lacking.items() if waits and waits.issubset(running)]
        return max([key, *coming], key=self.behind.get)

    def leaves_room(self, key, waiting, given, running):
        """Whether what comes next on the longest chain finds its memory beside this task, once that has ended which it
        waits for. Where nothing runs there is room."""
        coming = self.next_on_chain(key, waiting, given, running)
        if coming == key or not running:
            return True
        beside = [(key, 1), *((it, jobs) for it, jobs in running.items() if it not in self.tasks[coming].waits)]
        taken = sum(self.tasks[it].memory(jobs) for it, jobs in beside)
        return taken + self.tasks[coming].memory(self.wish(coming)) <= self.room

    def begin(self, waiting, given, running):
        """The tasks that begin now, with their jobs: what keeps the results of wrong bodies, so that a run which is cut
        off keeps them, and then the one with the longest chain behind it first."""
        for key in sorted(waiting, key=lambda it: (it[1] not in LAST, -self.behind[it])):
            if self.tasks[key].waits.issubset(given) and self.leaves_room(key, waiting, given, running):
                jobs = self.jobs(key, running)
                if jobs:
                    running[key] = jobs
                    yield key, jobs


def run_all(order):
    """Runs the tasks, each once those that it waits for have ended, and gives what each gave."""
    waiting, given, running, futures = set(order.tasks), {}, {}, {}
    with ThreadPoolExecutor(len(order.tasks) or 1) as pool:
        while waiting or running:
            for key, jobs in order.begin(set(waiting), given, running):
                waiting.remove(key)
                futures[pool.submit(order.tasks[key].call, given, jobs)] = key
            for done in wait(futures, return_when=FIRST_COMPLETED).done:
                key = futures.pop(done)
                running.pop(key)
                given[key] = done.result()
    return given


def ran_well(rt, crate, command, triple):
    """Runs a command in a crate's folder; whether that went well. Where it didn't what it said is printed."""
    how = {"stdin": subprocess.DEVNULL, "stdout": subprocess.PIPE, "stderr": subprocess.STDOUT, "errors": "replace"}
    ran = subprocess.run([*rt.rtlib.guarded(), *command], cwd=crate.folder, check=False, **how)
    if ran.returncode:
        print(f"{ran.stdout}ci.py: {crate.name} isn't built over what is proved, for {triple}", flush=True)
    return not ran.returncode


def build(rt, crate, file, jobs, target=FIRST):
    """Builds the static library, or the object file of a program, over the libraries as they stand; whether that went well."""
    triple, cpu, _ = target
    words = crate.words(["--jobs", str(jobs), "--target", triple, "--cpu", cpu], keeps=False)
    toolchain = ["--toolchain", f"{rt.KIT}/toolchain", "--backend", "llvm"]
    return ran_well(rt, crate, [rt.rtlib.RATTLE, "build", *words, *toolchain, "-o", str(file)], triple)


def build_libraries(rt, crate, file, jobs):
    """Builds the static library for each target; whether all went well."""
    files = [file.with_suffix(f"{more}{file.suffix}") for _, _, more in TARGETS]
    return all([build(rt, crate, it, jobs, target) for it, target in zip(files, TARGETS)])


def build_program(rt, crate, jobs):
    """Builds a program as a release has it; whether that went well."""
    program, triple = Path(crate.folder, "out", f"{crate.name}{ENDING}"), FIRST[0]
    made = f"{program}.o"
    link = [f"{rt.KIT}/bin/rattle-link", "--target", triple, "--toolchain", f"{rt.KIT}/toolchain", "-o", str(program), made]
    of_c = [f"{rt.KIT}/c/libos_c.a", f"{rt.KIT}/c/liblibc_c.a"]
    return build(rt, crate, made, jobs) and ran_well(rt, crate, [*link, *of_c], triple)


def crates_of(rt):
    """The crates of the repository, as rt knows them; in older kits its own call moves what earlier runs left."""
    top = os.getcwd()
    if [*inspect.signature(rt.crates_of).parameters] == ["root", "aside"]:
        return rt.rtlib.crates_below(top)
    return rt.crates_of(top)


def with_built(tasks, rt, library=None, programs=()):
    """The tasks, and behind the proofs of the static library and of programs those that build them. They are for whoever
    comes after `rt ci`, so nothing that goes wrong here ends that."""
    calls = {name: build_program for name in programs}
    if library:
        calls[LIBRARY] = lambda rt, crate, jobs: build_libraries(rt, crate, library, jobs)
    try:
        # While nothing runs, since this looks through the folders that crates are built in.
        crates = {it.name: it for it in crates_of(rt)}
        return {**tasks, **{(name, "library"): built(tasks, rt, crates[name], call) for name, call in calls.items()}}
    except (AttributeError, KeyError) as why:
        print(f"ci.py: {' '.join(calls)} can't be built over what is proved: {why!r}", flush=True)
        return tasks


def built(tasks, rt, crate, build_it):
    """The task that builds something of a crate, behind its proof."""
    proof = crate.name, "proof"
    _, lines, needs, _ = tasks[proof]

    def call(given, jobs):
        try:
            return given[proof] and build_it(rt, crate, jobs)
        except (AttributeError, OSError, SystemExit, TypeError) as why:
            print(f"ci.py: {crate.name} isn't built over what is proved: {why!r}", flush=True)
            return False

    return [proof], lines, needs, call


def scheduler(rt, times, peaks=None, library=None, programs=()):
    """What stands in the place of rt's `in_lanes`."""

    def in_lanes(tasks):
        if library or programs:
            tasks = with_built(tasks, rt, library, programs)
        # Where wrong bodies are tasks of their own, what they begin with is removed in the end.
        with getattr(rt, "ending", nullcontext)():
            return run_all(Order(known(tasks, times, peaks), rt.processors(), ROOM * rt.free()))

    return in_lanes


def is_known(rt):
    """Whether the scheduler is the one that is known here: it takes the tasks alone, each what it waits for, its
    lines, its memory and a call that takes what was given and how many jobs it may use."""
    try:
        words = " ".join(inspect.getdoc(rt.in_lanes).split())
        given = [*inspect.signature(rt.in_lanes).parameters]
        calls = [rt.processors, rt.free, rt.ci]
    except (AttributeError, TypeError):
        return False
    task = "A task is what it waits for, its work in lines, its memory, and a call that gets what was given"
    return given == ["tasks"] and task in words and all(map(callable, calls))


def out_of_layout(rt):
    """The crates that `rt ci` would refuse for their layout, some of them after hours. It says of each file that it is."""
    try:
        return [it.name for it in crates_of(rt) if rt.rtlib.fmt(it.folder, "--check", sys.stdout)]
    except AttributeError:
        return []


def main():
    parser = parser_of(__doc__)
    parser.add_argument("--library", type=Path, metavar="FILE")
    parser.add_argument("--programs", action="store_true")
    said = parser.parse_args()
    path = toolchain.command()
    if path is None:
        print("ci.py: there is no command rt on PATH", file=sys.stderr)
        return 2
    os.chdir(TOP)
    rt = toolchain.load(path)
    if rt is None or not is_known(rt):
        print("ci.py: this rt has another scheduler, so it keeps its own order", flush=True)
        return subprocess.run(["rt", "ci"], check=False).returncode
    refused = out_of_layout(rt)
    if refused:
        print(f"ci.py: run rt fmt in {' '.join(refused)}\n0 passed, {len(refused)} failed")
        return 1
    edits.replace(rt)
    times = times_in(TIMES)
    library, programs = said.library and said.library.resolve(), PROGRAMS if said.programs else ()
    rt.in_lanes = scheduler(rt, measured(times), remembered(times), library, programs)
    return rt.main(["ci"])


if __name__ == "__main__":
    sys.exit(main())
