"""Says how long a gate from nothing would take, and what a change would cost, from measured times.

    python3 tools/gate/plan.py TIMES [--processors N].. [--memory GB] [--slower F]
    python3 tools/gate/plan.py TIMES --costs CRATE..

TIMES is a file of JSON that tools/gate/times.py wrote. The layout of the crates is read from
crates.txt, so one that is only thought of can be tried in a copy.

The gate is simulated in the order of tools/gate/ci.py, by the times and the memory that it knows: a
task for each proof, for each crate's tests, for each wrong body and the check that those of a crate
begin with (`seed`), for the static library and for each program of a release (`library`). Times are
those of one job; by two, three or four jobs a proof takes SPEED of them, and where more jobs run
than there are processors, they share them. With --memory so many GB are free when it begins, of
which the gate uses 85 hundredths. With --slower the machine takes F times as long. It prints, for
each N (4 and 2 where none is given), the minutes by the clock and of processor time.

With --costs it prints a row for each CRATE: how many crates stand above it, the minutes of
processor time of all of these and its own, and those of the longest chain among them: what a change
of it costs, though only of a body.

The status is 0, or 2 where TIMES holds no such times or a CRATE isn't there.
"""

import argparse
import json
import math
import sys
from pathlib import Path

if not __package__:
    sys.path[0] = str(Path(__file__).resolve().parent.parent)

from gate import ci
from shared.command_line import parser_of
from shared.crates import TOP, closure, files_of, read_lines

# How much faster a proof is by so many jobs, as measured over the types.
SPEED = {1: 1.0, 2: 1.8, 3: 2.4, 4: 2.9}
# What part of the memory a check takes that begins with what another one proved.
OVER = 0.7
# The kinds of tasks whose times tools/gate/ci.py knows.
KNOWN = ("proof", "tests", "edits", "seed", "library")
# What the static library takes beside the proof of its crate, where it wasn't measured: 110 s where that proof took 90.
SECONDS_OF_A_LIBRARY = 60.0
# How many GB `rt ci` expects a check to take: of itself, with what the kit's libraries take, and for each
# line of the crate's sources, of its definitions and proofs, and of the sources below it.
OF_ITSELF, OF_A_SOURCE, OF_A_PROOF, OF_A_LINE_BELOW = 1.2, 1e-3, 2e-4, 8e-5


class Task:
    """A part of the gate: what it waits for, how many lines it has, its seconds by one job, and its GB."""

    def __init__(self, waits, lines, seconds, needs):
        self.waits, self.lines, self.seconds, self.needs = waits, lines, seconds, needs


class Gate:
    """The crates of a repository with the times that were measured of them."""

    def __init__(self, root, times):
        self.root, self.rows = Path(root), read_lines(root)
        self.proof, self.programs = {**times["proof"]}, times.get("programs", {})
        for name, seconds in self.programs.items():
            self.proof[name] = self.proof.get(name, 0) + seconds
        self.tests, self.edits = times["tests"], times["edits"]
        self.library, self.peaks = times.get("library", {}), ci.remembered(times)

    def below(self, name):
        return [it for it in closure(self.rows, [name]) if it != name]

    def above(self, name):
        return [it for it in self.rows if it != name and name in closure(self.rows, [it])]

    def lines(self, name, ending=".rt"):
        files = [it for it in files_of(self.root, name) if it.endswith(ending)]
        return sum((self.root / it).read_bytes().count(b"\n") for it in files)

    def needs(self, name):
        """How many GB `rt ci` expects a check of the crate to take."""
        own = OF_A_SOURCE * self.lines(name) + OF_A_PROOF * self.lines(name, ".antt")
        return OF_ITSELF + own + OF_A_LINE_BELOW * sum(map(self.lines, self.below(name)))

    def seconds(self, name):
        """All that a crate takes."""
        return self.proof.get(name, 0) + self.tests.get(name, 0) + self.edits.get(name, (0, 0))[1]

    def tasks(self):
        """The tasks by their keys, those of lower crates first."""
        found = {}
        for name in sorted(self.rows, key=lambda it: len(self.below(it))):
            waits, lines = [(it, "proof") for it in self.below(name)], self.lines(name)
            tests, needs = self.tests.get(name, 0), self.needs(name)
            found[name, "proof"] = Task(waits, lines, self.proof.get(name, 0), needs)
            found[name, "tests"] = Task(waits, lines * (tests > 0), tests, needs)
            found.update(self.wrong_bodies(name, waits, lines, needs))
        return {**found, **dict(self.built(found))}

    def built(self, tasks):
        """The tasks that build the static library and the programs of a release."""
        expected = {ci.LIBRARY: SECONDS_OF_A_LIBRARY, **{it: self.programs.get(it, 0) for it in ci.PROGRAMS}}
        for name, seconds in expected.items():
            proof = tasks.get((name, "proof"))
            if proof:
                yield (name, "library"), Task([(name, "proof")], proof.lines, self.library.get(name, seconds), proof.needs)

    def wrong_bodies(self, name, waits, lines, needs):
        count, whole = self.edits.get(name, (0, 0))
        if not count:
            return {}
        seed, needs, each = (name, "seed"), OVER * needs, whole / (count + 1)
        one = Task([(name, "proof"), (name, "tests"), seed], lines, each, needs)
        return {seed: Task(waits, 0, each, needs), **{(name, "edits", at): one for at in range(count)}}

    def longest_chain(self, name):
        """The seconds of the longest chain of proofs from a crate up, with what ends it."""
        chain = {}
        for it in [name, *sorted(self.above(name), key=lambda other: len(self.below(other)))]:
            under = [chain[other] for other in self.below(it) if other in chain]
            chain[it] = self.proof.get(it, 0) + max(under, default=0)
        return max(chain[it] + self.tests.get(it, 0) for it in chain)


def simulated(tasks, processors, memory=math.inf, peaks=None, slower=1):
    """When each task begins and ends, in seconds, and by how many jobs, where each takes SLOWER times as long."""
    rows = {key: (it.waits, it.lines, 1e9 * it.needs, None) for key, it in tasks.items()}
    own = ci.known(rows, {key[:2]: it.seconds for key, it in tasks.items() if key[1] in KNOWN}, peaks)
    order = ci.Order(own, processors, 1e9 * memory)
    given, running, left, log, now = set(), {}, {}, {}, 0.0
    while len(given) < len(tasks):
        for key, jobs in order.begin(set(tasks) - set(log), given, running):
            left[key], log[key] = slower * tasks[key].seconds, (now, math.inf, jobs)
        share = min(1, processors / sum(running.values()))
        speeds = {key: SPEED[jobs] * share for key, jobs in running.items()}
        step = min(left[key] / speed for key, speed in speeds.items())
        now += step
        left = {key: left[key] - step * speed for key, speed in speeds.items()}
        for key in [it for it in running if left[it] < 1e-6]:
            log[key] = (log[key][0], now, running.pop(key))
            given.add(key)
    return log


def minutes(seconds):
    return f"{seconds / 60:.0f}"


def costs(crates, names):
    """A row for each crate: how many stand on it, and the minutes of a change of it, in all and along a chain."""
    yield "| A change in | Crates above | Minutes of one processor | Longest chain |"
    yield "|---|---|---|---|"
    for name in names:
        above = crates.above(name)
        whole = sum(map(crates.seconds, [name, *above]))
        yield f"| `{name}` | {len(above)} | {minutes(whole)} | {minutes(crates.longest_chain(name))} |"


def plan(crates, processors, said):
    """What is printed for a number of processors, by what was said on the command line."""
    tasks = crates.tasks()
    log = simulated(tasks, processors, ci.ROOM * said.memory, crates.peaks, said.slower)
    end, work = max(it[1] for it in log.values()), said.slower * sum(it.seconds for it in tasks.values())
    return f"{processors} processors: {minutes(end)} minutes, {minutes(work)} of processor time"


def times_in(path):
    """The times that a file holds. A file without them is no argument."""
    try:
        times = json.loads(Path(path).read_text(encoding="utf-8"))
    except (OSError, ValueError) as why:
        raise argparse.ArgumentTypeError(f"{path}: {why}") from why
    if not isinstance(times, dict) or not {"proof", "tests", "edits"} <= set(times):
        raise argparse.ArgumentTypeError(f"{path} has no times as tools/gate/times.py --json writes them")
    return times


def main():
    parser = parser_of(__doc__)
    parser.add_argument("times", type=times_in, metavar="TIMES")
    parser.add_argument("--processors", type=int, action="append")
    parser.add_argument("--memory", type=float, default=math.inf, metavar="GB")
    parser.add_argument("--slower", type=float, default=1, metavar="F")
    parser.add_argument("--costs", nargs="+", metavar="CRATE")
    said = parser.parse_args()
    crates = Gate(TOP, said.times)
    for name in said.costs or ():
        if name not in crates.rows:
            parser.error(f"there is no crate {name}")
    if said.costs:
        print(*costs(crates, said.costs), sep="\n")
        return
    for processors in said.processors or (4, 2):
        print(plan(crates, processors, said))


if __name__ == "__main__":
    sys.exit(main())
