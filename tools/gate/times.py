"""Says what the gate's time goes into, crate by crate.

    python3 tools/gate/times.py [--json FILE] [COMMAND..]

It runs the command, or `rt ci` where none is given, and looks twice a second at the processes below
it: whose crate each works for, how much processor time it has taken, and how much memory. When the
command has ended it prints how long each kind of work took, and writes FILE, which tools/gate/plan.py takes: the
date and the machine; `proof`, `tests` (their proof, and the building of their program), `programs` and
`library` (what is built for others), the seconds of processor time by crate; `edits`, how many wrong
bodies there are and what they take in all; `memory`, by kind and crate the most GB that a task took
at one time, by one job (of several, what tools/gate/ci.py expects each further one to take is left out).

To compare two machines, divide by what `rt selftest` takes on each: it proves and builds one small crate of the
toolchain, always the same.

It needs Linux, whose /proc it reads. A process that lives for less than half a second may be missed.
It ends with the command's status, or with 2 where the command can't be run.
"""

import argparse
import datetime
import json
import os
import re
import subprocess
import sys
import time
from pathlib import Path

if not __package__:
    sys.path[0] = str(Path(__file__).resolve().parent.parent)

from gate.ci import FIRST, LIBRARY, OF_A_JOB, PROGRAMS
from shared.command_line import ended, parser_of
from shared.crates import TOP

TICKS = os.sysconf("SC_CLK_TCK")
PAGE = os.sysconf("SC_PAGE_SIZE")
INTERVAL = 0.5
# At each which look memory is asked for: of a check of several GB by many jobs this takes the kernel a tenth of a second.
LOOKS = 40
KINDS = ("proof", "tests", "edits", "programs", "library")
# Of a process with less memory than this, in bytes, it isn't counted.
SMALL = 50_000_000


def look_at(pid, boot):
    """The parent of a process, when it began, the processor time that it has taken so far, and its memory in bytes."""
    fields = Path(f"/proc/{pid}/stat").read_text().rpartition(")")[2].split()
    taken = sum(map(int, fields[11:13])) / TICKS
    return int(fields[1]), boot + int(fields[19]) / TICKS, taken, int(fields[21]) * PAGE


def bytes_in(file, name, otherwise):
    """The bytes that a file of /proc gives under a name, or `otherwise` where it doesn't."""
    try:
        said = re.search(rf"^{name}:\s+(\d+) kB", Path(file).read_text(), re.MULTILINE)
    except OSError:
        said = None
    return 1024 * int(said[1]) if said else otherwise


def memory_of(taken):
    """The memory of the processes of a task, by what each has now: of one alone the most so far, and of several, which
    share a part, their shares."""
    if len(taken) == 1:
        return max(bytes_in(f"/proc/{pid}/status", "VmHWM", now) for pid, now in taken.items())
    return sum(bytes_in(f"/proc/{pid}/smaps_rollup", "Pss", now) for pid, now in taken.items())


def all_processes(boot):
    found = {}
    for name in filter(str.isdigit, os.listdir("/proc")):
        try:
            found[int(name)] = look_at(name, boot)
        except (OSError, IndexError, ValueError):
            pass
    return found


def is_below(pid, root, processes):
    while pid in processes and pid != root:
        pid = processes[pid][0]
    return pid == root


class Sampler:
    """What was seen of each process below one."""

    def __init__(self, root, log):
        self.root, self.log, self.seen, self.looks = root, log, {}, 0
        self.boot = time.time() - float(Path("/proc/uptime").read_text().split()[0])

    def sample(self):
        processes = all_processes(self.boot)
        below = {it for it in processes if is_below(it, self.root, processes)}
        for pid in below:
            self.note(pid, *processes[pid][1:3])
        if self.looks % LOOKS == 0:
            self.note_memory({pid: processes[pid][3] for pid in below if processes[pid][3] >= SMALL})
        self.looks += 1
        for pid in set(self.seen) - below:
            self.end(pid)

    def note_memory(self, taken):
        """Notes of each process what all processes of its task take. A check by several jobs has forked copies."""
        tasks = {}
        for pid, now in taken.items():
            tasks.setdefault(task_of(self.seen[pid]), {})[pid] = now
        for those in tasks.values():
            whole = memory_of(those)
            for pid in those:
                self.seen[pid]["memory"] = max(self.seen[pid].get("memory", 0), whole)

    def note(self, pid, began, taken):
        it = self.seen.get(pid)
        if it is None or it["start"] != began:
            it = self.seen[pid] = {"start": began, "words": [], "cwd": ""}
        try:
            words = Path(f"/proc/{pid}/cmdline").read_text().split("\0")[:-1]
            # A process that has ended and isn't waited for yet has none.
            it["words"] = words or it["words"]
            it["cwd"] = os.readlink(f"/proc/{pid}/cwd")
        except OSError:
            pass
        it["cpu"] = taken

    def end(self, pid):
        self.log.append(self.seen.pop(pid))


def run(command):
    """Runs a command; its status, and what was seen of each process."""
    log = []
    process = subprocess.Popen(command)
    sampler = Sampler(process.pid, log)
    while process.poll() is None:
        sampler.sample()
        time.sleep(INTERVAL)
    return process.returncode, [*log, *sampler.seen.values()]


def crate_of(entry):
    words = entry["words"]
    if "--crate-name" in words[:-1]:
        return words[words.index("--crate-name") + 1]
    found = re.search(r"/crates/(\w+)(?:/|$)", entry["cwd"])
    return found[1] if found else None


def kind_of(entry):
    words = " ".join(entry["words"])
    if "rt-edit" in words or "rt-edit" in entry["cwd"]:
        return "edits"
    if "--test" in entry["words"] or "_tests" in words:
        return "tests"
    if crate_of(entry) == LIBRARY and ("build" in entry["words"] or "clang" in words):
        return "library"
    if crate_of(entry) in PROGRAMS and f"--cpu {FIRST[1]} " in words:
        return "library"
    if "src/main.rt" in entry["words"] or "clang" in words:
        return "programs"
    return "proof"


def task_of(entry):
    """What a process works for: a crate, a kind, and of wrong bodies the folder that tells one from another."""
    return crate_of(entry), kind_of(entry), entry["cwd"]


def jobs_of(entry):
    words = entry["words"]
    given = words[words.index("--jobs") + 1] if "--jobs" in words[:-1] else "1"
    return int(given) if given.isdigit() else 1


def wrong_bodies(crate):
    """How many wrong bodies of a crate the gate tries."""
    return len([*(TOP / "crates" / crate / "must-fail").glob("*.edit")])


class Times:
    """Seconds of processor time and the most memory in GB, by kind and crate."""

    def __init__(self, log):
        self.by = {kind: {} for kind in KINDS}
        self.memory = {kind: {} for kind in KINDS}
        for entry in log:
            if crate := crate_of(entry):
                self.add(crate, entry)

    def add(self, crate, entry):
        kind = kind_of(entry)
        self.by[kind][crate] = self.by[kind].get(crate, 0) + entry["cpu"]
        most = entry.get("memory", 0) / (1 + OF_A_JOB * (jobs_of(entry) - 1)) / 1e9
        if most:
            self.memory[kind][crate] = max(self.memory[kind].get(crate, 0), most)

    def as_json(self):
        said = {kind: {k: round(v, 1) for k, v in self.by[kind].items()} for kind in KINDS}
        memory = {kind: {k: round(v, 2) for k, v in self.memory[kind].items()} for kind in KINDS}
        edits = {k: [wrong_bodies(k), v] for k, v in said["edits"].items()}
        date = str(datetime.date.today())
        return {"date": date, "machine": machine(), **said, "edits": edits, "memory": memory}


def machine(said=None):
    """How many processors there are and their name, with how fast they are where the name says no GHz."""
    said = Path("/proc/cpuinfo").read_text() if said is None else said
    name, speed = (re.search(rf"{it}\s*: (.*)", said) for it in ("model name", "cpu MHz"))
    words = f"{os.cpu_count()} processors, {name[1] if name else 'of no name'}"
    return f"{words} @ {float(speed[1]) / 1000:.2f}GHz" if speed and "GHz" not in words else words


def main():
    parser = parser_of(__doc__)
    parser.add_argument("--json", type=Path, metavar="FILE")
    parser.add_argument("command", nargs=argparse.REMAINDER, metavar="COMMAND")
    said = parser.parse_args()
    status, log = run(said.command or ["rt", "ci"])
    times = Times(log)
    if said.json:
        said.json.write_text(json.dumps(times.as_json(), indent=1) + "\n")
    for kind, seconds in times.by.items():
        print(f"{kind}: {sum(seconds.values()) / 60:.0f} minutes of one processor")
    return status


if __name__ == "__main__":
    sys.exit(ended(main, faults=[ValueError]))
