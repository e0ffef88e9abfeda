"""Runs of the programs that are written by hand, in tests/runs.toml, format.toml and memory.toml: arguments, files, and what
is to come of them.

A run has the keys
    what        what it shows
    program     weedle_check or weedle_list, in tests/format.toml weedle_format, and in tests/memory.toml any of these
    arguments   the arguments; none where it is left out
    files       the texts of files, by their names
    bytes       the bytes of files in hexadecimal, by their names
    folders     names of folders that lie beside the files
    links       names of symbolic links, and where they lead
    modes       modes of files and folders, in octal
    after       the texts that files have behind it; all others are as they were, untouched, and there are no others
    input       the text on standard input; or input_bytes, in hexadecimal; or input_folder = true: a folder
    breaks      true: behind this text a read of standard input fails, as where a connection breaks off
    output      "full": a device that takes no byte; or a number: a file that takes so many bytes
    memory      how many bytes of address space the program has; one that is built with checks has none to spare
                for them, so no request of it may be for so many
    built       true: a build with checks takes too long for it
    unprivileged  true: it isn't for root
    status, stdout, stderr    what is to come; stdout and stderr are nothing where they are left out
    stdout_like, stderr_like  the same as a regular expression, for what differs from run to run
    asks        what it asks for at most, of memory, as tools/run/memory.py says
A text may be a table of front, piece, times and back: the piece so many times, between the two others. Where it has a
number `checked`, the piece stands so many times for a program that is built with checks, which takes long; and TIMES in
what is to come is the number that was taken.
"""

import os
import re
import resource
import signal
import socket
import subprocess
import tempfile
from pathlib import Path

from run.report import compared
from shared.case_files import TESTS
from shared.toml_files import loads

RUNS = "runs"
SECONDS = 120
KEYS = set(
    "what program arguments files bytes folders links modes after input input_bytes input_folder breaks output memory built "
    "unprivileged status stdout stderr stdout_like stderr_like asks".split()
)


def text_of(value):
    """A text, or what a table makes one of."""
    if isinstance(value, str):
        return value
    return value.get("front", "") + value["piece"] * value["times"] + value.get("back", "")


def shorter(value):
    """The text that a program with checks is given."""
    return value | {"times": value["checked"]} if isinstance(value, dict) and "checked" in value else value


class Run:
    def __init__(self, keys):
        if not KEYS.issuperset(keys):
            raise ValueError(f"a run has the keys {sorted(set(keys) - KEYS)}")
        self.keys = keys
        # What the environment has more, and what a program with checks is told more.
        self.env, self.checks = {}, ""
        self.what, self.program, self.memory = keys["what"], keys["program"], keys.get("memory")
        # How many bytes the output takes, where it is a file that takes only some.
        self.room = keys["output"] if isinstance(keys.get("output"), int) else None

    def is_for(self, is_checked):
        """Whether it is for such a build, and for who runs it."""
        return not (is_checked and self.keys.get("built") or self.keys.get("unprivileged") and os.geteuid() == 0)

    def wanted(self):
        """What is to come, in one text."""
        out, err = (self.keys.get(f"{name}_like", self.keys.get(name, "")) for name in ("stdout", "stderr"))
        changed = (f"{name}: {text!r}\n" for name, text in sorted(self.keys.get("after", {}).items()))
        return shown(self.keys["status"], out, err) + "".join(changed)

    def texts(self):
        """The texts of the files, and the one on standard input."""
        return [*self.keys.get("files", {}).values(), *([self.keys["input"]] if "input" in self.keys else [])]

    def for_checks(self):
        """The same with the shorter texts that a program with checks is given."""
        keys = self.keys | {"files": {name: shorter(text) for name, text in self.keys.get("files", {}).items()}}
        if "input" in keys:
            keys["input"] = shorter(keys["input"])
        return Run(keys)

    def came(self, program):
        """What came, in one text; where it is like what is wanted, as that has it."""
        with tempfile.TemporaryDirectory() as room:
            self.lay(Path(room))
            before = files_in(Path(room))
            status, out, err = self.ended(program, room)
            changed = "".join(changes(before, files_in(Path(room))))
        return shown(status, self.as_wanted("stdout", out), self.as_wanted("stderr", err)) + changed

    def as_wanted(self, name, text):
        pattern = self.keys.get(f"{name}_like")
        times = "".join(str(text["times"]) for text in self.texts() if isinstance(text, dict))
        return pattern if pattern and re.fullmatch(pattern.replace("TIMES", times), text) else text

    def lay(self, room):
        """Lays the files and the folders."""
        for name in self.keys.get("folders", ()):
            (room / name).mkdir()
        for name, text in self.keys.get("files", {}).items():
            (room / name).write_bytes(text_of(text).encode())
        for name, digits in self.keys.get("bytes", {}).items():
            (room / name).write_bytes(bytes.fromhex(digits))
        for name, target in self.keys.get("links", {}).items():
            (room / name).symlink_to(target)
        for name, mode in self.keys.get("modes", {}).items():
            (room / name).chmod(int(mode, 8))

    def given(self):
        if "input_bytes" in self.keys:
            return bytes.fromhex(self.keys["input_bytes"])
        return text_of(self.keys.get("input", "")).encode()

    def ended(self, program, room):
        words = [program, *self.keys.get("arguments", ())]
        with open("/dev/full" if self.keys.get("output") == "full" else f"{room}/.output", "w+b") as out, \
                (broken_off if self.keys.get("breaks") else kept)(self.given()) as given:
            how = {"cwd": room, "stdin": given, "stdout": out, "stderr": subprocess.PIPE, "timeout": SECONDS,
                   "env": os.environ | self.env}
            if self.keys.get("input_folder"):
                how["stdin"] = subprocess.DEVNULL
                words = ["sh", "-c", 'exec "$@" < .', "sh", *words]
            try:
                done = subprocess.run(words, check=False, **how | self.limits(program, room))
            except subprocess.TimeoutExpired:
                return -1, "", f"it hadn't ended after {SECONDS} s\n"
            written = b"" if self.keys.get("output") == "full" else Path(f"{room}/.output").read_bytes()
        return done.returncode, written.decode(errors="replace"), done.stderr.decode(errors="replace")

    def limits(self, program, room):
        """How a program is run that has little memory, or an output with little room."""
        found, how = [], {}
        if self.memory and has_checks(program):
            most = f"allocator_may_return_null=1:max_allocation_size_mb={self.memory >> 20}:log_path={room}/.checks{self.checks}"
            how["env"] = os.environ | self.env | {"ASAN_OPTIONS": most}
        elif self.memory:
            found.append((resource.RLIMIT_AS, self.memory))
        if self.room is not None:
            found.append((resource.RLIMIT_FSIZE, self.room))
        return how | {"preexec_fn": lambda: limit(found)} if found else how


def files_in(room):
    """The files of a folder: of each its text, its mode and what shows that it was touched; of a link where it leads."""
    found = {}
    for path in room.rglob("*"):
        name = path.relative_to(room).as_posix()
        if path.is_symlink():
            found[name] = (os.readlink(path), "")
        elif path.is_file() and not name.startswith("."):
            is_now = path.stat()
            text = path.read_bytes().decode(errors="replace")
            found[name] = (text, f"{is_now.st_mode & 0o777:o}", is_now.st_ino, is_now.st_mtime_ns)
    return found


def changes(before, behind):
    """A line for each file that isn't as it was: its text now, and its mode where that is another."""
    for name in sorted(before.keys() | behind.keys()):
        was, now = before.get(name), behind.get(name)
        if now is None:
            yield f"{name} is gone\n"
        elif was != now:
            yield f"{name}: {now[0]!r}" + f", with mode {now[1]}" * (was is not None and was[1] != now[1]) + "\n"


def kept(content):
    """A file with this content, from its front on."""
    file = tempfile.TemporaryFile()
    file.write(content)
    file.seek(0)
    return file


def broken_off(content):
    """A connection that gives this content, and breaks off behind it: it was closed with a byte that nobody had read."""
    end, other = socket.socketpair()
    end.send(b"x")
    other.sendall(content)
    other.close()
    return end


def limit(found):
    """Sets limits of a process. One that writes more than a file takes is answered so, and not killed."""
    signal.signal(signal.SIGXFSZ, signal.SIG_IGN)
    for what, most in found:
        resource.setrlimit(what, (most, most))


def has_checks(program):
    """Whether a program is built with checks of each access, as `rt try` builds one."""
    return b"__asan_init" in Path(program).read_bytes()


def failures_of(program, found):
    """A failure, or None, for each of these runs that are for the program."""
    is_checked = has_checks(program)
    return [compared(it.what, it.wanted(), it.came(program)) for it in found if it.is_for(is_checked)]


def shown(status, out, err):
    return f"status {status}\nstandard output:\n{out}standard error:\n{err}"


def runs(file=TESTS / f"{RUNS}.toml"):
    return [Run(keys) for keys in loads(Path(file).read_text(encoding="utf-8"))["run"]]
