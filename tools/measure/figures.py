"""Measures readers, bindings and refusals: the figures of docs/COMPARED.md.

    python3 tools/measure/figures.py readers|bindings|refusals|text|machine
        [--size BYTES] [--rounds N] [--seed N] [--folder FOLDER]..

Texts are one of mixed definitions (mixed_text.py), and of each FOLDER its files that weedle2 reads whole, joined. weedle2's
lines require the program of compare/ (its README.md says how), and are left out where it isn't built.

- `readers`, over weedle_check and weedle_list: nanoseconds a byte of weedle2 and of each of the port's readers; instructions
  a byte, by callgrind where it is on PATH, with the freeing of the list; the kB that a process held at most, by GNU time.
- `bindings`, over python/weedle/libweedle.so: nanoseconds of processor time a byte, the median of N, through C and in each
  way through Python; and the kB that a process held at most, above one that only holds the text.
- `refusals`, over the same: of texts of one definition that is refused at its end, nanoseconds a byte, the least of N: to
  read it, to say how far the reading comes, and that with the changes that are tried. Last a mistake in front of many.
- `text` writes the mixed text; `machine` says what `rt selftest` takes. The status is 0, or 2 where something is missing.
"""

import argparse
import contextlib
import dataclasses
import functools
import re
import resource
import shutil
import statistics
import subprocess
import sys
import tempfile
import time
from pathlib import Path

if not __package__:
    sys.path[0] = str(Path(__file__).resolve().parent.parent)

from measure.compare_with_weedle2 import LIST, PORT, WEEDLE2, Weedle2, files_of, output_of
from measure.mixed_text import Mixed
from shared.command_line import ended, parser_of
from shared.crates import TOP, Unfit

MORE, PART = 10, 10
# The function of weedle_check that times a reader, its readers, of which `parse_quick` is a look and descent, and what frees.
TIMED, LETTING_GO = "weedle_check::timing::time_reader", "weedle_idl::definition::Definition::drop"
DESCENT, TABLE = "weedle_front::descent::parse_by_descent", "weedle_front::reader::parse"
MEMO = "weedle_front::bounded::parse_bounded"
LOOK = "weedle_nesting::look::look_over"
# What a definition begins with, what it repeats, and a slip at its end; where a byte order mark stands no change is tried.
REFUSED = {
    "an interface": ("interface A {\n", "  readonly attribute unsigned long length{};\n", "  attribute long\n};\n"),
    "operations": ("interface A {\n", "  undefined send{}(DOMString data, optional long mode = 0);\n", "  void f(;\n};\n"),
    "a dictionary": ("dictionary A {\n", "  required sequence<long> mode{};\n", "  long\n};\n"),
    "a namespace": ("namespace A {\n", "  Promise<long> read{}(USVString name);\n", "  long\n};\n"),
    "an enum": ("enum A {\n", '  "value{}",\n', "  ,\n};\n"),
    "a callback": ("callback A = undefined (\n", "  optional (long or Node) argument{},\n", "  long\n);\n"),
}
WHOLE, SLIP = "interface A{} {{ attribute long x; void f(long y, long z); }};\n", "interface B { atribute long x; };\n"


def instructions(words, text=""):
    """How many instructions a run takes, and what callgrind writes of it; None where it isn't there."""
    if not shutil.which("valgrind"):
        return None, ""
    with tempfile.TemporaryDirectory() as room:
        command = ["valgrind", "--tool=callgrind", f"--callgrind-out-file={room}/out", *words]
        done = subprocess.run(command, input=text.encode(), capture_output=True, check=False)
        if not (found := re.search(rb"Collected : (\d+)", done.stderr)):
            raise Unfit(f"valgrind {words[0]}: {done.stderr.decode(errors='replace').strip()}")
        return int(found[1]), Path(room, "out").read_text()


def calls_of(text):
    """How often each function calls each other, by their names, and how many instructions these calls take in all."""
    names, found, caller, called, times = {}, {}, None, None, 0
    for line in text.splitlines():
        if times:
            count, taken = found.get((caller, called), (0, 0))
            found[caller, called], times = (count + times, taken + int(line.split()[-1])), 0
        elif number := re.fullmatch(r"(c?)fn=\((\d+)\)(?: (.*))?", line):
            name = names.setdefault(number[2], (number[3] or "").partition("::<")[0])
            caller, called = (caller, name) if number[1] else (name, called)
        elif number := re.match(r"calls=(\d+) ", line):
            times = int(number[1])
    return found


def of_weedle2(wanted, file):
    """What weedle2 takes for a file, as its program says it, or that it is left out."""
    if not shutil.which(wanted.weedle2):
        return "left out, since its program isn't built"
    return output_of([wanted.weedle2, "--time", str(wanted.rounds), str(file)]).rpartition(f"{file}: ")[2].strip()


def of_readers(name, text, short, wanted):
    """Prints what weedle2 and the port's readers take."""
    data, room = text.encode(), wanted.room
    file, part = room / "text.webidl", room / "part.webidl"
    file.write_bytes(data)
    part.write_text(short)
    print(f"{name}, {len(data)} bytes:\n  weedle2: {of_weedle2(wanted, file)}")
    for line in output_of([PORT, "--time", str(file)]).splitlines():
        print(f"  port: {line.replace(str(file), 'the text')}")
    if shutil.which("time"):
        runs = {"": ([PORT, file], b""), " with the list written": ([LIST], data)}
        for how, (words, given) in runs.items():
            held = subprocess.run(["time", "-f", "%M", *words], input=given, capture_output=True, check=False).stderr
            print(f"  port: {held.split()[-1].decode()} kB held{how}")
    if not shutil.which("valgrind"):
        return
    if shutil.which(wanted.weedle2):
        one, more = (instructions([wanted.weedle2, "--time", str(count), str(file)])[0] for count in (1, 1 + MORE))
        print(f"  weedle2: {(more - one) / MORE / len(data):.0f} instructions a byte")
    listed = (instructions([LIST], text)[0] - instructions([LIST])[0]) / len(data)
    calls = calls_of(instructions([PORT, "--time", part])[1])
    taken = {it: calls.get((TIMED, it), (1, 0)) for it in (DESCENT, LOOK, MEMO, TABLE, LETTING_GO)}
    descent, look, memo, table = (taken[it][1] / taken[it][0] for it in (DESCENT, LOOK, MEMO, TABLE))
    going = taken[LETTING_GO][1] / (taken[DESCENT][0] + taken[MEMO][0] + taken[TABLE][0])
    readers = {"parse_by_descent": descent, "parse_quick": look + descent, "parse_bounded": memo, "parse": table}
    print("".join(f"  port: {it} {(count + going) / len(short.encode()):.1f} instructions a byte\n" for it, count in readers.items())
          + f"  port: {listed:.0f} instructions a byte, with the list written")


def nanoseconds(call, data, rounds):
    """The processor time of each of so many calls, a byte."""
    taken = []
    for _ in range(rounds):
        began = time.process_time_ns()
        call(data)
        taken.append((time.process_time_ns() - began) / len(data))
    return taken


@functools.cache
def fields_of(kind):
    return [it.name for it in dataclasses.fields(kind)] if dataclasses.is_dataclass(kind) else []


def each_field(found):
    waiting = list(found)
    while waiting:
        it = waiting.pop()
        waiting += it if isinstance(it, (list, tuple)) else [getattr(it, name) for name in fields_of(type(it))]


def ways():
    """The ways to read a text, by their names."""
    sys.path.insert(0, str(TOP / "python"))
    try:
        import weedle
        from weedle import _library
    except ImportError as fault:
        raise Unfit(fault) from None

    def looked_at(read, look):
        return lambda data: (found := read(data), look(found))

    def members(found):
        for it in found:
            if isinstance(it, weedle.Definition.Interface):
                for member in it.value.members.body:
                    getattr(member.value, "identifier", None)

    each = {
        "members": members, "each value": lambda found: [it._node for it in found.walk()], "each field of each": each_field,
        "each name": lambda found: [it.role for it in found.names()], "as JSON": lambda found: [it.to_json() for it in found],
    }
    return _library, {
        "through C": _library.read_nodes, "syntax": weedle.syntax, "parse": weedle.parse,
        "syntax, each node": looked_at(weedle.syntax, lambda root: [node.rule for node in root.walk()]),
    } | {f"parse, {name}": looked_at(weedle.parse, look) for name, look in each.items()}


def of_bindings(name, text, _, wanted):
    """Prints what each way takes, and what a process of its own holds."""
    file = wanted.room / "text.webidl"
    file.write_bytes(data := text.encode())
    print(f"{name}, {len(data)} bytes:\n  weedle2: {of_weedle2(wanted, file)}")
    held = [sys.executable, __file__, "bindings", "--held", str(file)]
    empty = int(output_of([*held, "nothing"]))
    for way, read in ways()[1].items():
        taken = statistics.median(nanoseconds(read, data, wanted.rounds))
        print(f"  {way}: {taken:.0f} ns a byte, {int(output_of([*held, way])) - empty} kB", flush=True)


def tell_held(file, way):
    """Prints the most kB that this process held, which has read the file so."""
    data, known = Path(file).read_bytes(), ways()[1]
    kept = known[way](data) if way in known else None
    print(re.search(r"VmHWM:\s*(\d+) kB", Path("/proc/self/status").read_text(encoding="utf-8"))[1])
    del kept


def of_refusals(wanted):
    library = ways()[0]
    explain = functools.partial(library.explain, start=0)

    def least(call, data):
        return min(nanoseconds(call, data, wanted.rounds))

    def read(data):
        with contextlib.suppress(library.Unread):
            library.read_nodes(data)

    for name, (front, part, end) in REFUSED.items():
        whole = front + "".join(part.replace("{}", str(number + 1)) for number in range(wanted.size // len(part)))
        marked, slipped = f"{whole}\ufeff".encode(), f"{whole}{end}".encode()
        plain, diagnosed, hinted = least(read, marked), least(explain, marked), least(explain, slipped)
        print(f"{name}, {len(marked)} bytes: read {plain:.0f} ns a byte, diagnosed {diagnosed - plain:.0f}, with hints {hinted - plain:.0f}")
    many = (SLIP + "".join(WHOLE.format(number) for number in range(wanted.size // 40))).encode()
    print(f"a slip in front of {len(many)} bytes: {least(explain, many) * len(many) / 1e6:.2f} ms")


def of_machine():
    output_of(["rt", "selftest"])
    taken = resource.getrusage(resource.RUSAGE_CHILDREN)
    print(f"rt selftest: {taken.ru_utime + taken.ru_stime:.0f} s of processor time")


def of_texts(wanted, measured):
    """Measures the mixed text and the files of each folder."""
    def whole(folder):
        files = files_of(folder)
        answers = Weedle2(wanted.weedle2).answers([*map(str, files)])
        return [file for file, answer in zip(files, answers) if answer.values is not None]

    with tempfile.TemporaryDirectory() as room:
        wanted.room, texts = Path(room), [Mixed(wanted.seed).text(size) for size in (wanted.size, wanted.size // PART)]
        measured(f"definitions made of seed {wanted.seed}", *texts, wanted)
        for folder in wanted.folder:
            texts = ["\n".join(it.read_text() for it in files) + "\n" for files in (whole(folder), whole(folder)[::PART])]
            measured(f"the files of {folder}", *texts, wanted)


def main():
    parser = parser_of(__doc__)
    parser.add_argument("what", choices=("readers", "bindings", "refusals", "text", "machine"))
    for name, number in (("seed", 7), ("size", None), ("rounds", None)):
        parser.add_argument(f"--{name}", type=int, default=number)
    parser.add_argument("--folder", action="append", default=[])
    parser.add_argument("--weedle2", default=str(WEEDLE2))
    parser.add_argument("--held", nargs=2, help=argparse.SUPPRESS)
    wanted = parser.parse_args()
    wanted.size = wanted.size or (100_000 if wanted.what == "refusals" else 1_000_000)
    wanted.rounds = wanted.rounds or (5 if wanted.what == "bindings" else 15)
    measures = {
        "readers": lambda: of_texts(wanted, of_readers), "bindings": lambda: of_texts(wanted, of_bindings), "machine": of_machine,
        "refusals": lambda: of_refusals(wanted), "text": lambda: print(Mixed(wanted.seed).text(wanted.size), end=""),
    }
    tell_held(*wanted.held) if wanted.held else measures[wanted.what]()


if __name__ == "__main__":
    sys.exit(ended(main))
