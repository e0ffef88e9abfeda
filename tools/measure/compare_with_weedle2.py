"""Reads texts with the port and with weedle2, and says of how many the answers are the same.

    python3 tools/measure/compare_with_weedle2.py [--seed N] [--random N] [--near N] [--prefixes BYTES]
        [--changed N] [--folder FOLDER].. [--port PATH] [--list PATH] [--weedle2 PATH]

Build first weedle_check and weedle_list (`rt run` in their crates) and the program of compare/
(its README.md says how); the last three options say where they stand, where it isn't there.

The texts are
- those that stand in the tests of this repository, each string of their files;
- N random ones, made of the seed by the grammar's own rows, and N that are nearly such; of each of
  the first 200 each prefix, and N times one with a byte changed;
- each file of a FOLDER (*.webidl, *.idl, *.widl), N times with a byte changed, and, up to BYTES
  bytes, each of its prefixes.

An answer is what weedle_list prints of the text and, where it is read whole, the value of each
definition, in weedle2's words: RENAMED has what is called otherwise in the port on purpose. Where
the answers differ, the text is read by the rows of the grammar (rows/table_reader.py): as they are,
which must give the port's answer, and with the fewest of the three rules that were changed on
purpose as they were before, which must give weedle2's. All else is a failure, and the text is
printed with both answers.

It ends with a line of counts, and, for each folder, how many files are read whole, and where the
others are stopped. The status is 0, 1 where answers differ that these rules don't explain, and 2
where a program isn't there or doesn't do.
"""

import itertools
import re
import subprocess
import sys
import tempfile
from collections import Counter
from pathlib import Path

if not __package__:
    sys.path[0] = str(Path(__file__).resolve().parent.parent)

from rows.ends import CHANGED
from rows.random_texts import Maker
from rows.table_reader import Table
from shared.case_files import cases_of
from shared.command_line import ended, parser_of
from shared.crates import TOP, Unfit, read_lines
from shared.toml_files import loads
from shared.tree_json import Held, Struct, definition_of, read, unescaped

PORT = TOP / "crates/weedle_check/out/weedle_check"
LIST = TOP / "crates/weedle_list/out/weedle_list"
WEEDLE2 = TOP / "compare/target/release/compare"
SUFFIXES = (".webidl", ".idl", ".widl")
STRING = re.compile(r'"((?:[^"\\]|\\.)*)"', re.S)
BETWEEN = "typedef any between_two_texts;"
# What comes of texts of which the answers are the same, and of others where no rule explains it.
ALIKE, DIFFERENT = ("read whole", "left"), "different"
# How many texts a process is given.
TOGETHER = 500
# How many random texts are cut.
CUT = 200
# How many failures are printed.
SHOWN = 20
DEPTH = 20_000

# The names that differ from weedle2's on purpose: of variants and tuples, of structs, and of fields.
RENAMED = {
    "Type_": "Type", "RecordTypes": None, "ParenthesizedArgumentList": "Parenthesized",
}
RENAMED_FIELDS = {"record_": "record"}


class Answer:
    """The lines that weedle_list prints of a text, and the values of its definitions where it is read whole."""

    def __init__(self, lines, values):
        self.lines, self.values = lines, values

    def __eq__(self, other):
        return (self.lines, self.values) == (other.lines, other.values)

    def __str__(self):
        return " / ".join(self.lines) + "".join(f"\n    {value!r}" for value in self.values or [])


def renamed(value):
    """A value of the port in weedle2's words."""
    if isinstance(value, list):
        return [renamed(it) for it in value]
    if isinstance(value, Held):
        return Held(RENAMED.get(value.name, value.name), renamed(value.values))
    if isinstance(value, Struct):
        fields = {RENAMED_FIELDS.get(name, name): renamed(field) for name, field in value.fields.items()}
        return Struct(RENAMED.get(value.name, value.name), fields)
    return value


def parts_between(out):
    """What `weedle_check --tree` writes of each text, without what it writes of BETWEEN behind it; and what comes last."""
    return re.split(r'^\d+:\d+ .*"between_two_texts".*\n', out, flags=re.M)


def output_of(words, text=None):
    """What a program writes; a status of more than 1 is none of an answer."""
    try:
        done = subprocess.run(words, input=text, capture_output=True, check=False)
    except OSError as fault:
        raise Unfit(f"{words[0]}: {fault.strerror}") from None
    if done.returncode not in (0, 1):
        raise Unfit(f"{words[0]}: status {done.returncode}: {done.stderr.decode(errors='replace').strip()}")
    return done.stdout.decode()


class Weedle2:
    def __init__(self, program):
        self.program = program

    def answers(self, files):
        """The answers of the texts in files, in their order."""
        parts = re.split(r"^== .*\n", output_of([self.program, *files]), flags=re.M)[1:]
        if len(parts) != len(files):
            raise Unfit(f"{self.program}: {len(parts)} answers of {len(files)} texts")
        return [self.answer(part.splitlines()) for part in parts]

    def answer(self, lines):
        if not lines[-1].startswith("definitions "):
            return Answer(lines[-1:], None)
        values = [read(text) for text in map(definition_of, lines) if text is not None]
        return Answer([line for line in lines if not line.startswith(" ")], values)


class Port:
    def __init__(self, check, lister):
        self.check, self.lister = check, lister

    def answers(self, files):
        lists = [output_of([self.lister], Path(file).read_bytes()).splitlines() for file in files]
        whole = [file for file, lines in zip(files, lists) if lines[-1].startswith("definitions ")]
        values = iter(self.values(whole) if whole else [])
        return [Answer(lines, next(values) if lines[-1].startswith("definitions ") else None) for lines in lists]

    def values(self, files):
        """The values of the texts in files, all of which are read whole."""
        with tempfile.TemporaryDirectory() as room:
            between = Path(room) / "between"
            between.write_text(BETWEEN)
            words = [word for file in files for word in (file, str(between))]
            *parts, _ = parts_between(output_of([self.check, "--tree", *words]))
        if len(parts) != len(files):
            raise Unfit(f"{self.check}: {len(parts)} trees of {len(files)} texts")
        texts = [filter(None, map(definition_of, part.splitlines())) for part in parts]
        return [[renamed(read(it)) for it in part] for part in texts]


TITLES = {
    "Callback": "callback", "CallbackInterface": "callback interface", "Interface": "interface", "InterfaceMixin": "interface mixin",
    "Namespace": "namespace", "Dictionary": "dictionary", "PartialInterface": "partial interface",
    "PartialInterfaceMixin": "partial interface mixin", "PartialDictionary": "partial dictionary",
    "PartialNamespace": "partial namespace", "Enum": "enum", "Typedef": "typedef", "IncludesStatement": "includes",
    "Implements": "implements",
}


def answer_by_rows(text, older):
    """What the rows give of a text, those of the rules `older` as they were before."""
    end, values = Table(older).read(text)
    if end < len(text.encode()):
        return Answer([f"unread at byte {end}"], None)
    titles = []
    for value in values:
        fields = value.values[0].fields
        name = fields.get("identifier") or fields["lhs_identifier"]
        titles.append(f"{TITLES[value.name]} {name.values[0]}")
    return Answer([*titles, f"definitions {len(values)}"], renamed(values))


def explanation(text, port, weedle2):
    """The rules that were changed on purpose by which weedle2's answer is what it is, or None."""
    if answer_by_rows(text, ()) != port:
        return None
    for count in range(1, len(CHANGED) + 1):
        for older in itertools.combinations(CHANGED, count):
            if answer_by_rows(text, older) == weedle2:
                return older
    return None


def worked_texts():
    """Each string of the tests of crates, and each text that stands in tests/ by hand."""
    tests = [name for name in read_lines(TOP) if name.endswith("_rows") or name == "weedle_testing"]
    for crate in tests:
        for file in sorted((TOP / "crates" / crate / "src").rglob("*.rt")):
            yield from map(unescaped, STRING.findall(file.read_text(encoding="utf-8")))
    yield from (case.text for case in cases_of("tests"))
    for name in ("layouts", "table"):
        for rows in loads((TOP / f"tests/{name}.toml").read_text(encoding="utf-8")).values():
            yield from (row[key] for row in rows for key in ("text", "laid_out") if key in row)


def prefixes(text):
    return (text[:end] for end in range(len(text)))


def made_texts(wanted):
    maker = Maker(wanted.seed)
    texts = [maker.text() for _ in range(wanted.random)]
    yield "random", texts
    yield "near misses", [maker.near(texts[n % len(texts)]) for n in range(wanted.near if texts else 0)]
    yield "prefixes", [part for text in texts[:CUT] for part in prefixes(text)]
    yield "a byte changed", [maker.with_a_byte_changed(text) for text in texts[:CUT] for _ in range(wanted.changed)]


def folder_texts(files, wanted):
    maker = Maker(wanted.seed)
    texts = [file.read_bytes().decode() for file in files]
    yield "files", texts
    yield "prefixes of files", [part for text in texts if len(text.encode()) <= wanted.prefixes for part in prefixes(text)]
    yield "files with a byte changed", [maker.with_a_byte_changed(text) for text in texts for _ in range(wanted.changed)]


def files_of(folder):
    files = sorted(file for file in Path(folder).rglob("*") if file.suffix in SUFFIXES)
    if not files:
        raise Unfit(f"{folder} has no file of {', '.join(SUFFIXES)}")
    return files


def in_files(texts, room):
    """The paths of files of a folder with these texts."""
    files = [f"{room}/{number}.idl" for number in range(len(texts))]
    for file, text in zip(files, texts):
        Path(file).write_bytes(text.encode())
    return files


class Comparison:
    """Both programs, and how many texts there were by what came: ALIKE, otherwise on purpose, or DIFFERENT."""

    def __init__(self, port, weedle2):
        self.port, self.weedle2, self.counts = port, weedle2, Counter()

    def add(self, texts):
        texts = list(texts)
        for start in range(0, len(texts), TOGETHER):
            self.add_together(texts[start:start + TOGETHER])

    def add_together(self, texts):
        with tempfile.TemporaryDirectory() as room:
            files = in_files(texts, room)
            for text, port, weedle2 in zip(texts, self.port.answers(files), self.weedle2.answers(files)):
                self.counts[self.kind_of(text, port, weedle2)] += 1

    def kind_of(self, text, port, weedle2):
        """What came of a text. What differs otherwise than on purpose is printed."""
        if port == weedle2:
            return ALIKE[port.values is None]
        older = explanation(text, port, weedle2)
        if older:
            return " and ".join(older)
        if self.counts[DIFFERENT] < SHOWN:
            print(f"DIFFERENT: {text!r}\n  port: {port}\n  weedle2: {weedle2}")
        return DIFFERENT

    def line(self):
        explained = {what: count for what, count in sorted(self.counts.items()) if what not in (*ALIKE, DIFFERENT)}
        whole, left, different = (self.counts[it] for it in (*ALIKE, DIFFERENT))
        return (f"{self.counts.total()} texts: {whole} read whole and {left} left alike, "
                f"{sum(explained.values())} otherwise on purpose"
                + "".join(f", {count} by {what}" for what, count in explained.items()) + f", {different} different")


def compare(sources, port, weedle2, total):
    """Compares texts, source by source, with a line for each."""
    for name, texts in sources:
        one = Comparison(port, weedle2)
        one.add(texts)
        print(f"{name}: {one.line()}", flush=True)
        total.counts += one.counts


def tell_of_files(folder, files, port):
    """How many files the port reads whole, and where the others are stopped."""
    stopped = [file for file in files if subprocess.run([port.check, file], capture_output=True, check=False).returncode]
    print(f"{folder}: {len(files) - len(stopped)} of {len(files)} files are read whole, "
          f"{sum(file.stat().st_size for file in files)} bytes in all")
    for file in stopped:
        print("  " + output_of([port.check, str(file)]).splitlines()[0].replace(f"{folder}/", ""))


def arguments():
    words = parser_of(__doc__)
    words.add_argument("--seed", type=int, default=7)
    for name, count in (("random", 2_000), ("near", 2_000), ("prefixes", 400), ("changed", 3)):
        words.add_argument(f"--{name}", type=int, default=count)
    words.add_argument("--folder", action="append", default=[])
    for name, path in (("port", PORT), ("list", LIST), ("weedle2", WEEDLE2)):
        words.add_argument(f"--{name}", default=str(path))
    return words.parse_args()


def main():
    sys.setrecursionlimit(DEPTH)
    wanted = arguments()
    port, weedle2 = Port(wanted.port, wanted.list), Weedle2(wanted.weedle2)
    total = Comparison(port, weedle2)
    compare([("the tests", sorted(set(worked_texts())))], port, weedle2, total)
    compare(made_texts(wanted), port, weedle2, total)
    for folder in wanted.folder:
        files = files_of(folder)
        compare(folder_texts(files, wanted), port, weedle2, total)
        tell_of_files(folder, files, port)
    print(f"seed {wanted.seed}: {total.line()}")
    return 1 if total.counts[DIFFERENT] else 0


if __name__ == "__main__":
    sys.exit(ended(main))
