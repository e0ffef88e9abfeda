"""Asks weedle_table where definitions, members, values and names of texts stand and how far their reading comes, and compares
that with what is wanted.

    python3 tools/run table [PROGRAM] [--most N] [--today]
    python3 tools/run table --try crates/weedle_table [--most N]

With --try it is the crate of weedle_table, which `rt try` builds and runs for each text; that takes a second and more a text,
so let N be small.

The worked texts stand in tests/table.toml, with what is wanted of each by hand. Then, of N texts of each folder of tests/
(100 where N is left out, 0 for none), the rows of the grammar say what is wanted (tools/rows/nodes.py):
which parts of the text are definitions, members and values, which are names, and which rules fail at the furthest place. A text
that isn't read whole has no places and no names.

With --today the program reads by the rules of today's WebIDL, and the rows are today's. The texts are then those of
tests/today.toml, random ones by today's rows, and those of the folders.
"""

import re
import tomllib

from rows.dialects import TODAY, WEEDLE2
from rows.nodes import ONE_TEXT, nodes_of
from rows.random_texts import Maker
from run import texts
from run.programs import add_dialect, add_program, dialect_of, meant_in
from run.report import Wrong
from shared.case_files import TESTS, cases_of, folders

WORKED = TESTS / "table.toml"
# With what the lines begin that are counted, and what they are called.
COUNTED = {"places": ("definition ", "definition"), "names": ("", "name")}
KINDS = {
    "definition": "definition", "interface_member": "member", "mixin_member": "member", "namespace_member": "member",
    "dictionary_member": "member", "enum_variant": "value",
}
KINDS |= {f"today_{rule}": kind for rule, kind in KINDS.items()} | {"today_enum_value": "value"}
# What the core of a part ends with.
ENDS = {"definition": b";", "member": b";", "value": b'"'}
BLANK = re.compile(rb"(?:[ \t\r\n]|//(?!/)[^\n]*(?:\n|\Z)|/\*.*?\*/)*", re.DOTALL)


class Part:
    """A definition, a member or a value: its bytes, those of its core, those in front of that, and its name."""

    def __init__(self, raw, kind, places):
        self.kind, self.members, self.values = kind, [], []
        self.span, self.core_span, self.front_span, self.name_span = places
        self.whole, self.core, self.front, self.name = (raw[a:b].decode() for a, b in places)


def span_of(word):
    """Where a part begins and ends; nowhere for `-`."""
    return tuple(map(int, word.split(".."))) if word != "-" else (0, 0)


def parts_of(raw, lines):
    """The definitions that are printed, each with its members and its values, and all parts in their order."""
    definitions, parts = [], []
    for line in lines:
        kind, *words = line.split()
        parts.append(Part(raw, kind, [*map(span_of, words)]))
        if kind == "definition":
            definitions.append(parts[-1])
        else:
            getattr(definitions[-1], f"{kind}s").append(parts[-1])
    return definitions, parts


def names_in(raw, lines):
    """The names that are printed: bytes, role and span of each; ValueError where the letters aren't those of the text."""
    found = []
    for line in lines:
        role, word, letters = line.split()
        start, end = span_of(word)
        text = raw[start:end].decode()
        if text.removeprefix("_") != letters:
            raise ValueError(f"{line!r} stands for {text!r}")
        found.append((text, role, (start, end)))
    return found


def as_wanted(part, wanted):
    """What is printed of a part, as far as it is wanted."""
    if isinstance(wanted, str):
        return part.whole
    said = {key: getattr(part, key) for key in wanted}
    for key in {"members", "values"} & set(said):
        said[key] = each_as_wanted(said[key], wanted[key])
    return said


def each_as_wanted(parts, wanted):
    if len(parts) != len(wanted):
        return [part.whole for part in parts]
    return [as_wanted(*pair) for pair in zip(parts, wanted)]


class Table:
    """The program, and what it says of texts by the rules of a dialect."""

    def __init__(self, program, dialect=WEEDLE2):
        self.program, self.dialect = program, dialect

    def lines(self, task, raw):
        """The lines that are printed but for the last, which says how many there are; None where the text is refused."""
        ended = self.program.run([task], given=raw)
        *lines, last = ended.stdout.decode().splitlines() or [""]
        if ended.returncode == 1 and (lines, last) == ([], "refused"):
            return None
        begins, name = COUNTED[task]
        many = sum(line.startswith(begins) for line in lines)
        if ended.returncode or last != f"{many} {name}{'s' * (many != 1)}":
            raise ValueError(f"status {ended.returncode}, {last!r}: {ended.stderr.decode(errors='replace')[:300]}")
        return lines

    def diagnosis(self, raw):
        """The furthest place, and the rules that fail there."""
        ended = self.program.run(["diagnosis"], given=raw)
        place, *rules = ended.stdout.decode().split()
        if ended.returncode:
            raise ValueError(f"status {ended.returncode}: {ended.stderr.decode(errors='replace')[:300]}")
        return int(place), sorted(rules)


def wrong_of_worked(table, row):
    """What is wrong of a worked text, or None."""
    raw = row["text"].encode()
    if "furthest" in row:
        place, rules = table.diagnosis(raw)
        if place != row["furthest"] or not set(row["fail"]) <= set(rules) or set(row["other"]) & set(rules):
            return f"at {place} fail {rules}"
    elif "definitions" not in row and "names" not in row:
        said = table.lines("places", raw), table.lines("names", raw)
        return None if said == (None, None) else "it isn't refused"
    if "definitions" in row:
        lines = table.lines("places", raw)
        said = None if lines is None else each_as_wanted(parts_of(raw, lines)[0], row["definitions"])
        if said != row["definitions"]:
            return f"{said} in place of {row['definitions']}"
    if "names" in row:
        lines = table.lines("names", raw)
        said = None if lines is None else [[text, role] for text, role, _ in names_in(raw, lines)]
        if said != row["names"]:
            return f"{said} in place of {row['names']}"
    return None


def parts_by_rows(raw, dialect=WEEDLE2):
    """The spans of definitions, members and values, by the nodes of the rows, and those of names."""
    parts, names, start = [], [], 0
    for _, name, first, end, _ in nodes_of(raw, dialect):
        if name in KINDS:
            parts.append((KINDS[name], (first, end)))
        if name == "opt_bytes_underscore":
            start = first
        if name == "identifier_text":
            names.append((start, end))
    return parts, names


def diagnosis_by_rows(raw, dialect=WEEDLE2):
    """The furthest place, and the rules that fail there, by the rows."""
    with ONE_TEXT:
        dialect.end_of(raw)
        place, rules = dialect.ends.unmet()
    return place, sorted(rule.lower() for rule in rules)


def wrong_of_rows(table, case):
    """What is wrong of a text of tests/, or None."""
    return wrong_of_text(table, case.text, case.is_read)


def wrong_of_text(table, text, is_read):
    """What is wrong of a text, which is read whole or isn't, or None."""
    raw = text.encode()
    said, wanted = table.diagnosis(raw), diagnosis_by_rows(raw, table.dialect)
    if said != wanted:
        return f"{said} in place of {wanted}"
    places, names = table.lines("places", raw), table.lines("names", raw)
    if not is_read:
        return None if (places, names) == (None, None) else "it isn't refused"
    wanted_parts, wanted_names = parts_by_rows(raw, table.dialect)
    parts = parts_of(raw, places or [])[1]
    said = [(part.kind, part.span) for part in parts]
    if said != wanted_parts:
        return f"{said} in place of {wanted_parts}"
    if any(wrong_core(raw, part) for part in parts):
        return f"another core: {[(part.front, part.core) for part in parts if wrong_core(raw, part)]}"
    said = [span for _, _, span in names_in(raw, names or [])]
    return None if said == wanted_names else f"names {said} in place of {wanted_names}"


def wrong_core(raw, part):
    """Whether the core begins or ends otherwise than the part without the blanks and comments at either end, or what stands in
    front of it isn't blanks and comments up to it."""
    (start, end), (first, last), (front, behind) = part.span, part.core_span, part.front_span
    well = start <= first < last <= end and BLANK.match(raw, start, end).end() == first
    well = well and raw[last - 1:last] == ENDS[part.kind] and BLANK.fullmatch(raw, last, end)
    return not (well and behind == first and BLANK.fullmatch(raw, front, behind))


def failures_of(table, items, wrong_of, text_of):
    """A failure, or None, for each text."""
    for item in items:
        try:
            wrong = wrong_of(table, item)
        except (ValueError, IndexError, UnicodeDecodeError) as fault:
            wrong = f"what is printed isn't known: {fault}"
        yield Wrong(text_of(item), wrong) if wrong else None


def wrong_of_today(table, text):
    """What is wrong of a text by today's rules, or None; the rows say whether it is read whole."""
    with ONE_TEXT:
        is_read = table.dialect.is_whole(text.encode())
    return wrong_of_text(table, text, is_read)


def texts_of_today(most):
    """The texts that are read by today's rules, by their kinds."""
    yield "today.toml", texts.of_today()
    maker = Maker(7, dialect=TODAY)
    yield "random by today's rows", [maker.text() for _ in range(most)]
    for folder in texts.shallow_folders() if most else ():
        yield folder, [case.text for case in cases_of(folder) if case.text is not None][:most]


def add_arguments(parser):
    add_program(parser, "weedle_table", can_be_tried=True)
    add_dialect(parser)
    parser.add_argument("--most", type=int, default=100)


def run(wanted, report):
    table = Table(meant_in(wanted, wanted.is_tried), dialect_of(wanted))
    if wanted.today:
        for kind, given in texts_of_today(wanted.most):
            report.add(kind, len(given), failures_of(table, given, wrong_of_today, lambda text: text))
        return
    worked = tomllib.loads(WORKED.read_text())["text"]
    report.add("worked", len(worked), failures_of(table, worked, wrong_of_worked, lambda row: row["text"]))
    for folder in folders() if wanted.most else ():
        cases = [case for case in cases_of(folder) if case.text is not None][:wanted.most]
        report.add(folder, len(cases), failures_of(table, cases, wrong_of_rows, lambda case: case.text))
