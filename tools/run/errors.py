"""Sows syntax errors in random texts, and compares what weedle_recover makes of them with what is wanted.

    python3 tools/run errors [PROGRAM] [--texts N] [--errors N ..] [--seed N] [--today] [--verbose]
    python3 tools/run errors [PROGRAM] --files FILE.. [--errors N ..] [--today]

Of N texts (100 where it is left out) of 3 kB and more, with 1, 3 and 10 errors each (sown_errors.py), it looks at this. With
--files the texts are those of files, which aren't the repository's. With --today the random texts have what today's WebIDL has,
and program and rows go by its rules.

- By the rows of the grammar (tools/rows/ends.py): the parts join to the text; the rule of each part is read there from its
  start to its end, or fails at its start; there are as many nodes as the rows give.
- By what was sown: every definition and member in which no error stands is read; each error is told at its line, by an unread
  part of its own whose reading comes furthest there, by the rows; a part that no error has is a false one, where unread parts
  that stand side by side count as one.

The line of each number of errors says how many of 100 are told, false, and kept. A text passes where the rows agree. With 3 errors
a text 97 of 100 have to be told, 3 of 100 may be false at most, and all definitions and 99 of 100 members have to be kept.
"""

import random
from pathlib import Path

from rows.dialects import WEEDLE2
from rows.ends import FAILS
from rows.nodes import parts_of
from run import sown_errors
from run.programs import add_dialect, add_program, dialect_of, meant_in
from run.report import Wrong
from run.todays import without_line

LEAST = 3_000
WANTED = {"told": 97, "false": 3, "definitions": 100, "members": 99}


class Part:
    """A part, as the program prints it."""

    def __init__(self, line):
        word, rule, *places = line.split()
        self.is_read, self.rule = {"read": True, "unread": False}[word], rule.upper()
        self.start, self.end, self.definition = map(int, places)


def parts_in(program, text):
    """The parts of a text, and how many nodes are laid down."""
    ended = program.run([], given=text.encode())
    *lines, last = without_line(ended.stdout.decode()).splitlines() or [""]
    if ended.returncode or not last.endswith(" nodes"):
        raise ValueError(f"status {ended.returncode}: {ended.stderr.decode(errors='replace')[:300]}")
    return [Part(line) for line in lines], int(last.split()[0])


def wrong_by_rows(raw, parts, nodes, dialect=WEEDLE2):
    """What is wrong of the parts by the rows of the grammar, or None."""
    dialect.ends.take(raw)
    place, counted = 0, 0
    for part in parts:
        end = dialect.ends.at[part.rule](part.start)
        if part.start != place or part.definition > part.start:
            return f"{part.rule} begins at {part.start}"
        if (end == FAILS) == part.is_read or part.is_read and end != part.end:
            return f"{part.rule} at {part.start} ends at {end}"
        counted += part.is_read and count_of(part.rule, part.start, dialect)
        place = part.end
    if place != len(raw):
        return f"the last part ends at {place}"
    return None if counted == nodes else f"{nodes} nodes in place of {counted}"


def count_of(rule, place, dialect=WEEDLE2):
    """How many nodes a rule has that is read at a place."""
    waiting, count = [(rule, place)], 0
    while waiting:
        count += 1
        waiting += parts_of(dialect.ends, *waiting.pop())
    return count


def is_whole(text, dialect=WEEDLE2):
    return dialect.is_whole(text.encode())


def told_at(raw, part, dialect=WEEDLE2):
    """The furthest byte to which the reading of an unread part comes, by the rows."""
    if part.start == part.end:
        return part.start
    front = dialect.members.get(part.rule, "").encode()
    start = part.start if front else part.definition
    dialect.end_of(front + raw[start:part.end])
    return start + max(0, dialect.ends.unmet()[0] - len(front))


def line_of(raw, place):
    return raw.count(b"\n", 0, place) + 1


def lines_told(raw, part, dialect=WEEDLE2):
    """The lines that an unread part tells: that of its furthest byte, and that of the word before it."""
    place = told_at(raw, part, dialect)
    words = sown_errors.tokens_of(raw[part.definition:place].decode("latin-1"))
    before = part.definition + words[-1][0] if words else place
    return {line_of(raw, place), line_of(raw, before)}


def matched(covers):
    """How many errors have an unread part of their own."""
    owner = {}

    def take(error, seen):
        for part in covers[error]:
            if part not in seen:
                seen.add(part)
                if part not in owner or take(owner[part], seen):
                    owner[part] = error
                    return True
        return False

    return sum(take(error, set()) for error in range(len(covers)))


def groups(parts):
    """For each unread part the number of its group: unread parts that stand side by side are one."""
    numbers, was_read = [], True
    for part in parts:
        if not part.is_read:
            numbers.append(numbers[-1] + was_read if numbers else 0)
        was_read = part.is_read
    return numbers


class Tally:
    """What came of all texts with so many errors."""

    def __init__(self, dialect=WEEDLE2):
        self.dialect = dialect
        self.errors = self.told = self.false = 0
        self.kept = {"definitions": [0, 0], "members": [0, 0]}

    def add(self, raw, parts, places):
        unread = [part for part in parts if not part.is_read]
        told = [lines_told(raw, part, self.dialect) for part in unread]
        covers = []
        for first, behind in places:
            lines = set(range(line_of(raw, first), line_of(raw, behind - 1) + 1))
            at_line = [i for i, some in enumerate(told) if some & lines]
            around = [i for i, part in enumerate(unread) if part.start <= first + 1 and first <= part.end + 1]
            self.told += bool(at_line)
            covers.append(at_line + around)
        self.errors += len(places)
        group = groups(parts)
        self.false += len(set(group)) - matched([[group[part] for part in parts_of_one] for parts_of_one in covers])

    def keep(self, kind, wanted, found):
        self.kept[kind][0] += sum(one in found for one in wanted)
        self.kept[kind][1] += len(wanted)

    def figures(self):
        """Of 100 errors how many are told, and false; of 100 definitions and members how many are kept."""
        figures = {"told": 100 * self.told / self.errors, "false": 100 * self.false / self.errors}
        for kind, (kept, all_) in self.kept.items():
            figures[kind] = 100 * kept / max(1, all_)
        return figures


def clean(text):
    """The words of a text, without comments."""
    return " ".join(word for _, word in sown_errors.tokens_of(text))


def read_in(raw, parts, dialect=WEEDLE2):
    """The definitions and the members that are read, without comments; a definition by its own parts too."""
    whole, members = set(), set()
    for part in parts:
        is_definition = part.is_read and part.rule in (dialect.item, dialect.definition)
        if is_definition:
            whole.add(clean(raw[part.start:part.end].decode()))
        if part.is_read and part.rule in dialect.members:
            members.add(clean(raw[part.start:part.end].decode()))
        if is_definition:
            dialect.ends.take(raw)
            below = members_below(part.rule, part.start, dialect)
            members |= {clean(raw[start:end].decode()) for start, end in below}
    return whole, members


def members_below(definition, place, dialect=WEEDLE2):
    waiting = [(definition, place)]
    while waiting:
        rule, start = waiting.pop()
        if rule in dialect.members:
            yield start, dialect.ends.at[rule](start)
        else:
            waiting += parts_of(dialect.ends, rule, start)


def wanted_of(definitions, errors):
    """The definitions and the members in which no error stands, and beside which none does."""
    whole, members, place = [], [], 0
    for pieces in definitions:
        start = place
        for piece in pieces:
            if piece.startswith("  ") and not any(place <= error.place <= place + len(piece) for error in errors):
                members.append(clean(piece))
            place += len(piece)
        if not any(start <= error.place <= place for error in errors):
            whole.append(clean("".join(pieces)))
    return whole, members


def errors_in(text, maker, count, dialect=WEEDLE2):
    """So many errors, each of which alone makes the text unreadable, apart from one another."""
    errors = []
    while len(errors) < count:
        error = sown_errors.one_error(text, maker)
        if error is None or any(abs(error.place - other.place) < 3 for other in errors):
            continue
        if not is_whole(sown_errors.sown(text, [error])[0], dialect):
            errors.append(error)
    return errors


def tallied(program, texts, count, wanted):
    """The tally of texts with so many errors each, and what the rows find wrong."""
    dialect, maker = dialect_of(wanted), random.Random(wanted.seed + count)
    tally, failures = Tally(dialect), []
    for definitions in texts:
        text = sown_errors.joined(definitions)
        errors = errors_in(text, maker, count, dialect)
        changed, places = sown_errors.sown(text, errors)
        raw = changed.encode()
        parts, nodes = parts_in(program, changed)
        wrong = wrong_by_rows(raw, parts, nodes, dialect)
        if wrong:
            failures.append(Wrong(changed, wrong))
            continue
        before = tally.told
        tally.add(raw, parts, places)
        if wanted.verbose and tally.told - before < count:
            print([error.kind for error in sorted(errors, key=lambda error: error.place)], changed, sep="\n")
        without, has = wanted_of(definitions, errors), read_in(raw, parts, dialect)
        for kind, one, other in zip(("definitions", "members"), without, has):
            tally.keep(kind, one, other)
    return tally, failures


def texts_of(options):
    if options.files:
        return [[[Path(name).read_text()]] for name in options.files]
    maker = (sown_errors.TodayMaker if options.today else sown_errors.Maker)(options.seed)
    return [maker.text(LEAST) for _ in range(options.texts)]


def falls_short(count, figures):
    """Which figures are less than wanted, with three errors a text."""
    if count != 3:
        return []
    short = [kind for kind in ("told", "definitions", "members") if figures[kind] < WANTED[kind]]
    return short + ["false"] * (figures["false"] > WANTED["false"])


def add_arguments(parser):
    add_program(parser, "weedle_recover")
    add_dialect(parser)
    parser.add_argument("--texts", type=int, default=100)
    parser.add_argument("--errors", type=int, nargs="+", default=[1, 3, 10])
    parser.add_argument("--seed", type=int, default=7)
    parser.add_argument("--files", nargs="+")
    parser.add_argument("--verbose", action="store_true")


def run(wanted, report):
    program, texts = meant_in(wanted), texts_of(wanted)
    for count in wanted.errors:
        tally, failures = tallied(program, texts, count, wanted)
        figures = tally.figures()
        said = ", ".join(f"{kind} {value:.1f}" for kind, value in figures.items())
        report.add(f"{count} errors a text", len(texts), failures, f"; {tally.errors} errors, of 100: {said}")
        short = falls_short(count, figures)
        report.add(f"figures of {count} errors a text", len(WANTED) * (count == 3), [Wrong(said, f"{it} falls short") for it in short])
