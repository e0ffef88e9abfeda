"""Reads texts of today's WebIDL with a built weedle_check, by its rules and by weedle2's, and compares what it says.

    python3 tools/run today [PROGRAM] [--seed N] [--most N]

The texts are those of tests/today.toml, N random ones by today's rows (600 where it is left out), as many near misses of these,
and 300 of each folder of tests/ at most, but for what nests deep. By hand is of the first which are read, what is read of the others, and of some why they
are refused; all else is by the rows of the grammar (tools/rows/dialects.py). With --today the program has to print

- of each text that is refused the message: the furthest place, the words for what would go on there, the excerpt and the hint;
- of each that is read the nodes of its syntax tree.

Without it the message of a text that weedle2's rules refuse has to end with the line "today's WebIDL reads it: --today" where
today's rules read the text whole, and nowhere else.
"""

from __future__ import annotations

from argparse import ArgumentParser, Namespace
from collections.abc import Callable, Iterator
from functools import partial

from rows import hints as row_hints
from rows.dialects import TODAY, WEEDLE2, Dialect
from rows.nodes import ONE_TEXT
from rows.random_texts import Maker
from rows.words import position, refusal
from run import texts
from run.cases import TOGETHER, check_all, in_rooms, syntax_all
from run.programs import Built, Tried, With, add_program, meant
from run.report import Failure, Report, Wrong, compared
from shared.case_files import Case, cases_of, numbered
from write.make_cases import excerpt

OF_FOLDER = 300
Program = Built | Tried | With
Work = Callable[[Program, list[Case], str], list["Failure | None"]]


def rest_of(text: str, dialect: Dialect) -> int:
    """The byte up to which a text is read."""
    with ONE_TEXT:
        return dialect.end_of(text.encode())


def wanted_of(text: str, dialect: Dialect) -> dict[str, object]:
    """What is wanted of a text: nothing where it is read, else what is said of it."""
    rest = rest_of(text, dialect)
    if rest == len(text.encode()):
        return {}
    place, says = refusal(text, rest, dialect)
    hint = row_hints.line(text, rest, place, dialect)
    at = "{}:{}".format(*position(text, place))
    return {"rest": rest, "at": at, "says": says, "shows": excerpt(text, place)} | ({"hint": hint} if hint else {})


def wrong_by_hand(row: dict[str, str], is_read: bool) -> str | None:
    """What the rows say otherwise of a text than what is by hand, or None."""
    wanted = wanted_of(row["text"], TODAY)
    if is_read or not wanted:
        return None if is_read == (not wanted) else f"the rows have {wanted}"
    front = row["text"].encode()[:int(str(wanted["rest"]))].decode()
    is_wrong = front != row.get("front", "") or any(row.get(key, wanted[key]) != wanted[key] for key in ("at", "says"))
    return f"the rows have {wanted}" if is_wrong else None


def by_hand() -> Iterator[Wrong | None]:
    """A failure, or None, for each text that is by hand, where the rows say otherwise."""
    for kind, rows in texts.today_file().items():
        for row in rows:
            wrong = wrong_by_hand(row, kind == "read")
            yield Wrong(row["name"], wrong) if wrong else None


def kinds(wanted: Namespace) -> Iterator[tuple[str, list[str]]]:
    """The texts, by their kinds."""
    maker = Maker(wanted.seed, dialect=TODAY)
    made = [maker.text() for _ in range(wanted.most)]
    yield "today.toml", texts.of_today()
    yield "random by today's rows", made
    yield "near by today's rows", [maker.near(text) for text in made]
    for folder in texts.shallow_folders():
        found = [case.text for case in cases_of(folder) if case.text is not None][:OF_FOLDER]
        if found:
            yield folder, found


def compare(program: Program, work: Work, cases: list[Case]) -> list[Failure | None]:
    """What a piece of work finds of cases, so many at a time."""
    parts = [cases[start:start + TOGETHER] for start in range(0, len(cases), TOGETHER)]
    return [it for found in in_rooms(program, [(work, part) for part in parts]) for it in found]


def cases_by(given: list[str], dialect: Dialect) -> list[Case]:
    return list(numbered((text, wanted_of(text, dialect)) for text in given))


def add_arguments(parser: ArgumentParser) -> None:
    add_program(parser, "weedle_check")
    parser.add_argument("--seed", type=int, default=11)
    parser.add_argument("--most", type=int, default=600, metavar="N", help="so many random texts")


def run(wanted: Namespace, report: Report) -> None:
    program = meant(wanted.program)
    today = With(program, TODAY.options)
    found = list(by_hand())
    report.add("by hand, by the rows", len(found), found)
    for kind, given in kinds(wanted):
        cases = cases_by(given, TODAY)
        report.add(f"{kind}: messages", len(cases), compare(today, check_all, cases))
        whole = [case for case in cases if case.is_read]
        report.add(f"{kind}: nodes", len(whole), compare(today, partial(syntax_all, dialect=TODAY), whole))
        refused = [case for case in cases_by(given, WEEDLE2) if not case.is_read]
        report.add(f"{kind}: the last line", len(refused), compare(program, check_all, refused))
