"""Makes again what the rows say of the texts of tests/, and holds it to what is known by hand.

    python3 tools/write/make_cases.py [--real FOLDER]
    python3 tools/write/make_cases.py --check

The archives have their texts and weedle2's answers for good. Made again is, of each text that is
refused, what weedle2 doesn't say: the furthest place and the words (rows/words.py), the excerpt, and
what would mend it (rows/hints.py). Of `deep`, which weedle2 takes too long for, and of `added`,
whose rules it lacks, all is made again (rows/table_reader.py). The texts of `added` stand in
tests/added.txt. Nothing is taken from the port. tests/README.md says what stands in which file.

FOLDER has the real files, each the one that is known; without it tests/real.tar.xz stays as it is.

With --check nothing is written: it prints a line for each archive that isn't the one that
tests/INDEX lists, where `added` has other texts than tests/added.txt, and where an archive says
otherwise than tests/worked.toml.

The status is 0, or 1 where --check finds something, or where a made answer isn't as it is known by
hand. Nothing is written then.
"""

import hashlib
import sys
import unicodedata
from itertools import accumulate
from pathlib import Path

if not __package__:
    sys.path[0] = str(Path(__file__).resolve().parent.parent)

from measure.compare_with_weedle2 import DEPTH, answer_by_rows, files_of
from rows import hints as row_hints
from rows.ends import NOW
from rows.words import position, refusal
from run.families import joined, pieces_of
from shared.case_files import (
    INDEX, TESTS, Case, archive_of, cases_of, compact, folders, line_of, numbered, packed, wrong_sums,
)
from shared.command_line import parser_of, told
from shared.toml_files import loads
from shared.tree_json import plain, unescaped

# Those of which the rows say all, and the folder whose texts aren't kept.
BY_ROWS_ALONE, REAL = ("deep", "added"), "real"
ADDED = BY_ROWS_ALONE[1]
# How many characters are shown of a line.
WIDTH = 100
# What can't be seen beside control characters, or not for what it is: a blank that doesn't break, separators of lines
# and paragraphs, what has no width, a mark of byte order, and what turns the direction of a line.
UNSEEN = (
    "\u00a0\u200b\u200c\u200d\u200e\u200f\u2028\u2029\u202a\u202b\u202c\u202d\u202e\u2066\u2067\u2068\u2069\ufeff"
)


class Disagree(Exception):
    """Of which text the answers disagree."""


def added_texts(tests=TESTS):
    file = Path(tests, f"{ADDED}.txt")
    lines = file.read_text(encoding="utf-8").splitlines() if file.is_file() else []
    return [unescaped(line) for line in lines if line and not line.startswith("#")]


def worked():
    """The texts of which something is known by hand, each with what is."""
    for row in loads((TESTS / "worked.toml").read_text(encoding="utf-8"))["text"]:
        pieces = row.pop("pieces", None)
        yield joined(pieces_of(pieces), 1).decode() if pieces else row.pop("text"), row


def excerpt(text, place):
    """What weedle_check shows of a place: at most 100 characters of its line, and a mark below it."""
    line, column = position(text, place)
    shown = text.split("\n")[line - 1]
    if line <= text.count("\n"):
        shown = shown.removesuffix("\r")
    pieces = [visible(it) for it in shown]
    behind = [0, *accumulate(map(len, pieces))]
    first = min(max(behind[column - 1] - WIDTH // 2, 0), max(behind[-1] - WIDTH, 0))
    seen = [number for number in range(len(pieces)) if first <= behind[number]]
    mark = ("\t" if pieces[it] == "\t" else " " * len(pieces[it]) for it in seen if it < column - 1)
    line = (pieces[it] for it in seen if behind[it + 1] <= first + WIDTH)
    return f"{''.join(line)}\n{''.join(mark)}^\n"


def visible(character):
    """A character as it is shown: what can't be seen, or not for what it is, by its number."""
    is_control = unicodedata.category(character) == "Cc" and character != "\t"
    return f"U+{ord(character):04X}" if is_control or character in UNSEEN else character


def places(text):
    """The line and the column at which each definition of a text begins that is read whole."""
    NOW.take(text.encode())
    found, place = [], 0
    while place < len(NOW.text):
        found.append("{}:{}".format(*position(text, NOW.at["TRIVIA"](place))))
        place = NOW.at["DEFINITION"](place)
    return found


def wanted_of(text):
    """What is wanted of a text, by the rows alone."""
    by, rest = {"by": "the grammar's rows"}, NOW.end_of(text.encode())
    if rest < len(text.encode()):
        return by | {"rest": rest, **said_by_rows(text, rest)}
    answer = answer_by_rows(text, ())
    values = [plain(it) for it in answer.values]
    return by | {"list": answer.lines[:-1], "at": places(text), "value": values}


def said_by_rows(text, rest):
    """What is wanted of a text whose rest from this byte on is refused, beside that byte."""
    place, sentence = refusal(text, rest)
    at = "{}:{}".format(*position(text, place))
    hint = row_hints.line(text, rest, place)
    said = {"place": place, "at": at, "says": sentence, "shows": excerpt(text, place)}
    return said | ({"hint": hint} if hint else {})


def with_rows_again(case, text):
    """A case, which has this text, with what the rows say now where it is refused."""
    if case.is_read:
        return case
    wanted = {name: case.wanted[name] for name in ("by", "rest")} | said_by_rows(text, case.wanted["rest"])
    return Case(case.name, case.text, wanted if case.text is not None else without_text(text, wanted))


def unlike(cases):
    """What is said of the texts that are known by hand to be otherwise."""
    by_text = {case.text: case.wanted for case in cases}
    for text, known in worked():
        if text in by_text:
            wanted, shown = by_text[text], compact(by_text[text].get("value"))
            wrong = [key for key, it in known.items() if key != "value" and wanted.get(key, "") != it]
            wrong += [piece for piece in known.get("value", ()) if piece not in shown]
            yield from (f"{it} of {text[:100]!r} isn't as tests/worked.toml has it, but {wanted.get(it)!r}" for it in wrong)


# Real files, of which only sums are kept.
def sum_of(text):
    return hashlib.sha256(text.encode()).hexdigest()


def without_text(text, wanted):
    """What is kept of a file that isn't the repository's: no piece of its text."""
    kept = {"by": wanted["by"], "bytes": len(text.encode()), "sum": sum_of(text)}
    kept |= {name: wanted[name] for name in ("rest", "place", "says") if name in wanted}
    summed = ("list", "at", "value", "shows", "hint")
    return kept | {f"sum of {name}": sum_of(compact(wanted[name])) for name in summed if name in wanted}


def texts_of_real(folder):
    """The texts of the files of a folder, by the names of their cases."""
    named = {str(file.relative_to(folder).with_suffix("")).replace("/", "."): file for file in files_of(folder)}
    return {name: file.read_bytes().decode() for name, file in named.items()}


def real_cases(folder):
    """The cases of the real files, which stand in a folder."""
    texts = texts_of_real(folder)
    for case in cases_of(REAL):
        if sum_of(texts.get(case.name, "")) != case.wanted["sum"]:
            raise Disagree(f"{case.name} isn't the file that is known")
        yield with_rows_again(case, texts[case.name])


def write(tests, made):
    """Writes archives by their folders' names, and the list of all."""
    if ADDED not in made:
        (Path(tests) / archive_of(ADDED)).unlink(missing_ok=True)
    for folder, cases in made.items():
        (Path(tests) / archive_of(folder)).write_bytes(packed(cases))
    lines = [line_of(it, (Path(tests) / archive_of(it)).read_bytes(), cases_of(it, tests)) for it in folders(tests)]
    (Path(tests) / INDEX).write_text("".join(lines), encoding="utf-8")


def stale(tests=TESTS):
    """A line for each archive that isn't what is listed, or that has other texts or answers than it has to."""
    yield from wrong_sums(tests)
    texts = [case.text for case in cases_of(ADDED, tests)] if ADDED in folders(tests) else []
    if texts != added_texts(tests):
        yield f"tests/{archive_of(ADDED)}: stale, `tools/write/make_cases.py` makes other texts"
    for folder in sorted({"deep", "tests", "worked"} & {*folders(tests)}):
        yield from (f"tests/{archive_of(folder)}: {why}" for why in unlike(cases_of(folder, tests)))


def cases_anew(folder, tests=TESTS):
    """The cases of a folder whose texts are kept."""
    if folder == ADDED:
        return numbered((text, wanted_of(text)) for text in added_texts(tests))
    cases = cases_of(folder, tests)
    if folder in BY_ROWS_ALONE:
        return numbered((case.text, wanted_of(case.text)) for case in cases)
    return [with_rows_again(case, case.text) for case in cases]


def make(real):
    """All cases anew, by their folders' names."""
    kept = {*folders()} - {ADDED, REAL} | ({ADDED} if added_texts() else set())
    made = {folder: cases_anew(folder) for folder in sorted(kept)}
    wrong = [why for cases in made.values() for why in unlike(cases)]
    if wrong:
        raise Disagree("\n".join(wrong))
    return made | ({REAL: list(real_cases(real))} if real else {})


def main():
    sys.setrecursionlimit(DEPTH)
    parser = parser_of(__doc__)
    parser.add_argument("--real", metavar="FOLDER", help="where the real files are")
    parser.add_argument("--check", action="store_true", help="say what is stale, and write nothing")
    wanted = parser.parse_args()
    if wanted.check:
        return told(stale())
    try:
        write(TESTS, make(wanted.real))
    except Disagree as fault:
        return told([fault])
    return 0


if __name__ == "__main__":
    sys.exit(main())
