"""Has built programs read texts and write them anew, and looks whether what was written says the same.

    python3 tools/run prints [CHECK FORMAT] [--real FOLDER] [--weedle2 PROGRAM] [--seed N] [--random N] [--most N]

CHECK is a built weedle_check, FORMAT a built weedle_format. The texts are those of tests/ that are read whole, N of a
folder at most; N random ones, made of the seed by the grammar's rows; and with --real each file of a FOLDER. What
`weedle_check --print` writes of each

- is read as the same definitions: `weedle_check --tree` prints the same values of both;
- is written by --print as it is;
- is laid out already: `weedle_format --check` doesn't name it;
- with --weedle2, the program of compare/, is read by weedle2 as the same values, where it reads the text whole; it isn't
  asked of the folder `deep`.

Of the worked texts in tests/prints.toml it is what stands there by hand.
"""

import functools
import re
import tempfile
import tomllib
from argparse import ArgumentParser, Namespace
from pathlib import Path

from measure.compare_with_weedle2 import Weedle2
from rows.random_texts import Maker
from run import texts
from run.programs import Built, meant, place_of
from run.report import Failure, Report
from shared.case_files import TESTS
from shared.crates import Unfit

# The worked texts, and what they are called.
WORKED, BY_HAND = TESTS / "prints.toml", "worked texts"
# A definition between two texts: as it is written, and what --tree prints of it.
BETWEEN = "typedef any between_two_texts;\n"
TREE_BETWEEN = re.compile(r'^\d+:\d+ .*"between_two_texts".*\n', re.M)
# Where a definition stands, and the line that counts files.
PLACE = re.compile(r"^\d+:\d+ ", re.M)
COUNT = re.compile(r"\d+ files?, \d+ refused\n\Z")


class Programs:
    """The programs that are run: weedle_check, weedle_format, and weedle2 or None."""

    def __init__(self, check: Built, layout: Built, weedle2: Weedle2 | None = None) -> None:
        self.check, self.layout, self.weedle2 = check, layout, weedle2

    def output(self, program: Built, words: list[str], names: list[str], room: Path) -> str:
        """What a program writes with these arguments of the files of a folder."""
        ended = program.run(words, names, room)
        if ended.returncode not in (0, 1) or ended.stderr:
            raise Unfit(f"{program.program} {words}: status {ended.returncode}: {ended.stderr.decode(errors='replace')[:500]}")
        return ended.stdout.decode()

    def refused(self, names: list[str], room: Path) -> set[str]:
        """The names of the files that aren't read whole."""
        lines = self.output(self.check, [], names, room).splitlines()
        return {name for name in names if any(line.startswith(f"{name}:") for line in lines)}

    def between(self, option: str, names: list[str], separator: re.Pattern[str], room: Path) -> list[str]:
        """What weedle_check writes with an option of each of these files."""
        words = [word for name in names for word in (name, "between")]
        parts = re.split(separator, COUNT.sub("", self.output(self.check, [option], words, room)))
        if len(parts) != len(names) + 1 or parts[-1]:
            raise Unfit(f"{self.check.program} {option}: {len(parts) - 1} answers of {len(names)} texts")
        return parts[:-1]

    def trees(self, names: list[str], room: Path) -> list[str]:
        """The definitions of each file, as they are printed, without their places."""
        return [PLACE.sub("", part) for part in self.between("--tree", names, TREE_BETWEEN, room)]

    def written(self, names: list[str], room: Path) -> list[str]:
        """What is written of each file."""
        return self.between("--print", names, re.compile(f"^{re.escape(BETWEEN)}", re.M), room)

    def laid_out_otherwise(self, names: list[str], room: Path) -> set[str]:
        """The names of the files that the formatter would change."""
        return set(self.output(self.layout, ["--check"], names, room).splitlines())


def wrong_of(programs: Programs, given: list[str], room: Path) -> list[tuple[str, str | None]]:
    """Of each text that is read what is wrong with what is written of it, or None."""
    (room / "between").write_text(BETWEEN, encoding="utf-8")
    part = dict(zip(texts.laid(given, "text", room), given))
    for name in programs.refused([*part], room):
        del part[name]
    return [*zip(part.values(), wrong_of_read(programs, [*part], room))] if part else []


def wrong_of_read(programs: Programs, names: list[str], room: Path) -> list[str | None]:
    """What is wrong with what is written of each text that is read, or None."""
    written = programs.written(names, room)
    anew = texts.laid(written, "anew", room)
    unread = programs.refused(anew, room)
    if unread:
        return ["what is written isn't read: " + text if name in unread else None for name, text in zip(anew, written)]
    otherwise, others = programs.laid_out_otherwise(anew, room), texts.other_values(programs.weedle2, names, anew, room)
    found = zip(programs.trees(names, room), programs.trees(anew, room), written, programs.written(anew, room), anew)
    return [one_wrong(*it[:4], it[4] in otherwise, number in others) for number, it in enumerate(found)]


def one_wrong(tree: str, tree_anew: str, text: str, text_anew: str, is_otherwise: bool, is_other: bool = False) -> str | None:
    """What is wrong with what is written of a text, or None."""
    if tree_anew != tree:
        return f"it says other definitions: {text}"
    if text_anew != text:
        return f"written again it changes: {text}"
    if is_otherwise:
        return f"the formatter changes it: {text}"
    return f"weedle2 reads other values: {text}" if is_other else None


def worked() -> list[tuple[str, str]]:
    """The worked texts, each with what is written of it by hand."""
    return [(it["text"], it["written"]) for it in tomllib.loads(WORKED.read_text(encoding="utf-8"))["print"]]


def failures_of_worked(programs: Programs) -> list[Failure]:
    """The worked texts of which something else is written."""
    with tempfile.TemporaryDirectory() as folder:
        room = Path(folder)
        (room / "between").write_text(BETWEEN, encoding="utf-8")
        given, wanted = zip(*worked())
        written = programs.written(texts.laid(given, "text", room), room)
    return [Failure(text, by_hand, came) for text, by_hand, came in zip(given, wanted, written) if came != by_hand]


def add_arguments(parser: ArgumentParser) -> None:
    parser.add_argument("check", nargs="?", default=place_of("weedle_check"), metavar="CHECK")
    parser.add_argument("format", nargs="?", default=place_of("weedle_format"), metavar="FORMAT")
    parser.add_argument("--random", type=int, default=2_000, metavar="N")
    texts.add_arguments(parser)


def run(wanted: Namespace, report: Report) -> None:
    weedle2 = Weedle2(wanted.weedle2) if wanted.weedle2 else None
    programs = Programs(meant(wanted.check), meant(wanted.format), weedle2)
    report.add("worked texts, by hand", len(worked()), failures_of_worked(programs))
    maker = Maker(wanted.seed)
    more = [(BY_HAND, [text for text, _ in worked()]), ("random texts of the seed", [maker.text() for _ in range(wanted.random)])]
    for kind, given in [*more, *texts.kinds(wanted, lambda case: case.is_read)]:
        programs.weedle2 = None if kind == texts.DEEP else weedle2
        texts.add(report, kind, given, functools.partial(wrong_of, programs))
