"""Says of how many slips a program's hint mends what it is told of, and at how many something points.

    python3 tools/run slips [PROGRAM]
    python3 tools/run slips --try crates/weedle_check

The texts stand in tests/slips.txt, each with one slip, and where that is, by hand. A built weedle_check reads all at once,
and of each must say what the rows of the grammar say (tools/write/slips.py); with --try it is its crate, which `rt try` builds
and runs. A line is printed for each change that is told and doesn't mend, so that the text isn't read whole with it, and for
each slip from whose line neither the furthest place nor the hint is a line away at most. Of 100 changes 95 have to mend, and of
100 slips 97 have to be pointed at.
"""

import tempfile

from run.cases import last_line, parts_by_name, said_of, written
from run.programs import add_program, meant, told
from run.report import Wrong, compared
from shared.case_files import Case
from shared.crates import Unfit
from write.slips import slips

# Of a hundred changes that are told so many mend at least, and of a hundred slips so many are pointed at.
MEND, POINT, OF = 95, 97, 100


def is_enough(changes, mended, count, near):
    """Whether enough changes mend, and enough slips are pointed at."""
    return mended * OF >= changes * MEND and near * OF >= count * POINT


def messages(program, found):
    """What a program writes of each text, by its name."""
    cases = [Case(f"{number:03}", slip.text, slip.wanted()) for number, slip in enumerate(found)]
    with tempfile.TemporaryDirectory() as room:
        names = written(cases, room)
        ended = program.run(["--errors", "1"], names, room)
    parts = parts_by_name(ended.stdout.decode(errors="replace"), names, last_line(len(cases), len(cases)))
    if parts is None or ended.returncode != 1:
        raise Unfit(told(ended)[:600])
    return [(case, name, parts[name]) for case, name in zip(cases, names)]


def said_otherwise(program, found):
    """A failure, or None, for each slip: where a program says something else of it than the rows."""
    return [compared(slip.line, said_of(case, name), said) for slip, (case, name, said) in zip(found, messages(program, found))]


class Counts:
    """How many slips there are, how many hints, changes and changes that mend, and how many slips are pointed at."""

    def __init__(self):
        self.slips = self.hints = self.changes = self.mended = self.near = 0

    def add(self, told):
        """Counts a slip by what is told of it; whether a change is told that doesn't mend, or nothing points at it."""
        self.slips += 1
        self.hints += told.hint is not None
        self.changes += told.has_change
        self.mended += told.mends
        self.near += told.is_near
        return told.has_change and not told.mends or not told.is_near

    def __str__(self):
        return (f"{self.slips} slips, {self.hints} hints, {self.mended} of {self.changes} changes mend, "
                f"{self.near} pointed at")

    def wrong(self):
        """What is wrong where too few mend or are pointed at, or None."""
        return None if is_enough(self.changes, self.mended, self.slips, self.near) else Wrong("all of these", f"{self}")


def add_arguments(parser):
    add_program(parser, "weedle_check", can_be_tried=True)


def run(wanted, report):
    found, counts = slips(), Counts()
    failures = said_otherwise(meant(wanted.program, wanted.is_tried), found)
    for slip in found:
        told_of_it = slip.told()
        if counts.add(told_of_it):
            print(f"{slip.line}: {'' if told_of_it.is_near else 'not '}pointed at, {told_of_it.hint and told_of_it.hint[3]}")
    report.add("slips", len(found), failures)
    report.add("how many mend and are pointed at", 1, [counts.wrong()], f": {counts}")
