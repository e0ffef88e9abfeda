"""Writes docs/SLIPS.md: the texts of tests/slips.txt, and the message of each.

    python3 tools/write/slips.py [--check]

Each text has one syntax error, whose place the file has by hand. The messages are by the rows of the grammar (rows/words.py,
rows/hints.py); `tools/run slips` compares those of a built weedle_check. What is measured in real files is by hand on the page.

With --check nothing is written: a line says that the page is stale, and the status is 1.
"""

import re
import sys
from pathlib import Path

if not __package__:
    sys.path[0] = str(Path(__file__).resolve().parent.parent)

from rows import hints as row_hints
from rows.ends import NOW
from shared.case_files import TESTS
from shared.command_line import write_page
from shared.crates import TOP
from shared.tree_json import unescaped
from write.make_cases import wanted_of

SLIPS = TESTS / "slips.txt"
PAGE = "docs/SLIPS.md"
# What is measured in real files is on the page too, by hand.
MEASURED = "## In real files"
MARK = "\u2038"
# A message begins with a place, and so does a hint.
PLACE = re.compile(r"(\d+):(\d+): ")
HEAD = """# Syntax errors and their messages

Texts with one syntax error each, from `tests/slips.txt`, and what `weedle_check` says of them. Where the error is, marked by `{mark}`,
is by hand. The messages are by the rows of the grammar alone: `tools/write/slips.py` writes this page except for its last part, and
`tools/run slips` compares a built program with it. The first line of a message says where the reading stops. The second one, if
any, is [the hint](USING.md#what-is-said-of-a-refused-text).

{hints} of {count} errors have a hint. {changes} hints are changes, with which {mended} texts are read whole. The first line points at
the error itself for {before} errors, and one of the two lines for {now}; the others are marked by *no*. {near} are within a line of it.

"""


class Slip:
    """A text with one syntax error, and its place in characters."""

    def __init__(self, line):
        self.line = line
        front, _, back = unescaped(line).partition(MARK)
        self.text, self.place = front + back, len(front)

    def wanted(self):
        """What is expected of it, by the rows."""
        return wanted_of(self.text)

    def told(self):
        return Told(self.text.encode(), len(self.text[:self.place].encode()))

    def is_at(self, line):
        """Whether a line of a message points at the error."""
        match = PLACE.match(line)
        if not match:
            return False
        row, column = map(int, match.groups())
        place = sum(len(it) + 1 for it in self.text.split("\n")[:row - 1]) + column - 1
        between = self.text[min(place, self.place):max(place, self.place)]
        return not re.sub(r"//[^\n]*|/\*.*?\*/|\s", "", between, flags=re.S)


class Told:
    """What the rows tell of bytes with an error at a place: whether there is a hint, a change, one that mends, and whether
    the furthest place or the hint is within a line of the error.
    """

    def __init__(self, text, slip):
        start = NOW.end_of(text)
        NOW.end_of(text[start:])
        self.place = start + NOW.unmet()[0]
        self.hint = row_hints.found(text, start, self.place)
        self.has_change = self.hint is not None and self.hint[1] is not None
        self.mends = self.has_change and NOW.is_whole(changed(text, *self.hint[:3]))
        places = [self.place] + ([self.hint[0]] if self.hint else [])
        self.is_near = any(abs(line_of(text, place) - line_of(text, slip)) <= 1 for place in places)


def changed(text, at, taken, put):
    return text[:at] + put + text[at + taken:]


def line_of(text, place):
    return text.count(b"\n", 0, place)


def slips():
    lines = SLIPS.read_text(encoding="utf-8").split("\n")
    return [Slip(line) for line in lines if line and not line.startswith("#")]


def lines_of(wanted):
    """The line of the furthest place, and that of the hint, if there is one."""
    return [f"{wanted['at']}: {wanted['says']}"] + ([wanted["hint"].rstrip("\n")] if "hint" in wanted else [])


def page():
    found = [(slip, lines_of(slip.wanted()), slip.told()) for slip in slips()]
    head = HEAD.format(
        mark=MARK, count=len(found), hints=sum(it.hint is not None for _, _, it in found),
        changes=sum(it.has_change for _, _, it in found), mended=sum(it.mends for _, _, it in found),
        before=sum(slip.is_at(lines[0]) for slip, lines, _ in found), now=sum(any(map(slip.is_at, lines)) for slip, lines, _ in found),
        near=sum(it.is_near for _, _, it in found),
    )
    rows = [f"| `{cell(slip.line)}` | {'<br>'.join(map(cell, lines))}{'' if any(map(slip.is_at, lines)) else ' *no*'} |" for slip, lines, _ in found]
    return head + "\n".join(["| Text | Message |", "|---|---|", *rows, ""]) + measured()


def measured():
    """The part of the page that is written by hand."""
    _, is_there, part = (TOP / PAGE).read_text(encoding="utf-8").partition(MEASURED)
    return f"\n{is_there}{part}" if is_there else ""


def cell(text):
    return text.replace("|", "\\|")


if __name__ == "__main__":
    sys.exit(write_page(__doc__, TOP, PAGE, page))
