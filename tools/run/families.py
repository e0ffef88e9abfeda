"""Families of texts that are made to be slow, deep or long, as tests/families.txt has them."""

import ast
import re
from pathlib import Path

from shared.case_files import TESTS

PLACE = TESTS / "families.txt"
READ, REFUSED, NOT_UTF8 = KINDS = "read", "refused", "not UTF-8"
PIECE = re.compile(r'(?:(\d+)\*)?("(?:[^"\\]|\\.)*")(?: |$)')


class Family:
    """A text, and what has to be said of it: what is read of it, or is UTF-8, and the rest."""

    def __init__(self, name, kind, front, back=""):
        if kind not in KINDS:
            raise ValueError(f"{name}: {kind} is none of {KINDS}")
        self.name, self.kind = name, kind
        self.front, self.back = pieces_of(front), pieces_of(back)

    def text(self, part=1):
        """The text; of many pieces no more than the part of this number."""
        return joined(self.front, part) + joined(self.back, part)

    def rest(self, part=1):
        """The byte from which on it isn't read, or isn't UTF-8."""
        return len(joined(self.front, part))


def pieces_of(field):
    """The pieces of a field, each with how often it stands there."""
    pieces, place = [], 0
    while place < len(field):
        found = PIECE.match(field, place)
        if not found:
            raise ValueError(f"no piece: {field[place:]}")
        pieces.append((ast.literal_eval(f"b{found[2]}"), int(found[1] or 1)))
        place = found.end()
    return pieces


def joined(pieces, part):
    return b"".join(piece * max(1, times // part) for piece, times in pieces)


def families(place=PLACE):
    lines = Path(place).read_text(encoding="utf-8").splitlines()
    return [Family(*line.split("\t")) for line in lines if line and not line.startswith("#")]
