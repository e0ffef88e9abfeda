"""Positions as editors count them: a line, and how many units come before a place on it.

Lines begin at 0, and end at an LF, a CR or both. A unit is one of UTF-16 unless client and server
agree on bytes of UTF-8 or on characters.
"""

from __future__ import annotations

from bisect import bisect_right
from itertools import accumulate
from typing import Any, Callable, Dict, List, NamedTuple

from weedle._text import Span

#: How many units a text has, by the name of an encoding.
UNITS: Dict[str, Callable[[str], int]] = {
    "utf-8": lambda text: len(text.encode()),
    "utf-16": lambda text: len(text.encode("utf-16-le")) // 2,
    "utf-32": len,
}
USUAL = "utf-16"


class Place(NamedTuple):
    """A position: a line, and the units before it on that line."""

    line: int
    character: int


def place_of(given: Any) -> Place:
    """The position that a message has."""
    return Place(int(given["line"]), int(given["character"]))


def line_starts(data: bytes) -> List[int]:
    """Where the lines of a text begin: the first, and each behind the end of one."""
    lines = data.splitlines(keepends=True)
    if lines and not lines[-1].endswith((b"\n", b"\r")):
        lines.pop()
    return [0, *accumulate(map(len, lines))]


class Lines:
    """Where the lines of a text begin."""

    def __init__(self, data: bytes, encoding: str = USUAL) -> None:
        self.data, self.encoding = data, encoding
        self.starts = line_starts(data)
        # of such a text each byte is a unit of each encoding
        self._is_bytes = encoding == "utf-8" or data.isascii()

    def line_of(self, place: int) -> int:
        """The line of a place in bytes."""
        return bisect_right(self.starts, place) - 1

    def end_of(self, line: int) -> int:
        """Where a line ends, without what ends it."""
        if line + 1 == len(self.starts):
            return len(self.data)
        end = self.starts[line + 1]
        return end - (2 if self.data[end - 2:end] == b"\r\n" else 1)

    def start_behind(self, line: int) -> int:
        """Where the line behind a line begins; of the last one a place behind the text."""
        return self.starts[line + 1] if line + 1 < len(self.starts) else len(self.data) + 1

    def units(self, start: int, end: int) -> int:
        """How many units a part of a line has."""
        if self._is_bytes:
            return end - start
        return UNITS[self.encoding](self.data[start:end].decode(errors="ignore"))

    def position(self, place: int) -> Place:
        """The position of a place in bytes."""
        line = self.line_of(place)
        return Place(line, self.units(self.starts[line], place))

    def place(self, position: Place) -> int:
        """The byte at a position: of one that isn't there the last one before it."""
        if position.line >= len(self.starts):
            return len(self.data)
        line = max(position.line, 0)
        start, end = self.starts[line], self.end_of(line)
        wanted = max(position.character, 0) if position.line >= 0 else 0
        if self._is_bytes:
            return self._at_character(min(start + wanted, end), start)
        text = self.data[start:end].decode()
        return start + len(front_of(text, wanted, self.encoding).encode())

    def _at_character(self, place: int, start: int) -> int:
        """The place, or where the character begins that it is in."""
        while place > start and self.data[place:place + 1] and 0x80 <= self.data[place] < 0xC0:
            place -= 1
        return place

    def range(self, span: Span) -> Dict[str, Dict[str, int]]:
        """A part of the text in bytes, as messages have it."""
        (line, character), (last, behind) = self.position(span[0]), self.position(span[1])
        return {
            "start": {"line": line, "character": character},
            "end": {"line": last, "character": behind},
        }

    def span(self, given: Any) -> Span:
        """The part of the text that a range of a message is."""
        start, end = self.place(place_of(given["start"])), self.place(place_of(given["end"]))
        return Span(min(start, end), max(start, end))


def front_of(text: str, wanted: int, encoding: str) -> str:
    """The front of a text that has so many units, or one fewer where a character would be cut."""
    if encoding == "utf-32":
        return text[:wanted]
    return text.encode("utf-16-le")[:2 * wanted].decode("utf-16-le", "ignore")
