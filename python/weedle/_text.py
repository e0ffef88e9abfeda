"""A text as it was given, with its bytes, and where its lines and characters begin."""

from __future__ import annotations

from bisect import bisect_right
from functools import cached_property
from typing import NamedTuple, Union

# Bytes that continue a character.
CONTINUING = bytes(range(0x80, 0xC0))
# After how many bytes the characters before are known.
STEP = 4096


class Span(NamedTuple):
    """A part of a text: where it begins, and the place behind its end."""

    start: int
    end: int


class Position(NamedTuple):
    """A place as people count it. Line and column begin at 1; the column is in characters."""

    line: int
    column: int


def count_characters(data: bytes) -> int:
    """How many characters begin in these bytes."""
    return len(data.translate(None, CONTINUING))


class Text:
    """A text that was given as `str` or as bytes. All places are in bytes of its UTF-8."""

    def __init__(self, given: Union[str, bytes]) -> None:
        if isinstance(given, str):
            self.data = given.encode()
        elif isinstance(given, (bytes, bytearray, memoryview)):
            self.data = bytes(given)
        else:
            raise TypeError(f"a text is str or bytes, not {type(given).__name__}")

    @cached_property
    def is_ascii(self) -> bool:
        """Whether each character has one byte."""
        return self.data.isascii()

    @cached_property
    def _line_starts(self) -> list[int]:
        starts, place = [0], self.data.find(b"\n")
        while place >= 0:
            starts.append(place + 1)
            place = self.data.find(b"\n", place + 1)
        return starts

    @cached_property
    def _characters_before(self) -> list[int]:
        """How many characters begin before each place that is a multiple of STEP."""
        found, count = [], 0
        for start in range(0, len(self.data) + 1, STEP):
            found.append(count)
            count += count_characters(self.data[start:start + STEP])
        return found

    def slice(self, span: Span) -> str:
        """The part of the text."""
        return self.data[span.start:span.end].decode()

    def position(self, place: int) -> Position:
        """The line and the column of a place in bytes."""
        line = bisect_right(self._line_starts, place)
        start = self._line_starts[line - 1]
        before = place - start if self.is_ascii else count_characters(self.data[start:place])
        return Position(line, before + 1)

    def characters(self, place: int) -> int:
        """How many characters come before a place in bytes."""
        if self.is_ascii:
            return place
        step = place // STEP
        return self._characters_before[step] + count_characters(self.data[step * STEP:place])

    def in_characters(self, span: Span) -> Span:
        """A part of the text, in characters."""
        return Span(self.characters(span.start), self.characters(span.end))
