"""Texts formatted, as changes of the whitespace between their words."""

from __future__ import annotations

import re
from os.path import commonprefix
from typing import Iterator, List, Tuple

from weedle import format as laid_out
from weedle._text import Span
from weedle.lsp.protocol import Fault, Json
from weedle.lsp.sources import Source

# What is changed: bytes of the text, and what comes there.
Change = Tuple[Span, bytes]
BLANKS, WORDS = re.compile(rb"[ \t\r\n]*"), re.compile(rb"[^ \t\r\n]+")


def layout(source: Source) -> List[Json]:
    """The changes that format a text: of one with an error, the definitions that are read."""
    if source.reading.is_whole:
        return edits(source, Span(0, len(source.data)))
    if not source.definitions:
        raise Fault("the text isn't read, so it can't be laid out")
    return layout_of(source, Span(0, len(source.data)))


def layout_of(source: Source, wanted: Span) -> List[Json]:
    """The changes that format the definitions in a part of a text."""
    return [it for run in runs(source, wanted) for it in edits(source, run)]


def runs(source: Source, wanted: Span) -> Iterator[Span]:
    """The definitions in a part of a text, those one behind another together.

    What follows the last of them up to the next one stays as it is.
    """
    first = last = behind = -1
    for it in source.definitions:
        start, end = source.tree.whole_span(it._node)
        span = it.span
        if not (span.start < wanted.end and wanted.start < span.end):
            continue
        if start != behind:
            if last > first:
                yield Span(first, last)
            first = start
        last, behind = span.end, end
    if last > first:
        yield Span(first, last)


def edits(source: Source, span: Span) -> List[Json]:
    """The changes that format a part of a text, which is some definitions."""
    before = source.data[span.start:span.end]
    after = laid_out(before, dialect=source.dialect)
    if span.end < len(source.data):
        after = after.rstrip(b"\r\n")
    return [
        {
            "range": source.range(Span(span.start + start, span.start + end)),
            "newText": new.decode(),
        }
        for (start, end), new in changes(before, after)
    ]


def changes(before: bytes, after: bytes) -> List[Change]:
    """The whitespace that differs between two texts with the same words; all where words differ."""
    found: List[Change] = []
    at = other = 0
    while at < len(before) or other < len(after):
        blanks, new = BLANKS.match(before, at), BLANKS.match(after, other)
        assert blanks and new  # both may be empty
        if blanks[0] != new[0]:
            found.append(least(at, blanks[0], new[0]))
        at, other = blanks.end(), new.end()
        size = common(before, at, after, other)
        if not size and (at < len(before) or other < len(after)):
            return [(Span(0, len(before)), after)]
        at, other = at + size, other + size
    return found


def least(place: int, old: bytes, new: bytes) -> Change:
    """The change of some whitespace at a place, without what is the same at both ends of them."""
    front = len(commonprefix([old, new]))
    back = len(commonprefix([old[front:][::-1], new[front:][::-1]]))
    return Span(place + front, place + len(old) - back), new[front:len(new) - back]


def common(before: bytes, at: int, after: bytes, other: int) -> int:
    """How many bytes are the same in both, up to the first blank in either."""
    one, two = WORDS.match(before, at), WORDS.match(after, other)
    if not one or not two:
        return 0
    size = min(one.end() - at, two.end() - other)
    return size if before[at:at + size] == after[other:other + size] else 0
