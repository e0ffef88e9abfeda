"""A formatted text."""

from __future__ import annotations

import re
from itertools import groupby
from typing import TypeVar

from weedle import _library
from weedle._dialect import WEEDLE2, Dialect, Grammar, grammar_of
from weedle._reading import fault_of
from weedle._text import Text
from weedle.errors import Refused
from weedle.recovery import Part, recover

Given = TypeVar("Given", str, bytes)

# Whitespace, or a comment: `///` begins a docstring.
BLANKS = b" \t\n\f\r"
TRIVIA = re.compile(rb"[ \t\r\n]+|//(?!/)[^\n]*|/\*.*?\*/", re.DOTALL)


def is_blank(data: bytes) -> bool:
    """Whether a text is whitespace and comments alone, as `b"// a"`, or empty."""
    place, found = 0, TRIVIA.match(data)
    while found:
        place = found.end()
        found = TRIVIA.match(data, place)
    return place == len(data)


def format(  # the name that every formatter has, though Python has one of it
    text: Given, *, partial: bool = False, dialect: Dialect = "weedle2"
) -> Given:
    """The formatted text, of the type that it has.

    >>> print(format("interface Window{readonly attribute long x;};"), end="")
    interface Window {
      readonly attribute long x;
    };

    Whitespace is moved, and nothing else changes: the answer is read by the same rules, with the same
    words, strings and comments. A text of whitespace and comments alone stays as it is. It
    raises what `weedle.parse` raises.

    With `partial` it raises no `Refused`: of a text that isn't read whole the definitions that are
    read are formatted, those one behind another together, and all else stays byte for byte.

    >>> format("A   includes B ;  typedef ;", partial=True)
    'A includes B;  typedef ;'

    With `dialect="today"` the rules are those of today's WebIDL.
    """
    given, grammar = Text(text), grammar_of(dialect)
    try:
        made = _laid_out(given, grammar)
    except Refused:
        if not partial:
            raise
        made = _laid_out_partly(given.data, grammar)
    return made.decode() if isinstance(text, str) else made


def _laid_out(given: Text, grammar: Grammar) -> bytes:
    """The bytes of a formatted text."""
    if is_blank(given.data):
        given.data.decode()  # what isn't UTF-8 raises
        return given.data
    try:
        return _library.lay_out(given.data, grammar.number)
    except _library.Unread as unread:
        raise fault_of(given, unread.status, unread.rest, grammar) from None


def _laid_out_partly(data: bytes, grammar: Grammar) -> bytes:
    """The bytes of a text in which the definitions that are read are formatted."""
    made = []
    for is_read, run in groupby(recover(data, dialect=grammar.name).parts, _is_whole):
        spans = [it.span for it in run]
        start, end = spans[0].start, spans[-1].end
        stretch = data[start:end]
        is_last = end == len(data)
        made.append(_run(stretch, start == 0, is_last, grammar) if is_read else stretch)
    return b"".join(made)


def _is_whole(part: Part) -> bool:
    """Whether a part is a definition that is read, or what no definition follows."""
    return part.is_read and part.is_piece


def _run(data: bytes, is_first: bool, is_last: bool, grammar: Grammar = WEEDLE2) -> bytes:
    """Formatted definitions; the whitespace around them stays, where the text goes on there."""
    inner = data.lstrip(BLANKS)
    front = b"" if is_first else data[:len(data) - len(inner)]
    if is_blank(inner):
        return data
    if is_last:
        return front + _library.lay_out(inner, grammar.number)
    body = inner.rstrip(BLANKS)
    return front + _library.lay_out(body, grammar.number).rstrip(BLANKS) + inner[len(body):]
