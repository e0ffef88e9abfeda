"""The tokens of a text, be it read or not."""

from __future__ import annotations

import re
from typing import Iterator, NamedTuple, Optional

#: What a token is, for a pattern with whitespace in it; signs are the others.
PATTERN = rb"""(?P<doc>///[^\n]*) | (?P<comment>//[^\n]*|/\*(?s:.*?)(?:\*/|\Z))
    | (?P<string>"[^"\n]*"?) | (?P<word>_?[A-Za-z][A-Za-z0-9_-]*)
    | (?P<number>-?(?:0[xX][0-9A-Fa-f]+|(?:[0-9]+\.[0-9]*|\.?[0-9]+)(?:[eE][+-]?[0-9]+)?))"""
SIGN = rb"| (?P<sign>\.\.\.|[\x21-\x7e]|[\x80-\xff]+)"
TOKEN = re.compile(PATTERN + SIGN, re.VERBOSE)
#: Tokens that no rule but that of whitespace reads.
COMMENTS = frozenset(["comment", "doc"])


class Token(NamedTuple):
    """A token: `doc`, `comment`, `string`, `word`, `number` or `sign`, and its bytes."""

    kind: str
    start: int
    end: int


def scan(data: bytes, start: int = 0, end: Optional[int] = None) -> Iterator[Token]:
    """The tokens of a part of a text. A string ends with its line."""
    for it in TOKEN.finditer(data, start, len(data) if end is None else end):
        yield Token(it.lastgroup or "", it.start(), it.end())
