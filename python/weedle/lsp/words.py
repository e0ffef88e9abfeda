"""What would be read at a place: the front of the definition there, and the words that go on.

A word is expected where the parser reads it behind that front. Where a name is read too, any word
is: then those count behind which something else is expected than behind a name.
"""

from __future__ import annotations

from functools import lru_cache
from typing import FrozenSet, List, NamedTuple, Optional, Tuple

from weedle import Refused, parse
from weedle._dialect import Dialect, grammar_of
from weedle.lsp.scanning import COMMENTS, Token, scan

# A word that is no keyword.
ANY = b"zz"
# Words that begin a definition on a line of its own, whatever is open in front.
BEGINNINGS = frozenset([
    b"interface", b"dictionary", b"enum", b"namespace", b"typedef", b"callback", b"partial",
])
# Behind `constructor` the same is expected as behind a name: it is read where all of these are.
BESIDE_CONSTRUCTOR = frozenset(["iterable", "maplike", "stringifier"])
# A front that has more tokens is no front that people write.
MOST = 2000


class Front(NamedTuple):
    """What is in front of a place: the words of its definition, of a body the last member."""

    #: The words of the definition up to its `{`, or empty outside of a body.
    head: Tuple[bytes, ...]
    #: The words behind that.
    words: Tuple[bytes, ...]

    @property
    def text(self) -> bytes:
        """All words, each behind a space."""
        return b" ".join([*self.head, *self.words, b""]) or b" "


class Expected(NamedTuple):
    """What goes on behind a front."""

    #: The words of the grammar, and whether a name is read.
    words: FrozenSet[str]
    has_name: bool


def front_at(data: bytes, start: int, place: int) -> Optional[Front]:
    """The front of a place, from a definition on; None within a comment or a string."""
    head: List[bytes] = []
    words: List[bytes] = []
    depth, last = 0, Token("sign", start, start)
    for it in scan(data, start, place):
        last = it
        if it.kind in COMMENTS:
            continue
        word = data[it.start:it.end]
        depth = max(depth + (word == b"{") - (word == b"}"), 0)
        if begins_anew(data, it, words):
            head, words, depth = [], [], 0
        words.append(word)
        if word == b"{" and depth == 1 and not is_value(words):
            head, words = words, []
        elif word == b";" and depth <= 1:
            head, words = (head, []) if depth else ([], [])
    is_inside = last.end == place and is_open(data[last.start:last.end], last.kind)
    return None if is_inside or len(words) > MOST else Front(tuple(head), tuple(words))


def is_value(words: List[bytes]) -> bool:
    """Whether the `{` that ends some words is a value, as of `optional D d = {}`."""
    return words[-2:-1] == [b"="]


def begins_anew(data: bytes, it: Token, words: List[bytes]) -> bool:
    """Whether a definition begins at a word, though the one in front isn't ended."""
    line = data.rfind(b"\n", 0, it.start) + 1
    return line == it.start and data[it.start:it.end] in BEGINNINGS and words[-1:] != [b"]"]


def is_open(text: bytes, kind: str) -> bool:
    """Whether a token would go on behind its last byte: a comment, or a string without its end."""
    if kind == "string":
        return len(text) == 1 or not text.endswith(b'"')
    if text.startswith(b"/*"):
        return len(text) < 4 or not text.endswith(b"*/")
    return kind in COMMENTS


def answer(text: bytes, dialect: Dialect) -> Tuple[int, str]:
    """How far the reading of a text comes, and what would be read there."""
    try:
        parse(text, dialect=dialect)
    except Refused as refused:
        return refused.place, refused.expected
    return len(text), ""


@lru_cache(maxsize=256)
def expected(front: Front, dialect: Dialect = "weedle2") -> Optional[Expected]:
    """What goes on behind a front; None where the front isn't read."""
    text = front.text
    place, _ = answer(text, dialect)
    if place < len(text.rstrip()):
        return None
    place, behind_name = answer(text + ANY, dialect)
    has_name = place == len(text) + len(ANY)
    found = set()
    for word in grammar_of(dialect).keywords:
        place, behind = answer(text + word.encode(), dialect)
        if place == len(text) + len(word) and not (has_name and behind == behind_name):
            found.add(word)
    if found >= BESIDE_CONSTRUCTOR:
        found.add("constructor")
    return Expected(frozenset(found), has_name)
