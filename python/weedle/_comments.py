"""The comments of a value: those in front of it, and those behind it on its line."""

from __future__ import annotations

import re
from bisect import bisect_left
from typing import Any, List

from weedle._tree import Tree

# What a comment has on each line beside its words: whitespace, asterisks, and the signs of its ends.
FRONT, BACK = re.compile(r"^\s*(?:\*+(?!/))?[ \t]?"), re.compile(r"\s+$")
# A line that has no more.
LINE_END = re.compile(rb"[ \t\r]*(?:\n|\Z)")
# What may be between a value and the comment that trails it.
SIGNS = b" \t,;"


def comments_before(tree: Tree, start: int) -> List[str]:
    """The comments right in front of a place: no empty line is between, nor do they trail a word."""
    found: List[str] = []
    data, at = tree.text.data, bisect_left(tree.comment_starts, start)
    while at:
        at -= 1
        span = tree.comments[at]
        # a line comment has its LF
        if data.count(b"\n", span.end - 1, start) > 1 or data[span.end:start].strip():
            break
        if trails(tree, at, start):
            break
        found.append(text_of(tree, at))
        start = span.start
    return found[::-1]


def trails(tree: Tree, number: int, start: int) -> bool:
    """Whether a comment trails what precedes it on its line; the next thing is at `start`."""
    data, span = tree.text.data, tree.comments[number]
    if data.find(b"\n", span.start, start) < 0:
        return False
    line = data.rfind(b"\n", 0, span.start) + 1
    return bool(data[line:span.start].strip())


def comments_behind(tree: Tree, end: int) -> List[str]:
    """The comments behind a place on its line, where nothing but a line end follows them."""
    found: List[str] = []
    data, at = tree.text.data, bisect_left(tree.comment_starts, end)
    is_ended = False
    while at < len(tree.comments) and not is_ended:
        span = tree.comments[at]
        if data.find(b"\n", end, span.start) >= 0 or data[end:span.start].strip(SIGNS):
            break
        found.append(text_of(tree, at))
        end = span.end
        is_ended = b"\n" in data[span.start:end]
        at += 1
    return found if is_ended or LINE_END.match(data, end) else []


def text_of(tree: Tree, number: int) -> str:
    """A comment without the LF of its line."""
    return tree.text.slice(tree.comments[number]).rstrip("\r\n")


def said(comment: str) -> List[str]:
    """The lines of what a comment says, without its signs."""
    lines = (comment[2:-2] if comment.startswith("/*") else comment[2:]).split("\n")
    return [BACK.sub("", FRONT.sub("", line)) for line in lines]


def docstrings_of(value: Any) -> List[Any]:
    """The docstrings in front of a definition, a member or a value of an enum."""
    docstring = getattr(value, "docstring", None)
    if docstring:
        return [docstring]
    # of what is between braces they are behind its members
    return [] if hasattr(value, "body") else getattr(value, "docstrings", [])


def doc_of(value: Any) -> str:
    """The docstring of a value, or else what the comments in front of it say; empty without both."""
    inner = getattr(value, "value", None)
    found = docstrings_of(value) or docstrings_of(inner)
    if found:
        lines = [line for it in found for line in it.value.split("\n")]
        return "\n".join(re.sub(r"^ ", "", line) for line in lines)
    return "\n".join(line for it in value.comments for line in said(it)).strip("\n")
