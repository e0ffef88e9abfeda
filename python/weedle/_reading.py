"""The reading of a text, with an exception for each way in which it may have no tree."""

from __future__ import annotations

from typing import List, Optional, Tuple, Union

from weedle import _library
from weedle._dialect import WEEDLE2, Grammar, grammar_of
from weedle._library import NO_MEMORY, NOT_UTF8, REFUSED, TOO_DEEP, TOO_LONG, Part
from weedle._text import Text
from weedle._tree import Forest, Tree
from weedle.errors import Refused, RuleRefused
from weedle.grammar import RULES, VERSION


def tree_of(
    given: Union[str, bytes], rule: Optional[int] = None, grammar: Grammar = WEEDLE2,
) -> Tree:
    """The nodes of a text, or of a rule at its front, whatever follows that."""
    text = Text(given)
    try:
        return Tree(text, _library.read_nodes(text.data, rule, grammar.number), rule, grammar)
    except _library.Unread as unread:
        if rule is not None and unread.status == REFUSED:
            raise RuleRefused(text, RULES[rule]) from None
        raise fault_of(text, unread.status, unread.rest, grammar) from None


def forest_of(
    given: Union[str, bytes], grammar: Grammar = WEEDLE2,
) -> Tuple[List[Part], Forest]:
    """The parts of a text, and the nodes of those that are read."""
    text = Text(given)
    try:
        parts, numbers = _library.recover(text.data, grammar.number)
    except _library.Unread as unread:
        raise fault_of(text, unread.status, unread.rest, grammar) from None
    return parts, Forest(text, numbers, None, grammar)


def forest_again(data: bytes, version: int, dialect: str = WEEDLE2.name) -> Forest:
    """The nodes of the parts of a text that the library of this version has read before."""
    check(version)
    return forest_of(data, grammar_of(dialect))[1]


def tree_again(
    data: bytes, version: int, rule: Optional[int], dialect: str = WEEDLE2.name,
) -> Tree:
    """The nodes of a text that the library of this version has read before."""
    check(version)
    return tree_of(data, rule, grammar_of(dialect))


def check(version: int) -> None:
    """Refuses a tree of a library of another version."""
    if version != VERSION:
        raise ValueError(f"a tree of weedle's version {version:#08x}, and this one is {VERSION:#08x}")


def fault_of(text: Text, status: int, rest: int, grammar: Grammar = WEEDLE2) -> Exception:
    """Python's word for a status."""
    if status == REFUSED:
        return Refused(text, rest, grammar.name)
    if status == NOT_UTF8:
        return not_utf8(text.data, rest)
    if status == NO_MEMORY:
        return MemoryError(f"no memory to read {len(text.data)} bytes")
    if status == TOO_LONG:
        return ValueError(f"a text of {len(text.data)} bytes is longer than nodes can hold")
    if status == TOO_DEEP:
        return RecursionError("the text nests too deep for today's rules to recover it")
    return RuntimeError(f"the library gives the status {status}")


def not_utf8(data: bytes, place: int) -> UnicodeDecodeError:
    """What Python says of bytes that aren't UTF-8."""
    try:
        data.decode()
    except UnicodeDecodeError as fault:
        return fault
    return UnicodeDecodeError("utf-8", data, place, place + 1, "invalid byte")
