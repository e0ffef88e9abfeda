"""Syntax errors as an editor shows them, and what would fix each as an action."""

from __future__ import annotations

import re
from typing import List, Optional, Tuple

from weedle._text import Span
from weedle.errors import READ_TODAY
from weedle.lsp.protocol import Json, Severity
from weedle.lsp.reading import Hint, Problem
from weedle.lsp.sources import Source

# A change that fixes an error: what it is called, what it replaces, and by what.
Mending = Tuple[str, Span, str]
# The hints that tell a change; each has what is to be written between backticks.
IN_PLACE = re.compile(r"`(?P<new>[^`]+)` in place of `(?P<old>[^`]+)`\?")
MISSING = re.compile(r"`(?P<new>[^`]+)` missing here\?")
EXTRA = re.compile(r"no `(?P<old>[^`]+)` here")
IN_FRONT = re.compile(r"`(?P<new>[^`]+)` in front of `(?P<old>[^`]+)`\?")
# So many errors of a text are told: each takes up to a millisecond.
MOST = 100
# How a text is read by today's rules: the setting of a folder.
IN_SETTINGS = '"weedle.dialect": "today"'
NO_DOCSTRING, BYTE_ORDER_MARK = "no docstring here", "a byte order mark"
# Lines of a docstring, and what ends a body.
DOC_LINES = re.compile(rb"///[^\n]*(?:\n[ \t]*///[^\n]*)*")
CLOSING = re.compile(r"\}+;?")
# What is marked where an error is: a word, a string's quote, or one sign.
TOKEN = re.compile(rb"[A-Za-z0-9_-]+|[^\s\x80-\xff]|[\xc0-\xff][\x80-\xbf]*")


def diagnostics(source: Source) -> List[Json]:
    """The syntax errors of a text, the first hundred of them."""
    return [diagnostic(source, it) for it in source.reading.problems[:MOST]]


def unchecked(fault: Exception) -> Json:
    """What is told of a text whose errors aren't known, as where memory ran out."""
    start = {"line": 0, "character": 0}
    return {
        "range": {"start": start, "end": start}, "severity": Severity.WARNING, "source": "weedle",
        "message": f"not checked: {type(fault).__name__}: {fault}",
    }


def diagnostic(source: Source, problem: Problem) -> Json:
    """A syntax error, which says last that today's rules read the text, if they alone do."""
    found = error(source, problem)
    if problem.is_read_today:
        found["message"] += f"\n{READ_TODAY}: {IN_SETTINGS}"
    return found


def error(source: Source, problem: Problem) -> Json:
    """A syntax error. It is where the hint is, if there is one, and else where reading ends."""
    place, hint = problem.place, problem.hint
    found: Json = {
        "range": source.range(marked(source, hint.place if hint else place)),
        "severity": Severity.ERROR, "source": "weedle", "code": "syntax",
    }
    expected = f"expected {problem.expected}" if problem.expected else "unread from here on"
    if not hint or hint.message == problem.expected:
        return {**found, "message": hint.message if hint else expected}
    line, column = source.lines.position(place)
    found["message"] = f"{hint.message} ({expected} at {line + 1}:{column + 1})"
    if hint.place != place:
        where = source.location(marked(source, place))
        found["relatedInformation"] = [{"location": where, "message": expected}]
    return found


def marked(source: Source, place: int) -> Span:
    """What is marked for an error at a place: the word there, or else the sign in front of it."""
    found = TOKEN.match(source.data, place)
    if found:
        return Span(place, found.end())
    start = place
    while start > 0 and source.data[start - 1:start].isspace():
        start -= 1
    before = source.data[max(start - 1, 0):start]
    return Span(start - len(before), start) if before.isascii() else Span(start, start)


def actions(source: Source, span: Span) -> List[Json]:
    """What would fix the errors of a text at a part of it."""
    found = []
    first, last = source.lines.line_of(span.start), source.lines.line_of(span.end)
    for problem in source.reading.problems[:MOST]:
        shown = diagnostic(source, problem)
        edit = mending(source.data, problem.hint) if problem.hint else None
        # the line of an error offers what fixes it
        lines = shown["range"]["start"]["line"], shown["range"]["end"]["line"]
        if edit and lines[0] <= last and first <= lines[1]:
            found.append(action(source, shown, *edit))
    return found


def action(source: Source, shown: Json, title: str, span: Span, new: str) -> Json:
    """A change that fixes an error."""
    edit = {"range": source.range(span), "newText": new}
    return {
        "title": title, "kind": "quickfix", "diagnostics": [shown], "isPreferred": True,
        "edit": {"changes": {source.uri: [edit]}},
    }


def mending(data: bytes, hint: Hint) -> Optional[Mending]:
    """The change that a hint tells, if it tells one."""
    place, said = hint
    found = IN_PLACE.fullmatch(said)
    if found:
        return replaced(data, place, found["old"], found["new"])
    found = MISSING.fullmatch(said)
    if found:
        return f"put `{found['new']}` here", Span(place, place), inserted(data, place, found["new"])
    found = EXTRA.fullmatch(said)
    if found:
        return removed(data, place, found["old"])
    found = IN_FRONT.fullmatch(said)
    if found:
        return moved(data, place, found["old"], found["new"])
    if said == NO_DOCSTRING:
        return commented(data, place)
    if said == BYTE_ORDER_MARK:
        return removed(data, place, "\ufeff")
    return None


def replaced(data: bytes, place: int, old: str, new: str) -> Optional[Mending]:
    """A word in place of another."""
    end = place + len(old.encode())
    if data[place:end] != old.encode():
        return None
    return f"put `{new}` in place of `{old}`", Span(place, end), new


def inserted(data: bytes, place: int, new: str) -> str:
    """What is written for a sign that is missing: the end of a body gets a line of its own."""
    is_line_end = data[place:place + 2].startswith((b"\n", b"\r\n")) or place == len(data)
    is_below = b"\n" in data[data.rfind(b"{", 0, place):place]
    return f"\n{new}" if CLOSING.fullmatch(new) and is_line_end and is_below else new


def removed(data: bytes, place: int, old: str) -> Optional[Mending]:
    """A sign that is too many."""
    end = place + len(old.encode())
    title = "remove the byte order mark" if old == "\ufeff" else f"remove `{old}`"
    return (title, Span(place, end), "") if data[place:end] == old.encode() else None


def moved(data: bytes, place: int, old: str, new: str) -> Optional[Mending]:
    """A word behind another, in front of it."""
    words = re.compile(rb"%b(\s+)%b" % (re.escape(old.encode()), re.escape(new.encode())))
    found = words.match(data, place)
    if not found:
        return None
    return f"put `{new}` in front of `{old}`", Span(*found.span()), new + found[1].decode() + old


def commented(data: bytes, place: int) -> Optional[Mending]:
    """A docstring where none may be, as comments."""
    found = DOC_LINES.match(data, place)
    if not found:
        return None
    text = re.sub(r"(?m)^(\s*)///", r"\1//", found[0].decode())
    return "make it a comment", Span(*found.span()), text
