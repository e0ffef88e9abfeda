"""Renames of a definition, of a member or of an argument, over all texts.

A text is read again with the new name, and its tree is compared: else a rename might say something
else, as `attribute long a;` with `long` in place of `a`.
"""

from __future__ import annotations

import re
from typing import Dict, List, Optional, Tuple

from weedle._dialect import grammar_of
from weedle._text import Span
from weedle.edits import DEFINING, RENAMED, kinds
from weedle.lsp.navigation import MEMBERS, Target, names
from weedle.lsp.protocol import Code, Fault, Json
from weedle.lsp.sources import Source
from weedle.lsp.workspace import Workspace
from weedle.names import Role, names_in

NAME = re.compile(r"_?[A-Za-z][A-Za-z0-9_-]*")
CAN_BE_RENAMED = RENAMED | MEMBERS | {Role.ARGUMENT}


def prepare(source: Source, place: int) -> Optional[Json]:
    """The name at a place, if it can be renamed."""
    name = source.name_at(place)
    if name is None or name.role not in CAN_BE_RENAMED:
        return None
    return {"range": source.range(name.span), "placeholder": name.text}


def rename(workspace: Workspace, source: Source, place: int, given: str) -> Json:
    """The changes of all texts that give what is at a place a new name."""
    name = source.name_at(place)
    if name is None or name.role not in CAN_BE_RENAMED:
        raise Fault("nothing here can be renamed")
    if not NAME.fullmatch(given):
        raise Fault(f"{given!r} is no name", Code.INVALID_PARAMS)
    new = given.lstrip("_")
    it = Target(name.text, name.span, name)
    if new != it.text:
        refuse_taken(workspace, source, it, new)
    spans: Dict[str, Tuple[Source, List[Span]]] = {}
    for other, found in names(workspace, source, it):
        spans.setdefault(other.uri, (other, []))[1].append(found.span)
    if it.is_global:
        for other in workspace.sources():
            refuse_unread(other, it.text)
    return {"changes": {
        uri: renamed(other, sorted(all_), new, written(other, new, given))
        for uri, (other, all_) in spans.items()
    }}


def written(source: Source, new: str, given: str) -> str:
    """A new name as it is written in a text: one that is a word there has an underscore in front."""
    return f"_{new}" if new in grammar_of(source.dialect).keywords else given


def refuse_taken(workspace: Workspace, source: Source, it: Target, new: str) -> None:
    """Refuses a name that something else has already."""
    if it.is_global:
        for other in workspace.sources():
            for name in other.names_of(new):
                if name.role in DEFINING:
                    raise Fault(f"{new} is defined already, {said_place(other, name.span)}")
    elif it.name and it.name.role in MEMBERS:
        owner = source.owner_at(it.span.start)
        for other in workspace.sources():
            for node in other.bodies(owner):
                for name in names_in(other.tree, node):
                    if name.role in MEMBERS and name.text == new:
                        raise Fault(f"{new} is a member already, {said_place(other, name.span)}")


def refuse_unread(source: Source, old: str) -> None:
    """Refuses where the name is in a part of a text that isn't read."""
    word = re.compile(rb"(?<![A-Za-z0-9_-])_?%b(?![A-Za-z0-9_-])" % re.escape(old.encode()))
    for problem in source.reading.problems:
        found = word.search(source.data, *problem.unread)
        if found:
            place = said_place(source, Span(*found.span()))
            raise Fault(f"{old} stands in what isn't read, {place}")


def said_place(source: Source, span: Span) -> str:
    """A file and a line, as a person reads it."""
    return f"in {source.uri.rpartition('/')[2]}, line {source.lines.line_of(span.start) + 1}"


def renamed(source: Source, spans: List[Span], new: str, written: str) -> List[Json]:
    """The changes of a text, once it was read with them."""
    after = source.of(changed(source.data, spans, written.encode()))
    places = set(spans)
    wanted = [(it.role, new if it.span in places else it.text) for it in source.all_names()]
    is_same = (
        [(it.role, it.text) for it in after.all_names()] == wanted
        and kinds(after.definitions) == kinds(source.definitions)
        and len(after.reading.problems) == len(source.reading.problems)
    )
    if not is_same:
        raise Fault(f"{new} would be read as something else than a name")
    return [{"range": source.range(span), "newText": written} for span in spans]


def changed(data: bytes, spans: List[Span], written: bytes) -> bytes:
    """A text with other words at some places, which are one behind another."""
    ends = [0, *(it.end for it in spans)]
    pieces = [data[end:span.start] for end, span in zip(ends, spans)]
    return written.join([*pieces, data[ends[-1]:]])
