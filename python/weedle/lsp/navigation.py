"""What a name stands for: where it is defined, where it is spoken of, and what is said of it."""

from __future__ import annotations

from typing import Any, Iterator, List, NamedTuple, Optional, Tuple

from weedle._making import made
from weedle._text import Span
from weedle._tree import Tree
from weedle.edits import DEFINING, RENAMED
from weedle.grammar import NUMBERS
from weedle.index import kind_of, members_of
from weedle.lsp.outline import KINDS, STATEMENTS, declared, one_line, whole_of, words_start
from weedle.lsp.protocol import HighlightKind, Json
from weedle.lsp.sources import Source
from weedle.lsp.workspace import Document, Workspace
from weedle.names import Name, Role, names_in

#: Names of members, which stand for the same in a definition and in its parts.
MEMBERS = frozenset([Role.ATTRIBUTE, Role.OPERATION, Role.CONST, Role.DICTIONARY_MEMBER])
PARTS = frozenset([
    Role.PARTIAL_INTERFACE, Role.PARTIAL_MIXIN, Role.PARTIAL_DICTIONARY, Role.PARTIAL_NAMESPACE,
])
#: Names that speak of something that is defined elsewhere.
SPEAKING = RENAMED - DEFINING | {Role.EXTENDED_ATTRIBUTE}
ARGUMENTS = frozenset(NUMBERS[name] for name in (
    "single_argument", "variadic_argument", "today_optional_argument", "today_required_argument",
))
ENUMS = frozenset(NUMBERS[name] for name in ("enum_definition", "today_enum"))
BODIES = frozenset(number for name, number in NUMBERS.items() if name.startswith("braced_"))
# A definition without members is shown whole, up to so many characters.
LONGEST = 600


class Target(NamedTuple):
    """A name that is asked for."""

    text: str
    span: Span
    #: None in a part of a text that isn't read.
    name: Optional[Name]

    @property
    def is_global(self) -> bool:
        """Whether it may speak of a definition."""
        return self.name is None or self.name.role in RENAMED or (
            self.name.role is Role.EXTENDED_ATTRIBUTE_VALUE
        )


def target(source: Source, place: int) -> Optional[Target]:
    """The name at a place."""
    name = source.name_at(place)
    if name:
        return Target(name.text, name.span, name)
    span = source.word_at(place)
    if span.end > span.start and source.is_unread(span.start):
        return Target(source.text(span).lstrip("_"), span, None)
    return None


def names(workspace: Workspace, source: Source, it: Target) -> Iterator[Tuple[Source, Name]]:
    """All names that stand for the same, each with its text."""
    if it.is_global:
        for other in workspace.sources():
            yield from ((other, name) for name in other.names_of(it.text))
    elif it.name and it.name.role in MEMBERS:
        yield from members(workspace, source, it.name)
    elif it.name and it.name.role is Role.EXTENDED_ATTRIBUTE:
        for other in workspace.sources():
            yield from ((other, name) for name in other.attribute_names(it.text))
    elif it.name:
        yield source, it.name


def members(workspace: Workspace, source: Source, name: Name) -> Iterator[Tuple[Source, Name]]:
    """The members of that name in a definition and in its parts, as operations are overloaded."""
    owner = source.owner_at(name.span.start)
    if not owner:
        yield source, name
        return
    for other in workspace.sources():
        for node in other.bodies(owner):
            for found in names_in(other.tree, node):
                if found.role is name.role and found.text == name.text:
                    yield other, found


def definition(workspace: Workspace, source: Source, place: int) -> List[Json]:
    """Where the name at a place is defined; where nothing defines it, where its parts are."""
    it = target(source, place)
    if it is None:
        return []
    if it.name and it.name.role is Role.EXTENDED_ATTRIBUTE:
        return []
    if not it.is_global:
        return [source.location(it.span)]
    found = list(names(workspace, source, it))
    for roles in (DEFINING, PARTS):
        chosen = [other.location(name.span) for other, name in found if name.role in roles]
        if chosen:
            return chosen
    return []


def references(
    workspace: Workspace, source: Source, place: int, with_definition: bool,
) -> List[Json]:
    """Where what is at a place is spoken of."""
    it = target(source, place)
    if it is None:
        return []
    return [
        other.location(name.span) for other, name in names(workspace, source, it)
        if with_definition or name.role in SPEAKING
    ]


def highlights(source: Source, place: int) -> List[Json]:
    """The same within the text."""
    it, alone = target(source, place), Workspace()
    if it is None:
        return []
    alone.documents[source.uri] = Document(None, source)
    return [
        {"range": source.range(name.span), "kind": highlight_kind(name)}
        for _, name in names(alone, source, it)
    ]


def highlight_kind(name: Name) -> HighlightKind:
    """Whether something is defined there, or spoken of."""
    return HighlightKind.READ if name.role in SPEAKING else HighlightKind.WRITE


def hover(workspace: Workspace, source: Source, place: int) -> Optional[Json]:
    """The declaration of the name at a place, and its docs."""
    it = target(source, place)
    said: List[str] = []
    if it and it.is_global:
        said = definitions_said(workspace, it.text)
    elif it and it.name:
        said = member_said(source.tree, it.name)
    if it is None or not said:
        return None
    return {
        "contents": {"kind": "markdown", "value": "\n\n".join(said)},
        "range": source.range(it.span),
    }


def definitions_said(workspace: Workspace, text: str) -> List[str]:
    """What is said of a definition of a name: the words, the docs, its parts and statements."""
    said: List[str] = []
    others: List[Tuple[Source, Any]] = []
    for source in workspace.sources():
        for it in source.defined(text):
            if kind_of(it) in STATEMENTS or it.variant.startswith("Partial"):
                others.append((source, it))
            else:
                said += whole_said(source, it)
        for broken in source.broken(text):
            said += [code(one_line(source.tree, broken.head)), broken.doc, "not read whole"]
    if said:
        return [*filter(None, said), *(part_said(*it) for it in others)]
    return [line for it in others for line in whole_said(*it) if line]


def whole_said(source: Source, it: Any) -> List[str]:
    """The words of a definition, its docs and how many members it has; empty where none."""
    count = len(members_of(it))
    counted = f"{count} member{'s' * (count != 1)}" if count else ""
    return [code(head(source.tree, it._node)), it.doc, counted]


def code(text: str) -> str:
    """Text as code."""
    return f"```webidl\n{text}\n```"


def head(tree: Tree, node: int) -> str:
    """A definition up to its body, or all of what has none, without extended attributes."""
    below = declared(tree, node)
    span = Span(words_start(tree, below), tree.span(below).end)
    if tree.rules[below] in ENUMS and span.end - span.start <= LONGEST:
        return tree.text.slice(span)
    bodies = (it for it in tree.children(below) if tree.rules[it] in BODIES)
    body = next(bodies, None)
    end = span.end if body is None else tree.starts[body]
    return one_line(tree, Span(span.start, end))[:LONGEST]


def part_said(source: Source, it: Any) -> str:
    """A part or a statement: its words, and where it is."""
    line = source.lines.line_of(it.span.start) + 1
    name = source.uri.rpartition("/")[2]
    return f"`{head(source.tree, it._node).rstrip(';')}` ({name}:{line})"


def member_said(tree: Tree, name: Name) -> List[str]:
    """What is said of a member or an argument: its words, its docs and what it is in."""
    node = name.value._node
    is_argument = name.role is Role.ARGUMENT
    rules = ARGUMENTS if is_argument else frozenset(KINDS)
    while node >= 0 and tree.rules[node] not in rules:
        node = tree.above(node)
    if node < 0 or name.role is Role.EXTENDED_ATTRIBUTE:
        return []
    words = one_line(tree, Span(words_start(tree, node), tree.span(node).end))
    above = tree.above(node)
    while above >= 0 and tree.rules[above] not in KINDS:
        above = tree.above(above)
    outer = head(tree, above) if above >= 0 else ""
    doc = "" if is_argument else made(tree, whole_of(tree, node)).doc
    return [it for it in (code(words), doc, f"of `{outer.rstrip(';')}`" if outer else "") if it]
