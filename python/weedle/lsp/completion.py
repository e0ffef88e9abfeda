"""Words that go on at a place: those of the grammar, and the names of the files."""

from __future__ import annotations

from typing import AbstractSet, Dict, FrozenSet, Iterator, List, Optional, Tuple

from weedle._dialect import Dialect
from weedle._text import Span
from weedle.index import BUILTIN, kind_of
from weedle.lint import KNOWN
from weedle.lsp.outline import STATEMENTS
from weedle.lsp.protocol import ItemKind, Json
from weedle.lsp.sources import Source
from weedle.lsp.words import BEGINNINGS, Expected, Front, expected, front_at
from weedle.lsp.workspace import Workspace

#: What a definition is shown as.
ITEMS: Dict[str, ItemKind] = {
    "interface": ItemKind.INTERFACE, "callback interface": ItemKind.INTERFACE,
    "interface mixin": ItemKind.CLASS, "namespace": ItemKind.MODULE,
    "dictionary": ItemKind.STRUCT, "enum": ItemKind.ENUM, "typedef": ItemKind.TYPE_PARAMETER,
    "callback": ItemKind.FUNCTION,
}
# What can be a type, and the types that the grammar takes for names as well as for words.
TYPES: FrozenSet[str] = frozenset(ITEMS) - {"interface mixin", "namespace"}
PLAIN = frozenset("boolean byte octet short float double".split())
NAMED = frozenset("""
    DOMString USVString ByteString object symbol Error ArrayBuffer ArrayBufferView BufferSource
    DataView Int8Array Int16Array Int32Array Uint8Array Uint16Array Uint32Array Uint8ClampedArray
    Float32Array Float64Array
""".split())
# Words that begin a type: the one is read where any type is, the other where one of any kind is.
BEGINS_TYPE, BEGINS_ANY_TYPE = "unsigned", "sequence"
# What a name in the head of a definition speaks of, by the words in front of it.
HEADS: Dict[Tuple[bytes, ...], FrozenSet[str]] = {
    (b"partial", b"interface"): frozenset(["interface"]),
    (b"partial", b"interface", b"mixin"): frozenset(["interface mixin"]),
    (b"partial", b"dictionary"): frozenset(["dictionary"]),
    (b"partial", b"namespace"): frozenset(["namespace"]),
    (): frozenset(["interface"]),
}
NONE: FrozenSet[str] = frozenset()


def completions(workspace: Workspace, source: Source, place: int) -> List[Json]:
    """What may go on at a place, or be there in place of the word."""
    word = source.word_at(place)
    front = front_at(source.data, source.begun_before(word.start), word.start)
    if front is None:
        return []
    prefix = source.text(Span(word.start, place)).lstrip("_").lower()
    range_ = source.range(word)
    return [
        {**it, "textEdit": {"range": range_, "newText": it["label"]}}
        for it in items(workspace, front, source.dialect) if prefix in it["label"].lower()
    ]


def items(workspace: Workspace, front: Front, dialect: Dialect = "weedle2") -> Iterator[Json]:
    """What goes on behind a front, without places."""
    attribute = place_in_brackets(front.words)
    if attribute is not None:
        yield from attribute_items(workspace, attribute)
        return
    found = expected(front, dialect)
    if found is None:
        return
    # `enum includes A;` is read, and isn't what one writes
    is_beginning = BEGINNINGS.issuperset(front.words[-1:])
    yield from words_shown(found.words - (STATEMENTS if is_beginning else NONE), "1")
    if BEGINS_TYPE in found.words:
        is_any = BEGINS_ANY_TYPE in found.words
        names = PLAIN | NAMED | BUILTIN if is_any else PLAIN
        yield from words_shown(names - found.words, "2")
    kinds = kinds_at(front, found)
    own = frozenset(front.words)
    yield from (definition_item(*it) for it in definitions(workspace, kinds, own))


def words_shown(words: AbstractSet[str], order: str) -> Iterator[Json]:
    """Words of the grammar as they are shown, behind those of a smaller order."""
    for it in sorted(words):
        yield {"label": it, "kind": ItemKind.KEYWORD, "sortText": f"{order}{it}"}


def place_in_brackets(words: Tuple[bytes, ...]) -> Optional[bytes]:
    """Within extended attributes what is in front: `[`, a `,`, or the attribute of a value.

    None elsewhere, as among the arguments of an attribute.
    """
    opened: List[int] = []
    for at, word in enumerate(words):
        if word in (b"[", b"("):
            opened.append(at)
        elif word in (b"]", b")") and opened:
            opened.pop()
    if not opened:
        return None
    at, last = opened[-1], words[-1]
    if words[at] == b"[":
        return b"[" if last in (b"[", b",") else words[-2] if last == b"=" else b""
    is_value = len(opened) > 1 and words[opened[-2]] == b"[" and words[at - 1] == b"="
    return (words[at - 2] if last in (b"(", b",") else b"") if is_value else None


def attribute_items(workspace: Workspace, at: bytes) -> Iterator[Json]:
    """The extended attributes, or the values that an attribute has in the files."""
    names = attribute_names(workspace, at.decode()) if at else ()
    kind = ItemKind.PROPERTY if at == b"[" else ItemKind.VALUE
    yield from ({"label": it, "kind": kind} for it in sorted(names))


def attribute_names(workspace: Workspace, at: str) -> AbstractSet[str]:
    """The extended attributes that are known or be in the files, or the values of one."""
    found = set(KNOWN) if at == "[" else set()
    for source in workspace.sources():
        for name, values in source.attributes.items():
            found |= {name} if at == "[" else values if at == name else NONE
    return found


def kinds_at(front: Front, found: Expected) -> AbstractSet[str]:
    """The kinds of definitions that are spoken of behind a front."""
    if BEGINS_TYPE in found.words and (front.head or front.words):
        return TYPES if BEGINS_ANY_TYPE in found.words else frozenset(["typedef"])
    if front.head or not found.has_name:
        return NONE
    words = behind_attributes(front.words)
    if words[-1:] == (b":",):
        return frozenset(["dictionary" if b"dictionary" in words else "interface"])
    if words[-1:] in ((b"includes",), (b"implements",)):
        return frozenset(["interface mixin" if words[-1] == b"includes" else "interface"])
    return HEADS.get(words, NONE)


def behind_attributes(words: Tuple[bytes, ...]) -> Tuple[bytes, ...]:
    """The words of a definition without the extended attributes in front."""
    depth = 0
    for at, word in enumerate(words):
        if not depth and word != b"[" and not word.startswith(b"///"):
            return words[at:]
        depth += (word == b"[") - (word == b"]")
    return ()


def definitions(
    workspace: Workspace, kinds: AbstractSet[str], own: AbstractSet[bytes],
) -> Iterator[Tuple[str, str, str]]:
    """The definitions of some kinds, each once: name, kind and the name of the file.

    A broken one that has its name from these words is the one that is being written.
    """
    if not kinds:
        return
    seen = set()
    for source in workspace.sources():
        file = source.uri.rpartition("/")[2]
        for name, all_ in source.by_name.items():
            kind = next((kind_of(it) for it in all_ if kind_of(it) in kinds), "")
            if kind and name not in seen:
                seen.add(name)
                yield name, kind, file
        for broken in source.reading.broken:
            is_own = broken.name.text.encode() in own
            if broken.kind in kinds and broken.name.text not in seen and not is_own:
                seen.add(broken.name.text)
                yield broken.name.text, broken.kind, file


def definition_item(name: str, kind: str, file: str) -> Json:
    """A definition as it is shown."""
    return {"label": name, "kind": ITEMS[kind], "detail": f"{kind}, {file}", "sortText": f"0{name}"}
