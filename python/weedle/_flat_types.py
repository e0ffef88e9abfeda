"""What types are, for the rules of which of them are distinguishable."""

from __future__ import annotations

from typing import Any, Iterator, List, NamedTuple, Tuple

from weedle import today
from weedle.definitions import Definition
from weedle.index import BUILTIN, Entry, Index
from weedle.types import (
    AttributedNonAnyType, AttributedType, NonAnyType, ReturnType, SingleType, Type, UnionMemberType,
)

# What a type is for the rules of which types are distinguishable; buffers and errors are interfaces.
CATEGORIES = {
    **dict.fromkeys(("Integer", "FloatingPoint", "Byte", "Octet"), "numeric"),
    **dict.fromkeys(("ByteString", "DOMString", "USVString"), "string"),
    **dict.fromkeys(("Sequence", "FrozenArrayType", "FrozenArray", "ObservableArray"), "sequence"),
    **dict.fromkeys(("RecordType", "Record"), "dictionary"),
    "Boolean": "boolean", "Object": "object", "Symbol": "symbol", "Promise": "promise",
    "AsyncSequence": "async sequence", "BigInt": "bigint", "Undefined": "undefined",
}
NAMED = {
    **{it: it for it in ("interface", "dictionary", "callback", "bigint", "undefined")},
    "enum": "string", "callback interface": "dictionary",
}
VIEWS = """DataView Int8Array Int16Array Int32Array Uint8Array Uint16Array Uint32Array
    Uint8ClampedArray Float16Array Float32Array Float64Array BigInt64Array BigUint64Array""".split()
BUFFERS = {"ArrayBufferView": VIEWS, "BufferSource": ["ArrayBuffer", *VIEWS]}
# Pairs of different categories that aren't distinguishable; `any` and promises are from nothing.
ALIKE = [{"undefined", "dictionary"}, {"sequence", "async sequence"}] + [
    {"object", it} for it in ("interface", "callback", "dictionary", "sequence", "async sequence")
]
# Types of both trees: those around another, unions, names, those that say which they are, and `any`.
WRAPPERS = (
    Type.Single, SingleType.NonAny, UnionMemberType.Single, ReturnType.Type, today.Type.NonAny,
    today.UnionMemberType.Single,
)
ATTRIBUTED = (
    AttributedType, AttributedNonAnyType, today.AttributedType, today.AttributedNonAnyType,
)
UNIONS = (Type.Union, UnionMemberType.Union, today.Type.Union, today.UnionMemberType.Union)
NAMES = (NonAnyType.Identifier, today.NonAnyType.Identifier)
CHOSEN = (today.NonAnyType.Word, today.NonAnyType.Generic)
KINDS = (NonAnyType, today.NonAnyType)
ANY = (SingleType.Any, today.Type.Any)
TYPEDEFS = (Definition.Typedef, today.Definition.Typedef)


class Flat(NamedTuple):
    """A type that is no union: what it is, and its name; of a `?` the category is `null`."""

    category: str
    name: str


class Types:
    """What types are, by the definitions of an index."""

    def __init__(self, index: Index) -> None:
        self.index = index

    def flat(self, it: Any, seen: Tuple[str, ...] = ()) -> Iterator[Flat]:
        """The types that a type may be, without unions, names for types and attributes."""
        if isinstance(it, ATTRIBUTED):
            yield from self.flat(it.type_, seen)
        elif isinstance(it, WRAPPERS):
            yield from self.flat(it.value, seen)
        elif isinstance(it, UNIONS):
            for member in it.value.type_.body:
                yield from self.flat(member, seen)
        elif isinstance(it, NAMES):
            yield from self.named(it.value.type_.value, seen)
        elif isinstance(it, KINDS):
            # of today's tree a word or a type over others is chosen once more
            chosen = it.value.type_.variant if isinstance(it, CHOSEN) else it.variant
            names = BUFFERS.get(chosen, [it.text.rstrip("? ")])
            yield from (Flat(CATEGORIES.get(chosen, "interface"), name) for name in names)
        elif isinstance(it, ANY):
            yield Flat("any", "any")
        if getattr(getattr(it, "value", None), "q_mark", None):
            yield Flat("null", "?")

    def named(self, name: str, seen: Tuple[str, ...]) -> Iterator[Flat]:
        """The same of a name."""
        entry = self.index.get(name)
        if entry and isinstance(entry.definition, TYPEDEFS):
            if name not in seen:
                yield from self.flat(entry.definition.value.type_, (*seen, name))
        elif entry and entry.kind:
            yield Flat(NAMED.get(entry.kind, "unknown"), name)
        else:
            yield Flat(NAMED.get(name, "interface" if name in BUILTIN else "unknown"), name)

    def are_distinguishable(self, one: Flat, other: Flat) -> bool:
        """Whether a value says which of two types it has; of an unknown one it is taken to."""
        pair = {one.category, other.category}
        if "unknown" in pair:
            return one != other
        if pair & {"any", "promise"} or pair == {"null", "dictionary"}:
            return False
        if pair == {"interface"}:
            return not (self.is_below(one.name, other.name) or self.is_below(other.name, one.name))
        return len(pair) == 2 and pair not in ALIKE

    def is_below(self, name: str, other: str) -> bool:
        """Whether an interface is another, or inherits from it."""
        entry = self.index.get(name)
        return name == other or other in [it.name for it in (entry.ancestors() if entry else ())]

    def are_told_apart(self, one: Any, other: Any) -> bool:
        """Whether a value says which of two types it has, which may be unions."""
        return all(self.are_distinguishable(a, b) for a in self.flat(one) for b in self.flat(other))

    def dictionaries(self, it: Any) -> List[Entry]:
        """The dictionaries that a type may be."""
        found = [self.index.get(flat.name) for flat in self.flat(it)]
        return [entry for entry in found if entry and entry.kind == "dictionary"]
