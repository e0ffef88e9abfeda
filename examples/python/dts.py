#!/usr/bin/env python3
"""Writes TypeScript declarations with their docs:  dts.py FILE.. > types.d.ts

What it has no word for it leaves out, and says so on standard error.
"""

import json
import sys
import textwrap
from pathlib import Path
from typing import Any, Iterator, List

import weedle
from weedle import Definition, Index, Member, kind_of, members_of, types
from weedle.argument import Argument
from weedle.types import NonAnyType, ReturnType, Type, UnionMemberType

# Types that TypeScript has by another name; all others are called the same.
NAMES = {
    **dict.fromkeys(("Integer", "FloatingPoint", "Byte", "Octet"), "number"),
    **dict.fromkeys(("ByteString", "DOMString", "USVString"), "string"),
    "Boolean": "boolean", "Object": "object", "Symbol": "symbol", "Any": "any", "Undefined": "void",
    "WindowProxy": "Window",
}
RESERVED = "class default delete enum function import in new this var with".split()
WRAPPERS = (Type.Single, types.SingleType.NonAny, ReturnType.Type, UnionMemberType.Single)


def type_text(it: Any) -> str:
    """A type: `unsigned long?` is `number | null`."""
    return " | ".join(dict.fromkeys(parts_of(it)))


def parts_of(it: Any) -> Iterator[str]:
    """The types of a union, or the only one, and `null` where it may be."""
    if isinstance(it, (types.AttributedType, types.AttributedNonAnyType)):
        yield from parts_of(it.type_)
    elif isinstance(it, WRAPPERS):
        yield from parts_of(it.value)
    elif isinstance(it, (Type.Union, UnionMemberType.Union)):
        for member in it.value.type_.body:
            yield from parts_of(member)
    else:
        yield single_text(it)
    if getattr(getattr(it, "value", None), "q_mark", None):
        yield "null"


def single_text(it: Any) -> str:
    """A type that is no union, without its `?`."""
    if isinstance(it, NonAnyType.Promise):
        return f"Promise<{type_text(it.value.generics.body)}>"
    if isinstance(it, NonAnyType.RecordType):
        return f"Record<string, {type_text(it.value.type_.generics.body[2])}>"
    if isinstance(it, (NonAnyType.Sequence, NonAnyType.FrozenArrayType)):
        readonly = "Readonly" * (it.variant == "FrozenArrayType")
        return f"{readonly}Array<{type_text(it.value.type_.generics.body)}>"
    name: str = it.value.type_.value if isinstance(it, NonAnyType.Identifier) else it.variant
    return NAMES.get(name, name)


def arguments_text(arguments: List[Argument.Variants]) -> str:
    """Arguments: `optional long x = 5, any... rest` are `x?: number, ...rest: Array<any>`."""
    found = []
    for it in arguments:
        name, type_ = it.value.identifier.value.replace("-", "_"), type_text(it.value.type_)
        name += "_" * (name in RESERVED)
        optional = "?" * (isinstance(it, Argument.Single) and bool(it.value.optional))
        found.append(f"{name}{optional}: {type_}" if it.variant == "Single" else f"...{name}: Array<{type_}>")
    return ", ".join(found)


def member_text(it: Member) -> str:
    """The declaration of a member; empty where there is no word for it."""
    name = json.dumps(it.name) if "-" in it.name else it.name
    type_ = type_text(it.type) if it.type else ""
    if it.kind == "Const":
        return f"readonly {name}: {it.inner.const_value.text};"
    if it.kind in ("Attribute", "Field"):
        readonly = "readonly " * bool(getattr(it.inner, "readonly", None))
        return f"{readonly}{name}{'?' * (not getattr(it.inner, 'required', True))}: {type_};"
    if it.kind == "Operation" and it.identifier:
        return f"{name}({arguments_text(it.arguments)}): {type_};"
    if it.kind in ("Iterable", "AsyncIterable"):
        item = f"[{type_text(it.key_type)}, {type_}]" if it.key_type else type_
        word = it.kind.replace("able", "ator")
        return f"[Symbol.{word[0].lower()}{word[1:]}](): {word}<{item}>;"
    return "toString(): string;" if it.kind == "Stringifier" else ""


def emit(doc: str, text: str, indent: str = "") -> None:
    """Writes a declaration behind its doc."""
    lines = doc.replace("*/", "* /").replace("\n", "\n * ")
    print(textwrap.indent(f"/** {lines} */\n{text}" if doc else text, indent))


def write_members(index: Index, members: List[Member]) -> None:
    for it in members:
        text = member_text(it)
        if it.definition.variant.endswith("Namespace") and text:
            text = text.replace("readonly ", "const ") if it.kind == "Attribute" else f"function {text}"
        if text:
            emit(it.doc, text, "  ")
        else:
            print(f"{index.place_of(it.value)}: left out: {it.value.text}", file=sys.stderr)


def write_definition(index: Index, definition: Definition.Variants) -> None:
    """Writes what a definition declares."""
    it: Any = definition.value
    kind = kind_of(definition).rpartition("partial ")[2]
    if kind in ("includes", "implements"):
        return print(f"interface {it.lhs_identifier.value} extends {it.rhs_identifier.value} {{}}")
    name, doc, members = it.identifier.value, definition.doc, members_of(definition)
    if kind == "enum":
        values = " | ".join(json.dumps(value.value.value) for value in it.values.body)
        return emit(doc, f"type {name} = {values};")
    if kind == "typedef":
        return emit(doc, f"type {name} = {type_text(it.type_)};")
    if kind == "callback":
        arguments = arguments_text(it.arguments.body.list)
        return emit(doc, f"type {name} = ({arguments}) => {type_text(it.return_type)};")
    above = getattr(it, "inheritance", None)
    extends = f" extends {above.identifier.value}" if above else ""
    emit(doc, f"{'declare namespace' if kind == 'namespace' else 'interface'} {name}{extends} {{")
    write_members(index, [it for it in members if it.kind != "Constructor" and not it.is_static])
    print("}")
    if definition.variant == "Interface":
        print(f"declare var {name}: {{\n  prototype: {name};")
        for it in (it for it in members if it.kind == "Constructor"):
            emit(it.doc, f"new ({arguments_text(it.arguments)}): {name};", "  ")
        write_members(index, [it for it in members if it.kind == "Const" or it.is_static])
        print("};")


def main(files: List[str]) -> int:
    """Writes the declarations of files; the status is 1 where one is refused."""
    index, status = Index(), 0
    for name in files:
        try:
            for it in index.add(Path(name).read_bytes(), name):
                write_definition(index, it)
        except weedle.Refused as refused:
            print(f"{name}:{refused}", file=sys.stderr)
            status = 1
    return status


if __name__ == "__main__":
    sys.exit(main(sys.argv[1:]))
