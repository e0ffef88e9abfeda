"""Checks WebIDL files together by rules that the grammar doesn't have.

    weedle lint [--json] [--ignore CODE].. [--known FILE].. [--today] FILE..

`python3 -m weedle lint` is the same. Each problem has a line: file, line, column, its code, and
why; with `--json` it is an object. A comment `// weedle-ignore: CODE` leaves out the problems of its
line, or of the next one where it is alone; without a code all of them. A FILE of `--known` has
names of extended attributes. With `--today` files are read by the rules of today's WebIDL.
The status is 0 where there is no problem, 1 where there is one, and 2 where a file can't be read or
the arguments are others.
"""

from __future__ import annotations

import argparse
import json
import re
import sys
from itertools import combinations
from pathlib import Path
from typing import (
    AbstractSet, Any, BinaryIO, Dict, Iterator, List, NamedTuple, Optional, Sequence, Set, Tuple,
)

import weedle
from weedle import argument, definitions, today
from weedle._dialect import Dialect
from weedle._flat_types import Types
from weedle.common import Identifier, Parenthesized
from weedle.errors import READ_TODAY
from weedle.index import BUILTIN, Entry, Index, Member, kind_of, name_of
from weedle.names import Role
from weedle.types import Type

#: The extended attributes of Web IDL, HTML and Service Workers.
KNOWN = frozenset("""
    AllowResizable AllowShared CEReactions Clamp CrossOriginIsolated Default EnforceRange Exposed
    Global HTMLConstructor LegacyFactoryFunction LegacyLenientSetter LegacyLenientThis LegacyNamespace
    LegacyNoInterfaceObject LegacyNullToEmptyString LegacyOverrideBuiltIns LegacyTreatNonObjectAsNull
    LegacyUnenumerableNamedProperties LegacyUnforgeable LegacyWindowAlias NewObject PutForwards
    Reflect Replaceable SameObject SecureContext Serializable StringContext Transferable Unscopable
""".split())
IGNORED = re.compile(r"weedle-ignore(?::\s*([a-z-]+(?:\s*,\s*[a-z-]+)*))?")
# What the rules look for, of both trees.
ENUMS = (definitions.EnumDefinition, today.EnumDefinition)
ARGUMENTS = (argument.Argument, today.Argument)
VARIADIC = argument.Argument.Variadic


class Problem(NamedTuple):
    """What is wrong, and where."""

    file: str
    line: int
    column: int
    code: str
    message: str

    def __str__(self) -> str:
        return f"{self.file}:{self.line}:{self.column}: {self.code}: {self.message}"


class Linter:
    """Checks the definitions of an index."""

    def __init__(self, index: Index, known: AbstractSet[str]) -> None:
        self.index, self.types, self.known = index, Types(index), known
        self.problems: List[Problem] = []

    def read(self, name: str, data: bytes) -> Any:
        """Takes the definitions of a file; of one that is refused those that are read."""
        try:
            return self.index.add(data, name)
        except weedle.Refused as fault:
            why = f"expected {fault.expected}" + f" ({fault.hint})" * bool(fault.hint)
            why += f"; {READ_TODAY}: --today" * fault.is_read_today
            self.problems.append(Problem(name, fault.line, fault.column, "syntax", why))
            front = data[:fault.start]
            return self.index.add(front if front.strip() else b"", name)

    def say(self, value: Any, code: str, message: str) -> None:
        """Keeps a problem."""
        line, column = value.position
        self.problems.append(Problem(self.index.file_of(value), line, column, code, message))

    def check(self) -> None:
        """Checks everything."""
        for entry in self.index.duplicates():
            first, *others = map(name_of, entry.definitions)
            for name in others:
                said = f"{entry.name} is defined already, at {self.index.place_of(first)}"
                self.say(name, "duplicate-definition", said)
        self.check_names()
        for text in self.index.texts:
            for definition in text:
                self.check_definition(definition)
        for entry in self.index.values():
            self.check_members(entry)

    def check_names(self) -> None:
        """Checks what names speak of."""
        for it in self.index.names():
            entry = self.index.get(it.text)
            kind = entry.kind if entry else ""
            if it.role is Role.TYPE and not kind and it.text not in BUILTIN:
                self.say(it.value, "undefined-type", f"nothing defines the type {it.text}")
            elif it.role is Role.TYPE and kind in ("interface mixin", "namespace"):
                self.say(it.value, "wrong-kind", f"the {kind} {it.text} is no type")
            elif it.role is Role.EXTENDED_ATTRIBUTE and it.text not in self.known:
                self.say(it.value, "unknown-attribute", f"unknown extended attribute {it.text}")
            elif it.role in (Role.INCLUDER, Role.IMPLEMENTER, Role.IMPLEMENTED):
                self.expect(it.value, kind, "interface")
            elif it.role is Role.INCLUDED:
                self.expect(it.value, kind, "interface mixin")

    def expect(self, name: Identifier, kind: str, wanted: str) -> None:
        """Checks what a statement or an inheritance names."""
        if not kind:
            code = "undefined-mixin" if wanted == "interface mixin" else "undefined-name"
            self.say(name, code, f"nothing defines the {wanted} {name.value}")
        elif kind != wanted:
            self.say(name, "wrong-kind", f"{name.value} is no {wanted}, but {a(kind)}")

    def check_definition(self, definition: Any) -> None:
        """Checks what one definition says."""
        inner: Any = definition.value
        kind = kind_of(definition)
        if kind.startswith("partial "):
            self.check_part(inner.identifier, kind[len("partial "):])
        if getattr(inner, "inheritance", None):
            self.check_inheritance(self.index[inner.identifier.value], inner, kind)
        if isinstance(inner, ENUMS):
            self.check_values(inner)
        for kind_of_union in (Type.Union, today.Type.Union):
            for union in definition.find(kind_of_union):
                self.check_union(union)
        for it in definition.find(Parenthesized):
            if it.body.list and isinstance(it.body.list[0], ARGUMENTS):
                # what is called by scripts; a callback is called by the platform
                self.check_arguments(it.body.list, not kind.startswith("callback"))

    def check_part(self, name: Identifier, kind: str) -> None:
        found = self.index[name.value].kind
        if found != kind:
            said = f"it is {a(found)}" if found else "nothing defines it"
            self.say(name, "partial-without-definition", f"partial {kind} {name.value}, and {said}")

    def check_inheritance(self, entry: Entry, inner: Any, kind: str) -> None:
        name = inner.inheritance.identifier
        above = self.index.get(name.value)
        if not above or not above.kind:
            self.say(name, "undefined-parent", f"nothing defines the parent {name.value}")
        elif above.kind != kind:
            self.say(name, "wrong-kind", f"the parent {name.value} is {a(above.kind)}")
        chain = [entry, *entry.ancestors()]
        last = chain[-1].inherited
        if last and last.value == entry.name:
            names = " : ".join([it.name for it in chain] + [entry.name])
            self.say(name, "inheritance-cycle", names)

    def check_values(self, enum: Any) -> None:
        seen: Set[str] = set()
        for it in enum.values.body:
            if it.value.value in seen:
                name = enum.identifier.value
                self.say(it, "duplicate-enum-value", f"{name} has {it.value.text} already")
            seen.add(it.value.value)

    def check_union(self, union: Any) -> None:
        for one, other in combinations(self.types.flat(union), 2):
            if one.category == other.category == "null":
                self.say(union, "nullable-twice", "more than one of the union's types is nullable")
            elif {one.category, other.category} == {"null", "dictionary"}:
                self.say(union, "nullable-twice", "a nullable union has a dictionary")
            elif not self.types.are_distinguishable(one, other):
                said = f"{one.name} and {other.name} aren't distinguishable"
                self.say(union, "indistinguishable-union", said)

    def check_arguments(self, arguments: Sequence[Any], is_called: bool) -> None:
        is_rest_optional = True
        for argument_ in (it for it in reversed(arguments) if not is_variadic(it)):
            it = argument_.value
            name, is_left_out = it.identifier, not is_needed(argument_)
            if is_left_out and not is_rest_optional:
                said = f"the argument {name.value} is optional, and one behind it isn't"
                self.say(name, "required-behind-optional", said)
            if is_called and self.types.dictionaries(it.type_):
                self.check_dictionary_argument(it, is_rest_optional, is_left_out)
            is_rest_optional = is_rest_optional and is_left_out

    def check_dictionary_argument(
        self, it: Any, is_rest_optional: bool, is_left_out: bool,
    ) -> None:
        name, wanted = it.identifier, ""
        if any(flat.category == "null" for flat in self.types.flat(it.type_)):
            wanted = "is nullable"
        elif is_rest_optional and all(map(is_optional, self.types.dictionaries(it.type_))):
            lacks = "needs the default {}" if is_left_out else "must be optional"
            wanted = "" if is_left_out and it.default else lacks
        if wanted:
            self.say(name, "dictionary-argument", f"the dictionary argument {name.value} {wanted}")

    def check_members(self, entry: Entry) -> None:
        """Checks which members of a definition and its parts and mixins have one name."""
        named: Dict[Tuple[str, bool], List[Member]] = {}
        for member in entry.members():
            if member.name or member.kind == "Constructor":
                named.setdefault((member.name, member.is_static or member.kind == "Const"), []).append(member)
        for members in named.values():
            for one, other in combinations(members, 2):
                # what a mixin has twice is said of the mixin
                whole, others = (name_of(it.definition).value for it in (one, other))
                if whole != others or whole == entry.name:
                    self.check_pair(entry, one, other)

    def check_pair(self, entry: Entry, one: Member, other: Member) -> None:
        place, name = self.index.place_of(one.value), one.name or "constructor"
        if not {one.kind, other.kind} <= {"Operation", "Constructor"}:
            self.say(other.value, "duplicate-member", f"{entry.name} has {name} already, at {place}")
            return
        count = self.common_count(one.arguments, other.arguments)
        if count is not None:
            said = f"a call with {count} arguments may be of the {name} at {place} too"
            self.say(other.value, "indistinguishable-overloads", said)

    def common_count(self, one: Sequence[Any], other: Sequence[Any]) -> Optional[int]:
        """A number of arguments with which a call may be of both, or None."""
        least = max(len([it for it in all_ if is_needed(it)]) for all_ in (one, other))
        for count in range(least, max(len(one), len(other)) + 1):
            types = types_of(one, count), types_of(other, count)
            is_told = any(map(self.types.are_told_apart, *types))
            if count == len(types[0]) == len(types[1]) and not is_told:
                return count
        return None


def a(kind: str) -> str:
    """A kind of definition with its article."""
    return f"an {kind}" if kind[0] in "aeiou" else f"a {kind}"


def is_variadic(it: Any) -> bool:
    """Whether a call may give any number of this argument."""
    return isinstance(it, VARIADIC) or bool(getattr(it.value, "ellipsis", None))


def is_needed(it: Any) -> bool:
    """Whether a call has to give this argument."""
    return not is_variadic(it) and not getattr(it.value, "optional", None)


def types_of(arguments: Sequence[Any], count: int) -> List[Any]:
    """The types of so many arguments of a call, or of fewer where it may not have so many."""
    types = [it.value.type_ for it in arguments]
    is_last_variadic = bool(arguments) and is_variadic(arguments[-1])
    return (types + types[-1:] * count * is_last_variadic)[:count]


def is_optional(dictionary: Entry) -> bool:
    """Whether no member of a dictionary, nor of what it inherits from, is required."""
    all_ = [dictionary, *dictionary.ancestors()]
    return not any(member.inner.required for it in all_ for member in it.members())


def ignored(text: Any) -> Iterator[Tuple[int, str]]:
    """The lines of which problems are left out, each with a code, or with an empty one for all."""
    lines = text.text.split("\n")
    for comment in text.syntax.comments:
        said = IGNORED.search(comment.text)
        if said:
            line, column = comment.position
            is_alone = not lines[line - 1][:column - 1].strip()
            at = line + is_alone * (1 + comment.text.rstrip("\n").count("\n"))
            yield from ((at, code) for code in re.split(r"\s*,\s*", said[1] or ""))


def lint(
    files: Dict[str, bytes], known: AbstractSet[str] = KNOWN, *, dialect: Dialect = "weedle2"
) -> List[Problem]:
    """The problems of some files, by their names, in the order of the files and of their lines."""
    linter = Linter(Index(dialect=dialect), known)
    left_out: Set[Tuple[str, int, str]] = set()
    for name, data in files.items():
        text = linter.read(name, data)
        left_out.update((name, *it) for it in ignored(text) if text)
    linter.check()
    found = [
        it for it in linter.problems
        if not {(it.file, it.line, ""), (it.file, it.line, it.code)} & left_out
    ]
    order = {name: number for number, name in enumerate(files)}
    return sorted(found, key=lambda it: (order[it.file], it[1:]))


def read(name: str) -> bytes:
    """What is in a file; `-` is standard input."""
    data = sys.stdin.buffer.read() if name == "-" else Path(name).read_bytes()
    data.decode()
    return data


def main(words: Sequence[str], out: BinaryIO) -> int:
    """Checks the files that the arguments name, and writes their problems."""
    parser = argparse.ArgumentParser(
        "weedle lint", description="Checks WebIDL files together.",
        epilog=(__doc__ or "").rpartition("\n\n")[2],
        formatter_class=argparse.RawDescriptionHelpFormatter,
    )
    parser.add_argument("--json", action="store_true", help="write each problem as JSON")
    for option, name, what in (
        ("--ignore", "CODE", "leave these problems out"),
        ("--known", "FILE", "names of extended attributes that are known too"),
    ):
        parser.add_argument(option, metavar=name, action="append", default=[], help=what)
    parser.add_argument(
        "--today", dest="dialect", action="store_const", const="today", default="weedle2",
        help="read by the rules of today's WebIDL, and not by those of weedle2",
    )
    parser.add_argument("files", metavar="FILE", nargs="+", help="files that are checked together")
    wanted = parser.parse_args(words)
    try:
        known = KNOWN.union(*(read(name).decode().split() for name in wanted.known))
        files = {name: read(name) for name in wanted.files}
    except (OSError, UnicodeDecodeError) as fault:
        print(f"weedle lint: {fault}", file=sys.stderr)
        return 2
    found = lint(files, known, dialect=wanted.dialect)
    problems = [it for it in found if it.code not in wanted.ignore]
    for it in problems:
        said = json.dumps(it._asdict()) if wanted.json else str(it)
        out.write(f"{said}\n".encode(errors="surrogateescape"))
    out.flush()
    return 1 if problems else 0
