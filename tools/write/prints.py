"""Writes how members, definitions and what they hold are written as WebIDL, from their declarations.

tools/write/write_all.py runs it.

It writes the `impl WriteIdl` of each declared type in `weedle_print_idl`, in files of the families that
tools/write/spellings.py has. A struct of members or definitions is written by one call of `two` or its like over its
fields, an enum by a `match` among its variants; lists stand by hand in src/list.rt. How a field is written
follows from the crate that declares its type: a type of `weedle_types` and one of members or definitions by the
part that PARTS says, a generic one by its arguments, any other by itself. A definition of STATEMENTS takes one
line, and stands right behind another of its kind.

Of all types that others write, from names up to arguments, it writes the `impl` that hands them on.

It refuses, and says why, where a struct has more fields than one call writes, where a type has no spelling, or
where something is named that nothing brings in.
"""

import re
import sys
from collections.abc import Iterable, Iterator
from functools import cache
from pathlib import Path

if not __package__:
    sys.path[0] = str(Path(__file__).resolve().parent.parent)

from description import uses
from description.declarations import Declaration, Type, type_of
from description.docs import comment
from description.layout import use_line
from description.readings import IDL, LEAVES, TYPES
from shared.command_line import refuse_writer
from shared.crates import TOP, Unfit
from shared.written_places import files_in, module_in, put
from write.declared import public_part
from write.proofs.spelling_terms import Item
from write.proofs.spelt import TERMINALS, function
from write.spellings import DECLARED, FILES, FORMERS, SPELL, SPELL_IDL, items_of

CRATE = "weedle_print_idl"
# What stands for a type of these crates as a part of others, with the crate that has it.
PARTS = {TYPES: ("Held", "weedle_print")} | dict.fromkeys(IDL, ("IdlPart", CRATE))
# How many fields one call writes, by the name of the function.
COUNTS = dict(enumerate("two three four five six seven eight".split(), start=2))
FIELDS = "weedle_print::fields"
# The definitions that take one line, as the layout knows them.
STATEMENTS = {
    "CallbackDefinition": "Callback",
    "TypedefDefinition": "Typedef",
    "IncludesStatementDefinition": "Includes",
    "ImplementsDefinition": "Implements",
}
WHOLE = "Definition"
HEAD = "//!\n//! Written by tools/prints.py, and not edited by hand.\n\n"
# What each file brings in, and the names by which code knows what it calls.
ALWAYS = ("crate::write::WriteIdl", "weedle_print::Layout", "weedle_print::PrintError")
PART_PATHS = {
    "Held": "weedle_print::Held",
    "KeyAndValue": "crate::part::KeyAndValue",
    "IdlPart": "crate::part::IdlPart",
    "Attributes": "crate::part::Attributes",
}
# A part that the crate has a `type` for.
NAMED = {"Option<Held<ExtendedAttributeList<'a>>>": "Attributes<'a>"}
# The files of types that others write: what they are about, and the crates that declare them.
HANDED_ON = {
    "leaves": ("Names, docstrings, literals and types that hold no other.", [it for it in LEAVES if it != TERMINALS]),
    "types": ("Types, extended attributes and arguments.", [TYPES]),
}
# A list that is written with its brackets alone.
BARE = "ArgumentList"
# What no `use` brings in.
KNOWN = ("()", "Box", "Option", "Vec")
# A spelling as it is stated, with the type of what is spelt where that is named alone.
STATED = re.compile(r"^ *(?:abbrev )?pub (\w+_spelling) : (?:«?(\w+)»? → Form$)?", re.M)
PART = re.compile(rf"\b({'|'.join(PART_PATHS)})(?:::)?<")


def declaration_of(type_: Type) -> Declaration | None:
    """The declaration by which a type is named: that of a `type`, where one has its name too."""
    return DECLARED.aliases.get(type_.name) or DECLARED.types.get(type_.name)


def text_of(type_: Type) -> str:
    """A type in code, by the name that is declared."""
    if type_.name == "()":
        return f"({', '.join(map(text_of, type_.arguments))})"
    it = declaration_of(type_)
    words = ["'a"] if it and it.is_borrowing else []
    words += map(text_of, type_.arguments)
    return f"{type_.name}<{', '.join(words)}>" if words else type_.name


def part_of(type_: Type) -> str:
    """By what a value of a type is written, in code."""
    if type_.name == "()":
        parts = [part_of(it) for it in type_.arguments]
        # The borrow checker takes one lifetime in a part, so two types that borrow are named once.
        is_pair = parts[1:2] == ["Comma"] and parts[::2] == parts[:1] * 2
        return f"KeyAndValue<{parts[0]}>" if is_pair else f"({', '.join(parts)})"
    it = declaration_of(type_)
    if it and it.home in PARTS and not is_list(it):
        return f"{PARTS[it.home][0]}<{text_of(type_)}>"
    if it and it.kind == "type":
        return part_of(it.parts[0].type)
    words = ["'a"] if it and it.is_borrowing else []
    words += map(part_of, type_.arguments)
    text = f"{type_.name}<{', '.join(words)}>" if words else type_.name
    return NAMED.get(text, text)


def is_list(declaration: Declaration) -> bool:
    """Whether it is a name for a list of members, of definitions or of an enum's values."""
    return declaration.kind == "type" and declaration.home in IDL


def named_in(type_: Type) -> Iterator[str]:
    """The names of types that stand in the code of a part."""
    it = declaration_of(type_)
    if it and is_list(it):
        yield from named_in(it.parts[0].type)
        return
    if type_.name not in KNOWN:
        yield type_.name
    for part in type_.arguments:
        yield from named_in(part)


def call_of(type_: Type, value: str) -> str:
    """The call that writes a value by the part of its type."""
    name, sign, rest = part_of(type_).partition("<")
    return f"{name}{sign and '::<'}{rest}::print({value}, out, layout)"


class Own:
    """The `impl` of a struct or an enum of members or definitions."""

    def __init__(self, item: Item) -> None:
        self.item, self.type, self.spelling = item, item.type, item.name
        self.fields = item.parts

    @property
    def call(self) -> str:
        """The function that writes the fields of a struct."""
        if len(self.fields) not in COUNTS:
            raise Unfit(
                f"{self.type.name} has {len(self.fields)} fields, and {FIELDS} writes {min(COUNTS)} to "
                f"{max(COUNTS)} by one call: add a function there, and its word to COUNTS of tools/write/prints.py"
            )
        return COUNTS[len(self.fields)]

    @property
    def calls(self) -> set[str]:
        """The paths of the functions that its `impl` calls, and of what it hands them."""
        if self.item.is_enum and "::print(" in self.body:
            return {"weedle_print::Print"}
        if self.type.name == WHOLE:
            return {"weedle_print::Statement", "weedle_print::print_statement"}
        return set() if self.item.is_enum else {f"{FIELDS}::{self.call}"}

    @property
    def body(self) -> str:
        if not self.item.is_enum:
            values = "".join(f", &self.{name}" for name, _ in self.fields)
            return f"{self.call}::<{', '.join(part_of(it) for _, it in self.fields)}>(out, layout{values})"
        rows = "".join(f"{self.type.name}::{name}(value) => {self.arm(it)},\n" for name, it in self.fields)
        return f"match self {{\n{rows}}}"

    def arm(self, type_: Type) -> str:
        """How the value of a variant is written."""
        if declaration_of(type_).home not in IDL:
            return call_of(type_, "value")
        if self.type.name != WHOLE:
            return "value.write_part(out, layout)"
        kind = STATEMENTS.get(type_.name, "Other")
        return f"print_statement::<{part_of(type_)}>(value, Statement::{kind}, out, layout)"


class HandedOn:
    """The `impl` of a type that another crate writes."""

    calls = frozenset({"weedle_print::Print"})

    def __init__(self, type_: Type) -> None:
        self.type, self.spelling = type_, spelling_of(type_)

    @property
    def body(self) -> str:
        return call_of(self.type, "self")


def impl(it: Own | HandedOn) -> str:
    type_ = text_of(it.type)
    return f"""impl{"<'a>" if "'a" in type_ else ""} WriteIdl for {type_} {{
    ghost spelling = {{ {it.spelling} }};

    fn write_part(&self, out: &mut String, layout: &mut Layout) -> Result<(), PrintError> {{
        {it.body}
    }}
}}
"""


def path_of(name: str) -> str:
    """The path by which the crate names a declared type."""
    it = declaration_of(type_of(name))
    if not it:
        raise Unfit(f"{name} is named, and no crate declares it")
    source = TOP / "crates" / it.crate / "src"
    return "::".join([it.crate, *public_part(source, it.module.split(".")), name])


def paths_of(it: Own | HandedOn) -> set[str]:
    """The paths of all that an `impl` names."""
    code = impl(it)
    types = {name for _, part in getattr(it, "fields", ()) for name in named_in(part)}
    types |= set(named_in(it.type))
    paths = {path_of(name) for name in types if re.search(rf"(?<!::)\b{name}\b", code)}
    return paths | it.calls | {PART_PATHS[name] for name in PART.findall(code)}


def use_lines(paths: Iterable[str]) -> str:
    """The lines that bring these in."""
    found = uses.grouped(path.rpartition("::")[::2] for path in paths)
    order = sorted(found, key=lambda module: (not module.startswith("crate"), module))
    return "".join(use_line(module, found[module]) for module in order)


@cache
def stated() -> tuple[dict[str, str], dict[str, str]]:
    """The modules that state spellings, by their names; and the spellings of types, by theirs."""
    homes, names = {}, {}
    for crate in (SPELL, SPELL_IDL):
        top = TOP / "crates" / crate / "specs"
        for path in files_in(top, ".antt"):
            module = ".".join(["Rattle", crate, "specs", *module_in(top, path)])
            for name, type_ in STATED.findall(path.read_text(encoding="utf-8")):
                homes[name] = module
                names.setdefault(type_, name)
    return homes, names


def spelling_of(type_: Type) -> str:
    homes, names = stated()
    name = function(type_)
    return name if name in homes else names.get(type_.name, name)


def ghost_lines(impls: Iterable[Own | HandedOn]) -> str:
    """The lines that bring in the spellings that these name."""
    homes = stated()[0]
    for it in impls:
        if it.spelling not in homes:
            raise Unfit(f"{it.type} has no spelling {it.spelling}")
    return uses.ghost_lines((homes[it.spelling], it.spelling) for it in impls)


def text(about: str, impls: list[Own | HandedOn]) -> str:
    lines = use_lines(set(ALWAYS).union(*map(paths_of, impls)))
    head = f"{comment(about, '//! ')}\n{HEAD}"
    return "\n".join([head + ghost_lines(impls), lines, *map(impl, impls)])


def families() -> Iterator[tuple[str, str, list[Own]]]:
    """The files of members and definitions, each with what it is about and its `impl`s."""
    done = set()
    for file in FILES:
        items = items_of(file, done)
        if not file.types:
            own = [Own(it) for it in items if it.declaration]
            yield file.law_module, f"How {file.spelt.replace('spelt', 'written')}.", own


def handed_on() -> Iterator[tuple[str, str, list[HandedOn]]]:
    """The files of types that others write, each with what it is about and its `impl`s."""
    for name, (about, crates) in HANDED_ON.items():
        found = [it for it in [*DECLARED.types.values(), *DECLARED.aliases.values()] if it.home in crates]
        yield name, about, [HandedOn(type_of(it.name)) for it in found if is_written(it)]


def is_written(declaration: Declaration) -> bool:
    """Whether a declared type has an `impl` of its own: what it is made of has, where it is generic."""
    return not declaration.parameters and declaration.module != FORMERS and declaration.name != BARE


def main() -> None:
    for name, about, impls in [*handed_on(), *families()]:
        put(TOP, f"{CRATE}/src/{name}.rt", text(about, impls))


if __name__ == "__main__":
    sys.exit(refuse_writer(__doc__))
