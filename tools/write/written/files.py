"""The files of a crate: what is written of each type, put together with the lines `use`."""

import re

from description.declarations import Declaration, Part, crate_of, declared_by, split
from description.names import snake
from description.readings import LEAVES, TYPES
from description.uses import ghost_lines
from shared.written_places import FOLDER
from write.written.conversions import conversions
from write.written.copies import copies
from write.written.fields import methods
from write.written.imports import imported, paths_in, use_lines
from write.written.parses import parses
from write.written.stated import Stated

OUT = FOLDER
# What is written of a type, in this order.
KINDS = (parses, copies, conversions, methods)
# What holds no other type is read by hand. The types that hold one another are read and copied together, in
# modules of their own, and no other crate takes them apart.
ONLY = dict.fromkeys([*LEAVES, TYPES], (conversions,))
# An enum with more variants has its conversions in a file of their own.
MANY = 16
HEAD = """//! {}
//!
//! Written by tools/impls.py, and not edited by hand.
"""
ABOUT = "What follows from the declarations of the module above."
ABOUT_ONE = "What a value of `{}` is made from."


def former_of(alias, declared):
    """The enum of a module of the same crate that an alias stands for, or None."""
    target = alias.parts[0].type
    found = [it for it in declared if (it.module, it.name) == (target.module, target.name)]
    return found[0] if found and found[0].is_enum else None


def formed(alias, former):
    """The enum as its alias has it: what it is made over is the type that the alias gives."""
    given = dict(zip(former.parameters, split(alias.parts[0].text.partition("<")[2][:-1])))
    parts = [
        Part(part.name, re.sub(r"\b[A-Z]\w*\b", lambda it: given.get(it[0], it[0]), part.text))
        for part in former.parts
    ]
    item = Declaration("enum", alias.name, (), parts, derived=former.derived)
    item.home, item.crate, item.module, item.former = alias.home, alias.crate, alias.module, former
    item.is_borrowing = alias.is_borrowing
    return item


def items_of(module, declared):
    """The types that a module declares, and its aliases of enums that are made over a type."""
    for item in declared:
        former = former_of(item, declared) if item.kind == "type" else None
        if item.module == module and former:
            yield formed(item, former)
        elif item.module == module and item.kind != "type" and not item.parameters:
            yield item


def pieces_of(items, stated):
    """What is written of some types, by the names of its files, each with its first line."""
    files = {}
    for item in items:
        for kind in (conversions,) if item.former else ONLY.get(item.home, KINDS):
            alone = kind is conversions and item.is_enum and len(item.parts) > MANY
            name = (f"from_{snake(item.name)}", ABOUT_ONE.format(item.name)) if alone else (OUT, ABOUT)
            files.setdefault(name, []).extend(kind(item, stated))
    return {name: pieces for name, pieces in files.items() if pieces}


def paths_for(name, items, stated):
    """The paths of what the pieces of some types of a module name, in the file of this name."""
    own, above = f"crate::{items[0].module}", "super" if name == OUT else "super::super"
    paths = {name: above if it == own else it for name, it in stated.paths().items()}
    for item in items:
        if item.former:
            paths.update(imported(stated.text_of(item.former)))
    return paths | paths_in(stated.text_of(items[0]), above)


def file_text(about, mods, pieces, paths):
    texts = [piece.text for piece in pieces]
    ghost = ghost_lines({it for piece in pieces for it in piece.ghost})
    parts = [HEAD.format(about), ghost, mods, use_lines("".join(texts), paths), *texts]
    return "\n".join(part for part in parts if part)


def files_of(root, home):
    """The files of a crate or of a module of one, each by its path below crates/, with its text."""
    crate = crate_of(home)
    declared, stated = list(declared_by(root, home)), Stated(root, crate)
    for module in dict.fromkeys(it.module for it in declared):
        items = list(items_of(module, declared))
        found = pieces_of(items, stated)
        apart = "".join(f"mod {name};\n" for name, _ in found if name != OUT)
        for (name, about), pieces in found.items():
            mods = apart if name == OUT else ""
            text = file_text(about, mods, pieces, paths_for(name, items, stated))
            yield f"{crate}/src/{module.replace('.', '/')}/{name}.rt", text
