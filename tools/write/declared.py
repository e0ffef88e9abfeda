"""Reads the declarations of the types whose `Ord` is derived: fields, variants, and the paths by which a
caller names them."""

import re
from functools import cached_property
from pathlib import Path

from description.declarations import declared_in
from description.names import logic, snake
from shared.crates import Unfit
from write.written.imports import imported

# The modules that nobody outside their crate can name, each with the one that names its types.
PRIVATE = {"weedle_types::formers": "weedle_types::types"}
# What is added to the name of a former in clauses, where its own is that of an alias.
FORMED = "Of"
ALIAS = re.compile(r"^pub type (\w+)<'a> = (formers::)?(\w+)<(.+)>;$", re.M)
PUBLIC = re.compile(r"^pub mod (\w+);", re.M)


class Item:
    """A struct or an enum: its name, its parameters, and each field or variant with its type."""

    def __init__(self, it, module):
        self.module, self.name, self.is_enum = module, it.name, it.is_enum
        self.leads_back, self.parameters = it.is_recursive, it.parameters
        self.over = ["'a"] * it.is_borrowing + it.parameters
        self.is_former = module.inner in PRIVATE
        self.parts = [(part.name, part.text) for part in it.parts]

    def at(self, given):
        """A former as the alias has it of the same name, which gives it this type."""
        self.over = ["'a"]
        self.parts = [(name, re.sub(r"\bT\b", given, type_)) for name, type_ in self.parts]

    @property
    def law(self):
        return snake(self.name) + "_" * (self.name == "Type")

    @property
    def place(self):
        return f"{snake(self.name)}_place"

    def declared(self):
        return f"Rattle.{self.module.dotted('declared')}.{logic(self.name)}"


class Module:
    """A module that declares types: its text, its path, and the one that a caller names."""

    def __init__(self, crate, file, source):
        self.text = file.read_text(encoding="utf-8")
        self.crate, self.source = crate, source
        self.parts = file.relative_to(source).with_suffix("").parts
        self.inner = "::".join([crate, *self.parts])
        self.path = PRIVATE.get(self.inner) or "::".join([crate, *public_part(source, self.parts)])

    def items(self):
        """What it declares whose `Ord` is derived."""
        return [Item(it, self) for it in declared_in(self.text) if "Ord" in it.derived]

    def aliases(self):
        """What its aliases stand for, by their names: of a former the name FORMED of it, and what it is given."""
        found = ALIAS.findall(self.text)
        return {name: (of + FORMED * bool(former), over) for name, former, of, over in found}

    @cached_property
    def names(self):
        """The names of the types that stand in it."""
        return [it.name for it in declared_in(self.text)]

    @cached_property
    def imported(self):
        """The path of each name that it brings in."""
        return imported(self.text)

    def path_of(self, name):
        """The path by which a caller names a type that is named here."""
        if name in self.names:
            return self.path
        first, *parts = self.imported[name].split("::")
        if first not in ("super", "crate"):
            return "::".join([first, *parts])
        parts = [*self.parts[:-1], *parts] if first == "super" else parts
        return "::".join([self.crate, *public_part(self.source, parts)])

    def dotted(self, part):
        return ".".join([self.crate, "specs", part, *self.parts])


def public_part(source, parts):
    """The modules on the way to this one that are public, up to the first that isn't."""
    file, public = source / "lib.rt", []
    for part in parts:
        if part not in PUBLIC.findall(file.read_text(encoding="utf-8")):
            break
        public.append(part)
        file = source.joinpath(*public).with_suffix(".rt")
    return public


def modules_of(root, path):
    """The modules of a crate, or the one of this path and those below it."""
    crate, _, module = path.partition("::")
    source = Path(root) / "crates" / crate / "src"
    if not source.is_dir():
        raise Unfit(f"there is no folder {source}")
    modules = [Module(crate, file, source) for file in sorted(source.rglob("*.rt"))]
    return [it for it in modules if not module or f"{it.inner}::".startswith(f"{path}::")]
