"""What the pieces of a crate name: trees, rules, rulesets and functions, looked up where they are stated."""

import re
from pathlib import Path

from description.declarations import type_of
from description.imports import STATED
from description.names import snake, upper
from description.readings import Declared
from shared.crates import Unfit
from shared.written_places import in_logic, place

# A function that copies a part, as `copy_attributes`, with the type of what it copies.
COPYING = re.compile(r"^pub(?:\(crate\))? fn (copy_\w+)(?:<'a>)?\(\s*\w+: &([^;{]+?),\s*alloc: Global", re.M)
READING = re.compile(r"^pub fn (\w+)<", re.M)
# Where functions stand that other crates call.
COPIES, FIELDS = ("weedle_types", "copies"), ("weedle_types", "fields")
TABLE = "weedle_grammar.specs.Table"


def source_of(root, crate):
    return Path(root) / "crates" / crate / "src"


def path_of(root, item):
    """The file that declares a type."""
    return source_of(root, item.crate) / f"{item.module.replace('.', '/')}.rt"


def stated_in(folder):
    """The file, from a folder on, that states each name there."""
    found = {}
    for path in sorted(folder.rglob("*.antt")):
        parts = path.relative_to(folder).with_suffix("").parts
        for name in STATED.findall(path.read_text(encoding="utf-8")):
            found.setdefault(name, parts)
    return found


def copies_in(path, module):
    """The functions of a file that copy parts: each type, the name and the module."""
    for name, text in COPYING.findall(path.read_text(encoding="utf-8")):
        yield type_of(text), name, module


class Stated:
    """What stands in a crate and below it."""

    def __init__(self, root, crate):
        self.root, self.crate = root, crate
        crates = Path(root) / "crates"
        self.specs = stated_in(crates / crate / "specs")
        self.proofs = stated_in(crates / crate / "proofs")
        self.table = stated_in(Path(root) / place(TABLE.replace(".", "/")))
        self.declared = Declared.of(root)
        shared = source_of(root, COPIES[0]) / f"{COPIES[1]}.rt"
        self.copies = list(copies_in(shared, "::".join(COPIES)))
        for path in sorted(source_of(root, crate).glob("*.rt")) if crate != COPIES[0] else ():
            self.copies += copies_in(path, f"crate::{path.stem}")
        files = sorted((source_of(root, FIELDS[0]) / FIELDS[1]).glob("*.rt"))
        self.readers = {it for path in files for it in READING.findall(path.read_text(encoding="utf-8"))}

    def tree(self, item):
        """The tree of a type's values, as (module, name)."""
        name = f"{snake(item.name)}_tree"
        return f"Rattle.{self.crate}.specs.{'.'.join(self.find(self.specs, name))}", name

    def rule(self, item):
        """The rule that reads a type, as (module, name)."""
        name = upper(item.name)
        return f"{in_logic(TABLE)}.{'.'.join(self.find(self.table, name))}", name

    def steps(self, item):
        """The path of the ruleset by which the `parse` of a type is proved."""
        name = f"{snake(item.name)}_steps"
        return "::".join(["crate::proofs", *self.find(self.proofs, name), name])

    def is_read(self, item):
        """Whether the module that declares a type has its `Parse`, written by hand."""
        text = self.text_of(item)
        return re.search(rf" Parse<'a> for {item.name}\b", text) is not None

    def text_of(self, item):
        """The text of the module that declares a type."""
        return path_of(self.root, item).read_text(encoding="utf-8")

    def find(self, names, name):
        if name not in names:
            raise Unfit(f"{self.crate}: {name} is stated nowhere")
        return names[name]

    def copying(self, type_):
        """The function that copies a part of this type, or None."""
        return next((name for it, name, _ in self.copies if it == type_), None)

    def is_copied(self, type_):
        """Whether values of a type are copied as they are."""
        type_ = self.declared.expanded(type_)
        if type_.name == "&":
            return True
        is_plain = type_.name in ("()", "Option") or self.declared.is_copied(type_)
        return is_plain and all(map(self.is_copied, type_.arguments))

    def paths(self):
        """The path of each function that pieces call."""
        return {name: module for _, name, module in self.copies} | dict.fromkeys(self.readers, "::".join(FIELDS))
