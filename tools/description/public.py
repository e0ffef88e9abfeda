"""What a crate gives its callers: public modules, types, traits and calls, each by the path of a caller.

`pub use` and `pub mod` are followed from the lib.rt of a crate, into the crates that it stands on too.
"""

import re
from functools import cache
from pathlib import Path

from description.declarations import split

USE = re.compile(r"^pub use ([^;]+);", re.M)
MODULE = re.compile(r"^pub mod (\w+);", re.M)
OWN = re.compile(r"^(?:pub(?:\(crate\))? )?mod (\w+);", re.M)
ITEM = re.compile(r"^pub (struct|enum|type|trait|fn) (\w+)", re.M)


class Module:
    """A module of a crate: its file, its text and the names on the way to it."""

    def __init__(self, root, crate, parts):
        self.root, self.crate, self.parts = Path(root), crate, tuple(parts)
        source = self.root / "crates" / crate / "src"
        self.file = source.joinpath(*parts).with_suffix(".rt") if parts else source / "lib.rt"
        self.text = self.file.read_text(encoding="utf-8")
        self.given = dict(used(self.text))
        self.public = MODULE.findall(self.text)
        self.items = {name: kind for kind, name in ITEM.findall(self.text)}

    def below(self, name):
        return module_of(self.root, self.crate, (*self.parts, name))

    def names(self):
        """What a caller finds in it, in the order of the file's kinds."""
        return [*self.public, *self.items, *self.given]

    def find(self, name):
        """The Module or the Item that a name of this module stands for."""
        if name in self.items:
            return Item(self, name, self.items[name])
        if name in OWN.findall(self.text):
            return self.below(name)
        first, *rest = self.given[name].split("::")
        if first in ("crate", "self", "super") or first in OWN.findall(self.text):
            found = self.at(first)
        else:
            found = module_of(self.root, first, ())
        for part in rest:
            found = found.find(part)
        return found

    def at(self, first):
        """The module that a path of this module begins with."""
        if first == "crate":
            return module_of(self.root, self.crate, ())
        if first == "super":
            return module_of(self.root, self.crate, self.parts[:-1])
        return self if first == "self" else self.below(first)


class Item:
    """A type, a trait or a call: the module that declares it, its name there, and what it is."""

    def __init__(self, module, name, kind):
        self.module, self.name, self.kind = module, name, kind

    @property
    def key(self):
        return self.module.crate, self.module.parts, self.name


@cache
def module_of(root, crate, parts):
    return Module(root, crate, parts)


def used(text):
    """The names that `pub use` gives in a text, each with its path."""
    for tree in USE.findall(text):
        yield from leaves("", " ".join(tree.split()))


def leaves(before, tree):
    """The names of one tree of a `use`, each with its path."""
    path, _, names = tree.partition("{")
    if names:
        for part in split(names.rstrip().removesuffix("}")):
            yield from leaves(before + path, part)
    else:
        path, _, name = tree.partition(" as ")
        whole = (before + path).removesuffix("::self")
        yield name or whole.rpartition("::")[2], whole


def public_items(root, crate):
    """What a caller of a crate can name: the items of each module, by its path, each item once."""
    found, seen, wanted = {}, set(), [(crate, module_of(Path(root), crate, ()))]
    while wanted:
        path, module = wanted.pop(0)
        items = found.setdefault(path, {})
        for name in module.names():
            it = module.find(name)
            if isinstance(it, Module):
                wanted.append((f"{path}::{name}", it))
            elif it.key not in seen:
                seen.add(it.key)
                items[name] = it
    return {path: items for path, items in found.items() if items}
