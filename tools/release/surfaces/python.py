"""What callers in Python can name: the public names of the package, read from its sources.

Public are the names that `weedle` shows, and those that its modules with an `__all__` show. What a class has from a class that
nobody can name counts as its own.
"""

import ast
from pathlib import Path
from typing import Iterator

from release.surfaces import Change, Surface

PACKAGE, NAME = "python/weedle", "weedle"
# Decorators and bases of classes whose fields have an order that callers lean on.
ORDERED = ("value_class", "dataclass", "NamedTuple")
# Those that the package alone makes: how isn't promised.
UNMADE = ("Refused", "Entry", "Member", "Node", "Name", "Terminal", "Value", "Choice")
# What tells the version.
VERSION = "__version__"
DEFINITIONS = (ast.ClassDef, ast.FunctionDef, ast.Assign, ast.AnnAssign)
# A module and a name that it defines.
Place = tuple[str, str]


def is_public(name: str) -> bool:
    return not name.startswith("_")


def names_of(node: ast.stmt) -> list[str]:
    """The names that a statement gives something."""
    if isinstance(node, (ast.ClassDef, ast.FunctionDef)):
        return [node.name]
    targets = node.targets if isinstance(node, ast.Assign) else [node.target] if isinstance(node, ast.AnnAssign) else []
    return [it.id for it in targets if isinstance(it, ast.Name)]


class Module:
    """A module: what it defines, what it has from others of the package, and the names that it shows, if it says so."""

    def __init__(self, text: str) -> None:
        self.defined: dict[str, ast.stmt] = {}
        self.brought: dict[str, Place] = {}
        self.stars: list[str] = []
        self.shown: list[str] = []
        for node in ast.parse(text).body:
            if isinstance(node, DEFINITIONS):
                self.defined.update(dict.fromkeys(names_of(node), node))
                if names_of(node) == ["__all__"]:
                    self.shown += [it.value for it in ast.walk(node) if isinstance(it, ast.Constant)]
            elif isinstance(node, ast.ImportFrom) and (node.module or "").split(".")[0] == NAME:
                self.bring(node)

    def bring(self, node: ast.ImportFrom) -> None:
        """Notes what is imported from a module of the package; what is brought in as itself is shown."""
        origin = (node.module or "").partition(".")[2]
        for it in node.names:
            if it.name == "*":
                self.stars.append(origin)
            elif origin:
                self.brought[it.asname or it.name] = origin, it.name
                self.shown += [it.name] * (it.asname == it.name)


class Package:
    def __init__(self, folder: Path) -> None:
        files = sorted(folder.glob("*.py"))
        self.modules = {it.stem.replace("__init__", ""): Module(it.read_text(encoding="utf-8")) for it in files}
        # Where callers find what a module defines.
        self.public: dict[Place, str] = {}
        for where in sorted(self.modules, key=lambda it: it == ""):
            for name in self.shown_by(where):
                place = self.place_of(where, name)
                if place:
                    self.public.setdefault(place, f"{self.path_of(where)}.{name}")

    def path_of(self, where: str) -> str:
        return f"{NAME}.{where}".rstrip(".")

    def shown_by(self, where: str) -> list[str]:
        """The names that a public module shows."""
        if not is_public(where):
            return []
        module = self.modules[where]
        stars = [it for star in module.stars for it in self.modules[star].shown]
        return list(dict.fromkeys([*module.shown, *stars]))

    def place_of(self, where: str, name: str) -> Place | None:
        """Where that is defined which a module calls so."""
        module = self.modules[where]
        if name in module.defined:
            return where, name
        origins = [module.brought[name]] if name in module.brought else [(star, name) for star in module.stars]
        found = (self.place_of(origin, there) for origin, there in origins if origin in self.modules)
        return next((it for it in found if it), None)

    def surface(self) -> Surface:
        """All that callers can name."""
        found: Surface = {}
        for where in self.modules:
            for name in self.shown_by(where):
                path, place = f"{self.path_of(where)}.{name}", self.place_of(where, name)
                if place and self.public[place] != path:
                    found[path] = self.public[place]
                elif place and name != VERSION:
                    found.update(self.described(path, place))
        return found

    def described(self, path: str, place: Place) -> Iterator[tuple[str, str]]:
        """A definition and what it consists of, by their paths."""
        node = self.modules[place[0]].defined[place[1]]
        if isinstance(node, ast.ClassDef):
            yield path, self.said_of_class(place[0], node)
            parts = {name: said for name, said in self.parts_of(place[0], node)}
            yield from ((f"{path}.{name}", said) for name, said in parts.items())
        else:
            yield path, signature(node) if isinstance(node, ast.FunctionDef) else "value"

    def bases_of(self, where: str, node: ast.ClassDef) -> Iterator[tuple[str, Place | None]]:
        """The bases of a class, each with its place where nobody can name it."""
        for base in node.bases:
            name = base.value if isinstance(base, ast.Subscript) else base
            place = self.place_of(where, name.id) if isinstance(name, ast.Name) else None
            yield ast.unparse(base), None if place in self.public else place

    def said_of_class(self, where: str, node: ast.ClassDef) -> str:
        """The bases of a class that callers know, and its fields where their order counts."""
        bases = [name for name, hidden in self.bases_of(where, node) if not hidden]
        heads = [*bases, *(ast.unparse(it).partition("(")[0] for it in node.decorator_list)]
        fields = [names_of(it)[0] for it in node.body if isinstance(it, ast.AnnAssign) and "ClassVar" not in ast.unparse(it)]
        is_ordered = any(it in ORDERED for it in heads)
        return f"class ({', '.join(bases)})" + (f" of {', '.join(fields)}" if is_ordered else "")

    def parts_of(self, where: str, node: ast.ClassDef) -> Iterator[tuple[str, str]]:
        """The members of a class that callers may name, those of bases first that nobody can name."""
        for _, hidden in self.bases_of(where, node):
            if hidden:
                base = self.modules[hidden[0]].defined[hidden[1]]
                yield from self.parts_of(hidden[0], base) if isinstance(base, ast.ClassDef) else ()
        yield from own_parts(node)


def signature(node: ast.FunctionDef) -> str:
    """The arguments of a function and what it gives, without `self`; `property` where it is one."""
    decorators = [ast.unparse(it) for it in node.decorator_list]
    gives = ast.unparse(node.returns) if node.returns else ""
    if any(it.endswith("property") for it in decorators):
        return f"property -> {gives}"
    given = node.args
    if given.args and given.args[0].arg in ("self", "cls"):
        given = ast.arguments(**{**dict(ast.iter_fields(given)), "args": given.args[1:]})
    front = "".join(f"{it} " for it in decorators if it in ("classmethod", "staticmethod"))
    return f"{front}({ast.unparse(given)}) -> {gives}"


def kept_by(node: ast.FunctionDef) -> Iterator[str]:
    """The public names that a function gives `self`."""
    for it in ast.walk(node):
        if isinstance(it, ast.Attribute) and isinstance(it.ctx, ast.Store) and is_public(it.attr):
            yield from [it.attr] * (ast.unparse(it.value) == "self")


def own_parts(node: ast.ClassDef) -> Iterator[tuple[str, str]]:
    """The members that a class itself has and callers may name; overloads are one."""
    inner = [it for part in node.body for it in (part.body if isinstance(part, ast.If) else [part])]
    overloads: dict[str, list[str]] = {}
    for part in inner:
        for name in names_of(part):
            is_made = name == "__init__" and node.name not in UNMADE
            if isinstance(part, ast.FunctionDef) and (is_public(name) or is_made):
                overloads.setdefault(name, []).append(signature(part))
            elif isinstance(part, ast.AnnAssign) and is_public(name) and ast.unparse(part.annotation) != "TypeAlias":
                yield name, ast.unparse(part.annotation)
            elif isinstance(part, (ast.Assign, ast.AnnAssign)) and is_public(name):
                yield name, f"= {ast.unparse(part.value) if part.value else ''}"
        if isinstance(part, ast.FunctionDef) and part.name == "__init__":
            yield from ((name, "attribute") for name in kept_by(part))
    yield from ((name, "\n".join(texts)) for name, texts in overloads.items())


def surface_of(root: Path) -> Surface:
    """What the package of a tree has; nothing where there is none."""
    return Package(root / PACKAGE).surface()


def arguments_of(said: str) -> ast.arguments | None:
    """The arguments of a signature as it is described, or None of what is none."""
    try:
        (node,) = ast.parse(f"def it{said[said.index('(') :]}: ...").body
    except (ValueError, SyntaxError):
        return None
    return node.args if isinstance(node, ast.FunctionDef) else None


def takes_more(old: str, new: str) -> bool:
    """Whether a function takes what it took, and may be given more."""
    before, after = arguments_of(old), arguments_of(new)
    if not before or not after or old.rpartition(" -> ")[2] != new.rpartition(" -> ")[2]:
        return False
    names = {it.arg: ast.unparse(it) for it in after.kwonlyargs}
    is_same = [*map(ast.unparse, before.args)] == [*map(ast.unparse, after.args[: len(before.args)])]
    is_kept = all(names.get(it.arg) == ast.unparse(it) for it in before.kwonlyargs)
    needed = len(after.args) - len(after.defaults), len(before.args) - len(before.defaults)
    known = {it.arg for it in before.kwonlyargs}
    more = [value for it, value in zip(after.kwonlyargs, after.kw_defaults) if it.arg not in known]
    return is_same and is_kept and needed[0] <= needed[1] and None not in more


def change_of(name: str, old: str | None, new: str | None) -> Change:
    """What it asks of callers that a name says something else, or is gone (None), or is new (None before)."""
    if new is None:
        return Change.BROKEN
    return Change.ADDED if old is None or takes_more(old, new) else Change.BROKEN
