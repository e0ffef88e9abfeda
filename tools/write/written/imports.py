"""The lines `use` of a file that stands below the module whose types it serves."""

import re

from description.declarations import declared_in
from description.layout import use_line
from shared.crates import Unfit

USE = re.compile(r"^use ([^;]+);", re.M)
# Of code: comments, and what only the logic reads.
ASIDE = re.compile(r"//[^\n]*|^ *ghost [^;]*;|^ *ensures \{.*?\}$", re.M | re.S)
# A type, or a function that reads or copies fields.
NAME = re.compile(r"(?<!::)\b(?:[A-Z]\w*|\w*attributes_and_\w+|copy_\w+)")
# What every module knows, and what of others these files name.
KNOWN = set("Box Drop Err From None Ok Option Result Self Some Vec".split())
STANDARD = {
    "AllocError": "std::alloc",
    "Global": "std::alloc",
    "IResult": "weedle_base",
    "Parse": "weedle_base",
    "TryClone": "weedle_base",
    "Choice": "weedle_base::Choice",
    "First": "weedle_base::Choice",
    "Second": "weedle_base::Choice",
}


def imported(text):
    """The path of each name that a module brings in, by the name."""
    paths = {}
    for use in USE.findall(text):
        path, _, names = use.partition("::{")
        path, names = (path, names.rstrip("}")) if names else use.rsplit("::", 1)
        for name in filter(None, (it.strip() for it in names.split(","))):
            paths[path.rsplit("::", 1)[-1] if name == "self" else name] = path
    return paths


def paths_in(text, above="super"):
    """The path of each name that a file below a module knows it by, which calls the module by this name."""
    return imported(text) | {it.name: above for it in declared_in(text)}


def use_lines(code, paths):
    """What code names, brought in by these paths."""
    wanted = {}
    for name in set(NAME.findall(ASIDE.sub("", code))) - KNOWN:
        path = STANDARD.get(name) or paths.get(name)
        if not path:
            raise Unfit(f"{name} is named, and no `use` brings it in")
        wanted.setdefault(path, set()).add("self" if path.endswith(f"::{name}") else name)
    order = sorted(wanted, key=lambda path: (not path.startswith("super"), path != "crate", path))
    return "".join(use_line(path, wanted[path]) for path in order)
