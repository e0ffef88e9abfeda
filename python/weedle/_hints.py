"""Has `typing.get_type_hints` find the classes that annotations name.

Modules name one another in annotations alone, so none brings in what another has: it is put into all of
them when all are there.
"""

from __future__ import annotations

from types import ModuleType
from typing import Dict

from weedle import (
    argument, attribute, common, definitions, dictionary, interface, literal, mixin, namespace, term,
    today, types,
)

MODULES = (
    argument, attribute, common, definitions, dictionary, interface, literal, mixin, namespace, types,
)


def complete() -> None:
    """Gives each module the classes of the others, and that of terminals.

    Today's tree has classes of the same names, so these are given to no other module.
    """
    classes: Dict[str, object] = {"term": term}
    for module in MODULES:
        classes.update((name, getattr(module, name)) for name in names_of(module))
    for module in (*MODULES, today):
        for name, it in classes.items():
            vars(module).setdefault(name, it)


def names_of(module: ModuleType) -> "list[str]":
    """What a module gives its callers."""
    found: "list[str]" = vars(module)["__all__"]
    return found


complete()
