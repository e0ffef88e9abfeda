#!/usr/bin/env python3
"""Says which names of WebIDL files aren't written as the Web's design principles have them.

    python3 examples/python/names.py FILE..

Definitions are written as `EventTarget`, members and arguments as `addEventListener`, constants as
`ELEMENT_NODE`, and the values of enums as `same-origin`. Each other name has a line, with its place;
the status is 1 then, or where a file is refused.
"""

import re
import sys
from typing import Iterator, List, Tuple

import weedle

# How a name is written, by the rule that reads what has it.
TYPE, MEMBER = re.compile(r"[A-Z][A-Za-z0-9]*"), re.compile(r"[a-z][A-Za-z0-9]*")
CONSTANT, VALUE = re.compile(r"[A-Z][A-Z0-9_]*"), re.compile(r"([a-z0-9]+(-[a-z0-9]+)*)?")
PATTERNS = {
    **dict.fromkeys(
        "interface_definition callback_interface_definition interface_mixin_definition "
        "dictionary_definition enum_definition typedef_definition callback_definition".split(),
        TYPE,
    ),
    **dict.fromkeys(
        "attribute_interface_member operation_interface_member attribute_mixin_member "
        "operation_mixin_member operation_namespace_member attribute_namespace_member "
        "dictionary_member single_argument variadic_argument".split(),
        MEMBER,
    ),
    "const_member": CONSTANT,
    "enum_variant": VALUE,
}
# Where a name is, and what of it is compared.
PARTS = {
    "identifier": "identifier_text", "opt_identifier": "identifier_text",
    "string_lit": "run_not_quote",
}


def names_in(root: weedle.Node) -> "Iterator[Tuple[weedle.Node, re.Pattern[str]]]":
    """The names that a text gives to what it defines, each with how it should be written."""
    for node in root.walk():
        pattern = PATTERNS.get(node.name)
        for part in node.children:
            if pattern and part.name in PARTS:
                yield from ((it, pattern) for it in part.find(PARTS[part.name]))


def complaints(name: str, data: bytes) -> Iterator[str]:
    """A line for each name of a file that is written otherwise."""
    for node, pattern in names_in(weedle.syntax(data)):
        if not pattern.fullmatch(node.text):
            line, column = node.position
            yield f"{name}:{line}:{column}: {node.text!r} isn't written as {pattern.pattern}"


def main(names: List[str]) -> int:
    """Checks files."""
    lines: List[str] = []
    for name in names:
        with open(name, "rb") as file:
            try:
                lines += complaints(name, file.read())
            except weedle.Refused as refused:
                lines.append(f"{name}:{refused}")
    print(*lines, sep="\n", end="\n" if lines else "")
    return 1 if lines else 0


if __name__ == "__main__":
    sys.exit(main(sys.argv[1:]))
