"""Writes include/weedle.h, which declares to C and C++ what `weedle_c` exports, with the grammar's rules.

tools/write/write_all.py runs it.

The rules' numbers and names come from tools/description, the version from crates/weedle_c/src/lib.rt, the statuses from
crates/weedle_c/src/status.rt, the kinds of hints from hint.rt and the dialects from dialect.rt beside it, each with its doc
line. All else of the header stands in tools/write/weedle.h.in.
"""

import re
import sys
from pathlib import Path

if not __package__:
    sys.path[0] = str(Path(__file__).resolve().parent.parent)

from description.today import NUMBER, SECTIONS
from shared.command_line import refuse_writer
from shared.crates import TOP, Unfit

PLACE, TEMPLATE = "include/weedle.h", TOP / "tools/write/weedle.h.in"
VERSION = re.compile(r"const VERSION: u32 = (0x[0-9a-f]{6});")
CONSTANT = re.compile(r"((?:/// .*\n)+)pub const (\w+): (?:u32|usize) = (\d+);")
# What stands in the place of something else in the template, as @VERSION@.
PLACEHOLDER = re.compile(r"@(\w+)@")


def constant(rule):
    """The constant of a rule: WEEDLE_ENUM_DEFINITION."""
    return f"WEEDLE_{rule.name}"


def last_without_comma(rows):
    """Rows of an enum: C++ before 2011 has no comma behind the last."""
    return "\n".join([*rows[:-1], rows[-1].replace(",", "", 1)])


def constant_rows(prefix, text):
    """The rows of constants, with their doc lines."""
    for docs, name, number in CONSTANT.findall(text):
        said = " ".join(docs.replace("///", "").split())
        yield f"    {prefix}_{name} = {number}, /* {said} */"


def rule_rows():
    """The rows of the rules, section by section."""
    for section in SECTIONS:
        yield f"    /* {section.about} */"
        for rule in section.rules:
            yield f"    {constant(rule)} = {NUMBER[rule.name]},"


def name_rows():
    for section in SECTIONS:
        for rule in section.rules:
            yield f'    "{rule.name.lower()}",'


def found_in(pattern, text, path):
    found = pattern.search(text)
    if not found:
        raise Unfit(f"{path} has no {pattern.pattern}")
    return found[1]


def header_of(root):
    source = root / "crates/weedle_c/src"
    code = (source / "lib.rt").read_text(encoding="utf-8")
    statuses = (source / "status.rt").read_text(encoding="utf-8")
    hints = (source / "hint.rt").read_text(encoding="utf-8")
    dialects = (source / "dialect.rt").read_text(encoding="utf-8")
    found = {
        "VERSION": found_in(VERSION, code, source / "lib.rt"), "COUNT": str(len(NUMBER)),
        "STATUSES": last_without_comma(list(constant_rows("WEEDLE_STATUS", statuses))),
        "HINTS": last_without_comma(list(constant_rows("WEEDLE_HINT", hints))),
        "DIALECTS": last_without_comma(list(constant_rows("WEEDLE_DIALECT", dialects))),
        "RULES": last_without_comma(list(rule_rows())), "NAMES": last_without_comma(list(name_rows())),
    }
    return PLACEHOLDER.sub(lambda it: found[it[1]], TEMPLATE.read_text(encoding="utf-8"))


def main():
    text, place = header_of(TOP), TOP / PLACE
    place.parent.mkdir(exist_ok=True)
    place.write_text(text, encoding="utf-8")


if __name__ == "__main__":
    sys.exit(refuse_writer(__doc__))
