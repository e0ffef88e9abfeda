"""What callers in C can name: the calls, structs, enums and constants of include/weedle.h."""

import re
from pathlib import Path

from release.surfaces import Change, Surface

HEADER = "include/weedle.h"
COMMENT = re.compile(r"/\*.*?\*/", re.S)
DEFINE = re.compile(r"^#define (WEEDLE_\w+) (\S+)$", re.M)
ENUM = re.compile(r"^enum (\w+) \{(.*?)^\};", re.M | re.S)
STRUCT = re.compile(r"^struct (\w+) \{(.*?)^\};", re.M | re.S)
CONSTANT = re.compile(r"(\w+) = (\d+)")
CALL = re.compile(r"^(?:static inline )?([a-z][\w ]*[ *]+)(weedle_\w+)\(([^)]*)\)\s*[;{]", re.M)
# What tells the version, and isn't compared.
VERSION = "WEEDLE_VERSION"
# The structs that the library writes one of at a time, and that may get a field at their end.
GROWING = {f"struct weedle_{it}" for it in ("answer", "refusal", "formatted")}
# What may be others in each version whose first two numbers are.
NUMBERED = re.compile(r"enum weedle_(?:rule|status) |#define WEEDLE_RULE_COUNT$")


def type_of(parameter: str) -> str:
    """A parameter without its name: of `const char *text` it is `const char *`."""
    words = " ".join(parameter.split())
    return re.sub(r"(?<=[ *])\w+$", "", words).strip() if re.search(r"[ *]", words) else words


def surface_of(root: Path) -> Surface:
    """What a tree's header has; nothing where there is none."""
    file = root / HEADER
    text = COMMENT.sub("", file.read_text(encoding="utf-8")) if file.exists() else ""
    found = {f"#define {name}": value for name, value in DEFINE.findall(text) if name != VERSION}
    for name, body in ENUM.findall(text):
        found.update({f"enum {name} {it}": value for it, value in CONSTANT.findall(body)})
    for name, body in STRUCT.findall(text):
        found[f"struct {name}"] = ", ".join(" ".join(it.split()) for it in body.split(";") if it.strip())
    for result, name, parameters in CALL.findall(text):
        types = ", ".join(map(type_of, parameters.split(",")))
        found[name] = f"{' '.join(result.split())} ({types})"
    return found


def change_of(name: str, old: str | None, new: str | None) -> Change:
    """What it asks of callers that a name says something else, or is gone (None), or is new (None before)."""
    if new is None:
        return Change.BROKEN
    if old is None:
        return Change.ABI if NUMBERED.match(name) else Change.ADDED
    is_longer = name in GROWING and new.startswith(f"{old}, ")
    return Change.ABI if is_longer or NUMBERED.match(name) else Change.BROKEN
