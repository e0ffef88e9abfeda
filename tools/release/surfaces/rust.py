"""What callers in Rust can name: the public items of the Cargo package, laid out by rustfmt."""

import re
from pathlib import Path
from typing import Iterator

from release.surfaces import Change, Surface

SOURCE, ROOT = "rust/src", "lib.rs"
COMMENT = re.compile(r"^\s*//[^\n]*\n|/\*.*?\*/", re.M | re.S)
MODULE = re.compile(r"^(?P<hidden>#\[doc\(hidden\)\]\n)?(?:#\[macro_use\]\n)?pub mod (?P<name>\w+);", re.M)
PASSED = re.compile(r"^(?:#\[[^\n]*\]\n)*pub use (?P<what>[^;]+);", re.M)
ITEM = re.compile(
    r"^(?P<heads>(?:#\[[^\n]*\]\n)*)pub (?P<kind>struct|enum|trait|type|fn|const) (?P<name>\w+)"
    r"(?P<text>[^{;]*(?:;|\{\}|\{\n(?P<body>.*?)^\}))",
    re.M | re.S,
)
MACRO = re.compile(r"^#\[macro_export\]\nmacro_rules! (\w+)", re.M)
IMPL = re.compile(
    r"^impl(?:<[^>]*>)? (?:(?P<trait>[\w:<>' ]+) for )?(?P<name>\w+)(?:<[^>]*>)? \{(?:\}|\n(?P<body>.*?)^\})", re.M | re.S
)
METHOD = re.compile(r"^    pub fn (\w+)([^{]*) \{", re.M)
DERIVED = re.compile(r"#\[derive\(([^)]*)\)\]")
HIDDEN_PART = re.compile(r"^    #\[doc\(hidden\)\]\n(?:    [^\n]*\n)*?(?:    [^\n]*;\n|    \}\n)", re.M)
SHOWN_WHOLE = ("struct", "enum", "type", "const")


def flat(text: str) -> str:
    """A text on one line."""
    return re.sub(r",? ([)}])", r" \1", " ".join(text.split()))


def items_in(text: str, path: str) -> Iterator[tuple[str, str]]:
    """The public items of a module's text, each by its path."""
    for it in ITEM.finditer(text):
        name = f"{path}::{it['name']}"
        if it["kind"] in SHOWN_WHOLE:
            yield name, flat(f"{it['kind']}{it['text']}")
            yield from ((f"{name}: {word}", "") for derived in DERIVED.findall(it["heads"]) for word in derived.split(", "))
        elif it["kind"] == "trait":
            yield name, flat(it["text"].partition("{")[0])
            parts = re.sub(r"\n    ?fn", "\n    fn", HIDDEN_PART.sub("", it["body"] or ""))
            yield from ((f"{name}::{found[1]}", flat(found[2])) for found in re.finditer(r"^    fn (\w+)([^{;]*)", parts, re.M))
        else:
            yield f"{name}()", flat(it["text"].partition("{")[0])
    yield from impls_in(text, path)
    for name in MACRO.findall(text):
        yield f"{path.partition('::')[0]}::{name}!", "macro"


def impls_in(text: str, path: str) -> Iterator[tuple[str, str]]:
    """The traits that are implemented by hand, and the methods of types."""
    for it in IMPL.finditer(text):
        if it["trait"]:
            yield f"{path}::{it['name']}: {it['trait']}", ""
        else:
            yield from ((f"{path}::{it['name']}::{name}()", flat(said)) for name, said in METHOD.findall(it["body"] or ""))


def surface_of(root: Path) -> Surface:
    """What the package of a tree has; nothing where there is none."""
    source = root / SOURCE
    if not (source / ROOT).exists():
        return {}
    texts = {it.name: COMMENT.sub("", it.read_text(encoding="utf-8")) for it in source.glob("*.rs")}
    whole = texts[ROOT]
    found = dict(items_in(whole, "weedle"))
    for it in MODULE.finditer(whole):
        if not it["hidden"]:
            found.update(items_in(texts[f"{it['name']}.rs"], f"weedle::{it['name']}"))
    for it in PASSED.finditer(whole):
        if it["what"].endswith("::*"):
            found.update(items_in(texts[f"{it['what'][:-3]}.rs"], "weedle"))
        else:
            found[f"use {flat(it['what'])}"] = ""
    return found


def change_of(name: str, old: str | None, new: str | None) -> Change:
    """What it asks of callers that a name says something else, or is gone (None), or is new (None before)."""
    return Change.ADDED if old is None else Change.BROKEN
