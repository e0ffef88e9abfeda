"""Writes docs/CALLING.md: what a caller of the crate `weedle` can name, as it stands in the sources.

    python3 tools/write/calling.py [--check]

It begins at crates/weedle/src/lib.rt, and follows `pub use` and `pub mod` into the crates below
(tools/description/public.py). A call has its signature with its contract. The types of a module share a
block of code: each has its fields or variants, its methods and its traits. The grammar says where a
docstring may stand (tools/description/webidl.py). tools/write/write_all.py runs it too.

With --check nothing is written: a line says where the page is stale, and the status is 1 then.
"""

import re
import sys
import textwrap
from pathlib import Path

if not __package__:
    sys.path[0] = str(Path(__file__).resolve().parent.parent)

from description.declarations import end_of, head_of
from description.layout import filled
from description.names import upper
from description.public import public_items
from description.webidl import BY_NAME, DOC
from look.pages import anchor_of
from shared.command_line import write_page
from shared.crates import TOP

PAGE = "docs/CALLING.md"
CRATE = "weedle"
COLUMNS = 130
# A contract of more lines stands once.
LONG = 3
INTRO = """# Calling `weedle`

All that a caller of the crate `weedle` can name, by its path. [USING](USING.md) says what each part is for,
[PROVED](PROVED.md) what is proved of it, [GRAMMAR](GRAMMAR.md) what each type reads. `tools/write/calling.py` writes this page.

{contents}"""
CALLS = """## Calls

Each has its contract. `result` is what the call returns, `x.now` what a borrowed argument holds ([other
words](#the-words-of-the-contracts)). A call that can run out of memory takes an allocator.
"""
TYPES = """## Types

The headings are modules. `Copy` includes `Clone`, and `Ord` includes `PartialOrd`, `Eq` and `PartialEq`. `Parse` reads
a value from the front of a text. `into_fields` gives the fields of a struct, `into_interface` and its like what a variant
holds: `result ≡ (self.entry.a, ..)` and `result ≡ Some held ↔ self.entry ≡ Enum.Variant held`. Both take the value.
"""
DOCSTRINGS = """## Where a docstring may stand

A docstring is lines that begin with `///`. These members and definitions may begin with one, in their field `docstring`:
"""
NO_DOCSTRING = "These may not; a docstring in front is a syntax error."
WORDS = """## The words of the contracts

Each is defined in the file that is named, or in the standard library (`Rattle.std`).
"""
ITEM_BEGIN = r"^pub {kind} {name}\b"
METHOD = re.compile(r"^    pub fn (\w+)", re.M)
GHOST = re.compile(r"^ghost use ([\w.+]+)\.\{([^}]*)\};", re.M)
CONTRACT = ("requires", "ensures", "decreases")
# What the page says at once of types that have the first: the others follow from it.
IMPLIED = {"Copy": {"Clone"}, "Ord": {"PartialOrd", "Eq", "PartialEq"}, "Eq": {"PartialEq"}}
# The parts of a declaration between braces.
DECLARED = re.compile(r"^(pub (?:struct|enum) [^{]*\{)\n(.*)\n\}\n", re.S)
DERIVE = re.compile(r"#\[derive\((.*)\)\]\n")
# The body of a function that a trait gives.
BODY = re.compile(r"\n    \{\n(?:     .*\n|\n)*    \}$", re.M)


def first_words(doc):
    """The first paragraph of a doc, on one line, with the names of links as code."""
    rows = [row.strip().removeprefix("///").strip() for row in doc.split("\n") if row.strip().startswith("///")]
    rows = rows[: rows.index("")] if "" in rows else rows
    return re.sub(r"\[(`[^`]*`)\](?:\([^)]*\))?", r"\1", " ".join(rows))


def code_of(text, begin):
    """A function from its `pub fn` on, with its contract, up to its body."""
    indent = re.search(r" *\Z", text[:begin])[0]
    rows = []
    for row in text[begin - len(indent):].split("\n"):
        row = row.removeprefix(indent)
        if row == "{":
            break
        has_contract = any(it.strip().startswith(CONTRACT) for it in rows)
        if row.endswith("{") and not has_contract and not row.strip().startswith(CONTRACT):
            rows.append(row.removesuffix("{").rstrip())
            break
        rows.append(row)
    return "\n".join(filter(None, rows)) + "\n"


def bare(text):
    """A declaration without comments and bodies, and without attributes that only the prover reads."""
    rows = [row for row in text.split("\n") if not row.strip().startswith(("//", "#[cycle", "#[tactic"))]
    return re.sub(r"\n\n+", "\n", BODY.sub(";", "\n".join(rows)))


def declaration_of(text, begin):
    """A type or a trait from its attributes on to its end."""
    head = [row for row in head_of(text, begin).split("\n") if row.startswith("#[derive")]
    place = re.compile(r"[{(;=]|$", re.M).search(text, begin)
    end = place.end()
    if place[0] == "{":
        end = text.index("\n}", end) + 2
    elif place[0] == "(":
        end = end_of(text, end) + 1
    if place[0] != "{":
        end = text.index(";", end - 1) + 1
    return bare("\n".join([*head, text[begin:end]])) + "\n"


class Entry:
    """An item of the page: its path, its doc, and where it stands."""

    def __init__(self, path, item):
        self.path, self.item, self.text = path, item, item.module.text
        self.begin = re.search(ITEM_BEGIN.format(kind=item.kind, name=item.name), self.text, re.M).start()
        self.doc = first_words(head_of(self.text, self.begin))
        self.name = path.rpartition("::")[2]

    @property
    def source(self):
        return self.item.module.file.relative_to(self.item.module.root).as_posix()

    @property
    def former(self):
        """The declaration of a type that only a private module has, under the name of this alias."""
        found = re.search(rf"^pub type {self.item.name}<'a> = formers::(\w+)<(.+)>;", self.text, re.M)
        if not found:
            return None
        text = self.item.module.at("crate").below("formers").text
        begin = re.search(rf"^pub (?:struct|enum) {found[1]}\b", text, re.M).start()
        shown = declaration_of(text, begin).replace(f"{found[1]}<T>", f"{found[1]}<'a>")
        return re.sub(r"\bT\b", found[2], shown)

    def code(self):
        if self.item.kind == "fn":
            return code_of(self.text, self.begin)
        if self.former:
            return self.former
        return declaration_of(self.text, self.begin)

    def is_word(self):
        """Whether it is a struct with nothing in it, as a keyword."""
        return self.item.kind == "struct" and re.match(rf"pub struct {self.item.name};", self.text[self.begin:])


class Crate:
    """The code of a crate: its inherent methods and the traits of its types."""

    def __init__(self, root, name):
        files = sorted((Path(root) / "crates" / name / "src").rglob("*.rt"))
        self.texts = [path.read_text(encoding="utf-8") for path in files]

    def methods(self, name):
        """The public methods of a type, each with the text of its file and where it begins there."""
        for text in self.texts:
            for found in re.finditer(rf"^impl(?:<[^{{]*?>)? {name}\b[^{{]*\{{$", text, re.M):
                end = text.index("\n}", found.end())
                for method in METHOD.finditer(text, found.end(), end):
                    yield method[1], text, method.start() + 4

    def traits(self, name):
        """The traits that are implemented for a type, but for what is derived."""
        found = set()
        for text in self.texts:
            found |= set(re.findall(rf"^impl(?:<[^{{]*?>)? ((?:\w+::)*[A-Z]\w*)\b[^{{\n]* for {name}\b", text, re.M))
        return {it.rpartition("::")[2] for it in found}


def call_text(entry, seen):
    """A call with its contract; one that several have word for word stands at the first of them."""
    doc = filled(entry.doc.split(" "), "", columns=COLUMNS)
    head, line_end, contract = entry.code().partition("\n")
    first = seen.setdefault(contract, entry.name) if contract.count("\n") > LONG else entry.name
    if first != entry.name:
        contract = f"    // The contract of `{first}`.\n"
    return f"### [`{entry.path}`](../{entry.source})\n\n{doc}\n```rust\n{head}{line_end}{contract}```\n"


def type_text(entry, crate):
    """A type with what it is, its methods and its traits."""
    derived, code = derived_of(entry.code())
    methods = methods_of(entry, crate)
    apart = [name for name, _, _ in methods if is_plain(entry, name)]
    own = [code_of(text, begin) for name, text, begin in methods if not is_plain(entry, name)]
    shown = filled(entry.doc.split(" "), "", "/// ", COLUMNS) + compact(code)
    if own:
        shown += f"impl {entry.name} {{\n" + textwrap.indent("".join(own), "    ") + "}\n"
    if said := said_of(apart, entry, crate, derived):
        shown += filled(said.split(" "), "", "// ", COLUMNS)
    return shown


def derived_of(code):
    """The traits that a declaration derives, and the declaration without them."""
    found = DERIVE.match(code)
    return (set(found[1].split(", ")), code[found.end() :]) if found else (set(), code)


def compact(code):
    """A declaration of a struct or an enum: on one line where it fits, and else with short variants side by side."""
    found = DECLARED.match(code)
    if not found:
        return code
    parts = parts_of(found[2])
    one_line = f"{found[1]} {', '.join(parts)} }}\n"
    if len(one_line) <= COLUMNS + 1:
        return one_line
    if found[1].startswith("pub enum"):
        return f"{found[1]}\n{filled([f'{it},' for it in parts], '    ', columns=COLUMNS)}}}\n"
    return f"{found[1]}\n" + "".join(f"    {it},\n" for it in parts) + "}\n"


def parts_of(body):
    """The fields or variants of a declaration, each on one line."""
    parts = []
    for row in body.split("\n"):
        if row.startswith("     ") or row.startswith(("    }", "    )")):
            parts[-1] += " " + row.strip()
        else:
            parts.append(row.strip())
    return [it.removesuffix(",").replace("( ", "(").replace(", )", ")").replace(", }", " }") for it in parts]


def methods_of(entry, crate):
    return list(crate.methods(entry.item.name)) if entry.item.kind != "type" else []


def contracts_of(entry, crate):
    """The code of an entry that has contracts, each with the text of the file in which it stands."""
    if entry.item.kind in ("fn", "trait"):
        yield entry.code(), entry.text
    for name, text, begin in methods_of(entry, crate):
        if not is_plain(entry, name):
            yield code_of(text, begin), text


def is_plain(entry, name):
    """Whether a method is one of those that take a value apart, whose contract the page says once."""
    return name == "into_fields" or entry.item.kind == "enum" and name.startswith("into_")


def said_of(apart, entry, crate, derived):
    """The methods that take a value apart, and all traits but those that follow from others."""
    traits = derived | crate.traits(entry.item.name)
    if "Copy" in traits:
        traits = traits - {"Drop"}
    traits = traits - {it for name in traits for it in IMPLIED.get(name, ())}
    parts = []
    if apart:
        parts.append(f"Methods: `{apart[0]}`{' and the like' if len(apart) > 1 else ''}.")
    if traits:
        parts.append(f"Traits: {', '.join(f'`{it}`' for it in sorted(traits))}.")
    return " ".join(parts)


def words_text(entries):
    """The structs with nothing in them, by the text that each stands for."""
    texts = {it.name: found[1] if (found := re.search(r"`([^`]+)`", it.doc)) else "" for it in entries}
    own = [f"`{name}`" for name, text in texts.items() if text == name]
    small = [f"`{name}`" for name, text in texts.items() if text == name.lower() != name]
    others = [f"`{name}` `{text}`" for name, text in texts.items() if text.lower() != name.lower()]
    lists = (("Words of their own names", own), ("The same in small letters", small), ("Others", others))
    return "".join(bullet(f"{head}: {', '.join(names)}.") for head, names in lists if names)


def docstrings_text(entries):
    """Which of the types that are read may have a docstring in front, by the rows of the grammar."""
    rows = {it: BY_NAME[upper(it.name)].row for it in entries if it.item.kind == "struct" and upper(it.name) in BY_NAME}
    whole = {it: row[1] for it, row in rows.items() if row[0] == "Seq"}
    with_one = [it for it, parts in whole.items() if parts[0] == DOC]
    # Members and definitions, which end with a semicolon.
    without = [it for it, parts in whole.items() if parts[-1] == "SEMI_COLON" and DOC not in parts]
    return f"{DOCSTRINGS}\n{by_module(with_one)}\n{NO_DOCSTRING}\n\n{by_module(without)}"


def by_module(entries):
    """A line of a list for each module, with its types."""
    found = {}
    for entry in entries:
        found.setdefault(entry.path.rpartition("::")[0], []).append(f"`{entry.name}`")
    return "".join(bullet(f"`{path}`: {', '.join(names)}") for path, names in found.items())


def bullet(text):
    return paragraph(f"- {text}", "  ")


def paragraph(text, indent=""):
    return textwrap.fill(
        text, COLUMNS, subsequent_indent=indent, break_long_words=False, break_on_hyphens=False
    ) + "\n"


def words_of(code, text, found):
    """Notes the words of a contract by the module of the logic that defines each, as its file brings it in."""
    used = set(re.findall(r"[^\s(){}.,;]+", code))
    for module, names in GHOST.findall(text):
        for name in filter(None, (it.strip() for it in names.split(","))):
            known, _, alias = name.partition(" as ")
            if (alias or known) in used and ".declared." not in module:
                found.setdefault(module, set()).add(known)


def words_of_contracts(root, found):
    """A line for each module of the logic, with a link to its file where it is the repository's."""
    for module in sorted(found):
        path = f"crates/{'/'.join(module.split('.')[1:])}.antt"
        shown = f"[{path.removeprefix('crates/')}](../{path})" if (root / path).is_file() else f"`{module}`"
        yield bullet(f"{shown}: {', '.join(f'`{it}`' for it in sorted(found[module]))}")


def contents_of(items, types):
    """The sections of the page, each with its link."""
    homes = {it.path.rpartition("::")[0] for it in types}
    names = ["Calls", "Where a docstring may stand", "Types", *(f"`{path}`" for path in items if path in homes)]
    names.append("The words of the contracts")
    links = [f"[{name}](#{anchor_of(name)})" for name in names]
    return paragraph(f"Sections: {', '.join(links)}.")


def module_text(path, entries, crates):
    """A section of the types of a module: the crates in which they stand, and all of them in one block."""
    shown = [type_text(it, crates[it.item.module.crate]) for it in entries if not it.is_word()]
    parts = [f"## `{path}`\n"]
    if shown:
        homes = dict.fromkeys(it.item.module.crate for it in entries if not it.is_word())
        parts.append(paragraph(f"Sources: {', '.join(f'[{it}](../crates/{it}/src)' for it in homes)}."))
        parts.append("```rust\n" + "\n".join(shown) + "```\n")
    if words := [it for it in entries if it.is_word()]:
        parts.append(words_text(words))
    return "\n".join(parts)


def page(root):
    items = public_items(root, CRATE)
    entries = [Entry(f"{path}::{name}", it) for path, names in items.items() for name, it in names.items()]
    crates = {it.item.module.crate: Crate(root, it.item.module.crate) for it in entries}
    calls = [it for it in entries if it.item.kind == "fn"]
    types = [it for it in entries if it.item.kind != "fn"]
    intro = INTRO.format(contents=contents_of(items, types))
    seen = {}
    parts = [intro, CALLS, *(call_text(it, seen) for it in calls), docstrings_text(types), TYPES]
    for path in items:
        if here := [it for it in types if it.path.rpartition("::")[0] == path]:
            parts.append(module_text(path, here, crates))
    words = {}
    for entry in entries:
        for code, text in contracts_of(entry, crates[entry.item.module.crate]):
            words_of(code, text, words)
    parts.append(WORDS + "\n" + "".join(words_of_contracts(root, words)))
    return "\n".join(parts)


if __name__ == "__main__":
    sys.exit(write_page(__doc__, TOP, PAGE, lambda: page(TOP)))
