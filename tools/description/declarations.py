"""The types that crates declare: their public structs and enums, with what stands in them.

A declaration is read from its .rt file as it stands there. It has to begin a line; of types that
aren't public nothing is read. Comments are kept where they are docs.
"""

import re
from copy import copy
from functools import cache
from pathlib import Path

# A declaration up to what encloses its parts, or up to its `;` or `=`.
BEGIN = re.compile(r"^pub (struct|enum|type) (\w+)(<[^>=({;]*>)?\s*([{(;=])", re.M)
FIELD = re.compile(r"(?:pub )?(\w+): (.+)", re.S)
VARIANT = re.compile(r"(\w+)(?:\((.+)\))?", re.S)
DERIVED = re.compile(r"#\[derive\(([^)]*)\)\]")
RECURSIVE = "#[cycle(types)]"
OPENING, CLOSING = "([{<", ")]}>"
# What stands between the braces.
KINDS = {"struct": "fields", "enum": "variants"}


class Type:
    """A type that is named: its name, without the modules before it, and its arguments.

    A tuple has the name `()`, and a reference the name `&`.
    """

    def __init__(self, name, arguments=(), module=None):
        self.name, self.arguments, self.module = name, tuple(arguments), module

    def __eq__(self, other):
        return (self.name, self.arguments) == (other.name, other.arguments)

    def __hash__(self):
        return hash((self.name, self.arguments))

    def __repr__(self):
        shown = ", ".join(map(repr, self.arguments))
        if self.name == "()":
            return f"({shown})"
        return f"{self.name}<{shown}>" if shown else self.name


class Part:
    """A field or a variant: its name, the text of its type or None, and its doc."""

    def __init__(self, name, text, doc=""):
        self.name, self.text, self.doc = name, text, doc

    @property
    def type(self):
        return type_of(self.text)


class Declaration:
    """A struct, an enum, or a `type`, which has one part of the name ``."""

    def __init__(self, kind, name, parameters, parts, doc="", derived=()):
        self.kind, self.name, self.parameters, self.parts = kind, name, parameters, parts
        self.doc, self.derived = doc, derived
        self.crate = self.module = self.home = None
        # Whether it has a lifetime, and whether it stands in a cycle of types.
        self.is_borrowing = self.is_recursive = False
        # The declaration that it is an alias of, where it is one that was looked up.
        self.former = None

    @property
    def is_enum(self):
        return self.kind == "enum"

    @property
    def is_dropped(self):
        """Whether its `Drop` is written out: it derives neither that nor `Copy`."""
        return self.kind != "type" and not {"Copy", "Drop"} & set(self.derived)

    @property
    def is_copied(self):
        """Whether its values are copied as they are: so reading one takes no memory."""
        return "Copy" in self.derived


def split(text):
    """What stands between the commas of a text that stand in no brackets."""
    found, part, depth = [], "", 0
    for sign in text:
        depth += (sign in OPENING) - (sign in CLOSING)
        if sign == "," and not depth:
            found.append(part.strip())
            part = ""
        else:
            part += sign
    return [*found, part.strip()] if part.strip() else found


@cache
def type_of(text):
    """The Type of a type's text; lifetimes are left out."""
    text = text.strip()
    if text.startswith("&"):
        return Type("&", [type_of(re.sub(r"^&\s*('\w+\s+)?(mut\s+)?", "", text))])
    if text.startswith("("):
        return Type("()", map(type_of, split(text[1:-1])))
    path, _, rest = text.partition("<")
    arguments = [part for part in split(rest.rstrip()[:-1]) if not part.startswith("'")]
    module, _, name = path.strip().rpartition("::")
    return Type(name, map(type_of, arguments), module or None)


def end_of(text, begin):
    """Where the bracket closes that stands right before `begin`; docs are passed over."""
    depth = 1
    for found in re.compile(r"//[^\n]*|[\[\](){}<>]").finditer(text, begin):
        if not found[0].startswith("//"):
            depth += 1 if found[0] in OPENING else -1
        if not depth:
            return found.start()
    return len(text)


def docs_and_code(text):
    """The docs of a text that has no other code's docs in it, and the rest of it."""
    rows = [row.strip() for row in text.split("\n")]
    docs = " ".join(row[3:].strip() for row in rows if row.startswith("///"))
    return docs, " ".join(row for row in rows if row and not row.startswith(("//", "#[")))


def parts_of(kind, body):
    """The parts of a body: each has its docs before it, and a comma behind it."""
    masked = re.sub(r"//[^\n]*", lambda found: " " * len(found[0]), body)
    begin, depth, found = 0, 0, []
    for place, sign in enumerate(masked + ","):
        depth += (sign in OPENING) - (sign in CLOSING)
        if sign == "," and not depth:
            docs, code = docs_and_code(body[begin:place])
            if code:
                found.append(part_of(kind, len(found), docs, code))
            begin = place + 1
    return found


def part_of(kind, number, docs, code):
    if kind == "fields":
        return Part(*FIELD.fullmatch(code).groups(), docs)
    if kind == "variants":
        return Part(*VARIANT.fullmatch(code).groups(), docs)
    return Part(str(number), code.removeprefix("pub "), docs)


def head_of(text, end):
    """The docs, comments and attributes right before a declaration or a method, as they stand."""
    rows = []
    for row in reversed(text[:end].rstrip("\n").split("\n")):
        if not row.strip().startswith(("//", "#[")):
            break
        rows.append(row)
    return "\n".join(reversed(rows))


def derived_in(head):
    derived = DERIVED.search(head)
    return tuple(derived[1].replace(" ", "").split(",")) if derived else ()


def declared_in(text):
    """The declarations of a file, in their order. A caller may note in them where they stand."""
    return [copy(it) for it in once_declared_in(text)]


@cache
def once_declared_in(text):
    """The declarations of a file, read once: many files are read again for each crate that stands on them."""
    found = []
    for begin in BEGIN.finditer(text):
        kind, name, parameters, sign = begin.groups()
        body = text[begin.end():end_of(text, begin.end())] if sign in "{(" else ""
        if sign == "=":
            parts = [Part("", text[begin.end():text.index(";", begin.end())].strip())]
        else:
            parts = parts_of("numbered" if sign in "(;" else KINDS[kind], body)
        names = [it for it in split((parameters or "<>")[1:-1]) if not it.startswith("'")]
        head = head_of(text, begin.start())
        docs = docs_and_code(head)[0]
        declaration = Declaration(kind, name, names, parts, docs, derived_in(head))
        declaration.is_borrowing = "'" in (parameters or "")
        declaration.is_recursive = RECURSIVE in head
        found.append(declaration)
    return found


def crate_of(home):
    """The crate of a home: a crate, or a module of one, as `weedle_base::term`."""
    return home.partition("::")[0]


def declared_by(root, home):
    """The declarations of a crate, or of a module right in one, with that home, their crate and module, file by file."""
    crate, _, top = home.partition("::")
    source = Path(root) / "crates" / crate / "src"
    for path in sorted(source.rglob("*.rt")):
        parts = path.relative_to(source).with_suffix("").parts
        for declaration in declared_in(path.read_text(encoding="utf-8")) if top in ("", parts[0]) else ():
            declaration.home, declaration.crate, declaration.module = home, crate, ".".join(parts)
            yield declaration
