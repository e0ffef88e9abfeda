"""Writes the modules of the Rust package that hold the types and the grammar's rules.

tools/write/write_all.py runs it. It writes below rust/src
    rules.rs            the rules, and which of them read what is made of others
    term.rs             the terminals, and the macro `term!`
    common.rs ..        the other types, module by module as weedle2 has them
    definitions.rs      the definitions, which lib.rs brings to the front

Types, fields, variants and derives have weedle2's names, and the docs of the crates. What a rule
reads is taken from the declarations of the crates by description.readings. Behind each type stands
a line of a macro of rust/src/macros.rs, which says how its values are made. The text is as
`cargo fmt` lays it out.
"""

import re
import sys
from pathlib import Path
from textwrap import wrap

if not __package__:
    sys.path[0] = str(Path(__file__).resolve().parent.parent)

from description.declarations import Type
from description.readings import Declared
from description.webidl import BY_NAME, CAPITALIZED, KEYWORDS, SYMBOLS
from shared.command_line import refuse_writer
from shared.crates import TOP
from write.c_header import VERSION, found_in
from write.python_text import first_sentence
from write.python_types import ABOUT, FIELDS, LIBRARY, LISTS, PARENTHESIZED, TUPLE, VARIANTS, Package
from write.rust_rules import function_of, rules_text

SOURCE = TOP / "rust/src"
WRITTEN = "Written by tools/write/rust_types.py, and not edited by hand."
COLUMNS = 100
DERIVED = "Clone Copy Debug Default PartialEq Eq PartialOrd Ord Hash".split()
# What each type derives. Some have more here, where `Clone` is another trait.
ALWAYS = {*DERIVED} - {"Copy", "Default"}
# What is copied here and isn't in weedle2: code has to move both ways.
NOT_COPIED = ("ConstType",)
# A module that weedle2 has no name for stands at the front.
FRONT = "definitions"
# A type that is named, with no path before it.
NAME = re.compile(r"(?<![:.\w])[A-Z]\w*")
# What a macro's line says of tuple structs.
LEAVES = {"String": "lines", "bool": "truth"}


class Writer:
    """Writes declarations of types, and finds the rules that read them."""

    def __init__(self, package):
        self.package, self.declared = package, package.declared
        self.rules = set()

    def text(self, type_):
        """A type as Rust has it."""
        if type_.name == "&":
            return "&'a str"
        if type_.name == PARENTHESIZED:
            return "Parenthesized<ArgumentList<'a>>"
        if type_.name == TUPLE:
            parts = [it for _, it in self.declared.parts_of(type_)]
            return f"({', '.join(map(self.text, parts))})"
        items = [self.text(it) for it in type_.arguments]
        if type_.name == "()":
            return f"({', '.join(items)})"
        known = self.declared.aliases.get(type_.name) or self.declared.types.get(type_.name)
        if known and known.is_borrowing:
            items.insert(0, "'a")
        in_terms = self.package.module.get(type_.name) == "term"
        name = f"term::{type_.name}" if in_terms else type_.name
        return f"{name}<{', '.join(items)}>" if items else name

    def rule(self, name):
        """The rule that reads a type without parameters, by its name."""
        rule = self.declared.rule_of(Type(name))
        self.rules.add(rule)
        return rule

    def declaration(self, it):
        """A type with what makes its values."""
        former = self.package.former(it)
        body = former or it
        if self.package.module[it.name] == "term":
            return self.terminal(it)
        if it.kind == "type" and not former:
            return alias(own(it), it.doc, self.text(it.parts[0].type))
        if body.is_enum:
            return self.enum(it, body)
        if it.parameters:
            return self.generic(it)
        if [part.name for part in body.parts] == ["0"]:
            return self.tuple(it, body)
        return self.struct(it, body)

    def terminal(self, it):
        return (
            f"{doc(it.doc)}{derives(it, it)}pub struct {it.name};\n\n"
            f"terminal!({it.name} = {self.rule(it.name)});\n"
        )

    def struct(self, it, body):
        parts = [(FIELDS.get(name, name), type_, about) for name, type_, about in self.parts(it)]
        rule = self.rule(it.name)
        names = [name for name, _, _ in parts]
        last = f"; {names.pop()}" if BY_NAME[rule].row[0] == "If" else ""
        listed = f"{', '.join(names)}{last}"
        return (
            f"{doc(it.doc)}{derives(it, body)}pub struct {own(it)} {{\n{self.fields(parts)}}}\n\n"
            f"{macro('record', f'{own(it)} = {rule}', listed)}"
        )

    def parts(self, it):
        return self.package.parts(it)

    def fields(self, parts):
        rows = (f"{doc(about, '    ')}    pub {name}: {self.text(type_)},\n" for name, type_, about in parts)
        return "".join(rows)

    def tuple(self, it, body):
        ((_, type_, _),) = self.parts(it)
        rule = self.rule(it.name)
        head = f"{doc(it.doc)}{derives(it, body)}pub struct {own(it)}(pub {self.text(type_)});\n\n"
        if type_.name != "&":
            return f"{head}{LEAVES.get(type_.name, 'wrapped')}!({own(it)} = {rule});\n"
        kept = BY_NAME[rule].row[1][int(re.fullmatch(r"Kept (\d)", BY_NAME[rule].shape)[1])]
        self.rules.add(kept)
        return f"{head}kept!({own(it)} = {rule} {{ {kept} }});\n"

    def enum(self, it, body):
        parts = [(VARIANTS.get(name, name), self.text(type_), about) for name, type_, about in self.parts(it)]
        rows = "".join(f"{doc(about, '    ')}    {name}({text}),\n" for name, text, about in parts)
        arms = "".join(f"        {name}({text}),\n" for name, text, _ in parts)
        return (
            f"{doc(it.doc)}{derives(it, body)}pub enum {own(it)} {{\n{rows}}}\n\n"
            f"choice! {{\n    {own(it)} = {self.rule(it.name)} {{\n{arms}    }}\n}}\n"
        )

    def generic(self, it):
        parts = [(part.name, part.type, part.doc) for part in it.parts]
        head = (
            f"{doc(it.doc)}{derives(it, it)}pub struct {it.name}<{', '.join(it.parameters)}> {{\n"
            f"{self.fields(parts)}}}\n\n"
        )
        if it.name in LISTS:
            return f"{head}{function_of(it.name)}!({it.name});\n"
        names = ", ".join(name for name, _, _ in parts)
        return head + macro("generic", f"{it.name} = {function_of(it.name)}", names)


def own(it):
    """A type with the lifetime of the text, where it borrows."""
    return f"{it.name}<'a>" if it.is_borrowing else it.name


def alias(name, about, text):
    line = f"pub type {name} = {text};\n"
    if len(line) > COLUMNS + 1:
        line = f"pub type {name} =\n    {text};\n"
    return doc(about) + line


def derives(it, body):
    derived = {*body.derived} | ALWAYS
    if it.name in NOT_COPIED:
        derived.discard("Copy")
    return f"#[derive({', '.join(name for name in DERIVED if name in derived)})]\n"


def macro(name, head, listed):
    """A macro's line, or as many as it takes."""
    line = f"{name}! {{ {head} {{ {listed} }} }}\n"
    if len(line) <= COLUMNS + 1:
        return line
    rows = "\n        ".join(wrap(listed, COLUMNS - 8))
    return f"{name}! {{\n    {head} {{\n        {rows}\n    }}\n}}\n"


def doc(text, indent=""):
    """A doc comment of one sentence, or nothing where there is no doc."""
    rows = wrap(first_sentence(text or ""), COLUMNS - len(indent) - 4, break_on_hyphens=False)
    return "".join(f"{indent}/// {row}\n" for row in rows)


def uses(module, code, package):
    """The lines that bring in the types of other modules."""
    code = re.sub(r"//.*|#\[derive.*", "", code)
    wanted = {}
    for name in {*NAME.findall(code)}:
        found = package.module.get(name)
        if found and found not in (module, "term"):
            wanted.setdefault("crate" if found == FRONT else f"crate::{found}", []).append(name)
    lines = [use(path, sorted(names)) for path, names in wanted.items()]
    if "term::" in code and module != "term":
        lines.append("use crate::term;\n")
    return "".join(sorted(lines))


def use(path, names):
    """The line, or the lines, that bring in these names."""
    if len(names) == 1:
        return f"use {path}::{names[0]};\n"
    line = f"use {path}::{{{', '.join(names)}}};\n"
    if len(line) <= COLUMNS + 1:
        return line
    rows = "\n    ".join(wrap(f"{', '.join(names)},", COLUMNS - 4))
    return f"use {path}::{{\n    {rows}\n}};\n"


def term_macro():
    """The macro that names a terminal's type."""
    texts = {**dict(SYMBOLS), **KEYWORDS, **{it: it for it in CAPITALIZED}, "NegInfinity": "- Infinity"}
    rows = []
    for name, text in texts.items():
        # A bracket alone is no word of Rust.
        shown = name if text in tuple("()[]{}") else text
        rows.append(f"    ({shown}) => {{\n        $crate::term::{name}\n    }};\n")
    return (
        "\n/// The type of a terminal, as `term!(interface)` or `term!(;)`; that of a bracket by its name, as\n"
        "/// `term!(OpenParen)`. It is a value of the type too.\n"
        f"#[macro_export]\nmacro_rules! term {{\n{''.join(rows)}}}\n"
    )


def module_text(writer, module, declarations):
    body = "\n".join(map(writer.declaration, declarations))
    if module == "term":
        body += term_macro()
    lines = uses(module, body, writer.package)
    between = "\n" if lines else ""
    return f"//! {ABOUT[module]}\n//!\n//! {WRITTEN}\n\n{lines}{between}{body}"


def texts():
    writer = Writer(Package(Declared.of(TOP)))
    for module, declarations in writer.package.modules.items():
        yield module, module_text(writer, module, declarations)
    version = found_in(VERSION, (TOP / LIBRARY).read_text(encoding="utf-8"), LIBRARY)
    yield "rules", rules_text(WRITTEN, version, writer.rules)


def main():
    SOURCE.mkdir(parents=True, exist_ok=True)
    for module, text in texts():
        (SOURCE / f"{module}.rs").write_text(text, encoding="utf-8")


if __name__ == "__main__":
    sys.exit(refuse_writer(__doc__))
