"""Writes the modules of the JavaScript package that hold the grammar's rules and its values' classes.

tools/write/write_all.py runs it. It writes below js/lib/written
    grammar.js      the names of the rules, by their numbers, and the version of the library
    roles.js        what a name stands for, by the rule that reads it
    term.js         a class for each terminal
    values.js       the other types that the crates declare, in the order of weedle2's modules
    today.js        the types of today's tree that weedle2's hasn't, by javascript_today.py
    makers.js       which class each rule makes
    *.d.ts          their declarations for TypeScript

Types, fields and variants are those that tools/write/python_types.py writes for Python, fields in JavaScript's
spelling, as `returnType`. Roles are those of crates/weedle_places.
"""

import re
import sys
from pathlib import Path

if not __package__:
    sys.path[0] = str(Path(__file__).resolve().parent.parent)

from description import today
from description.names import upper
from description.readings import Declared
from description.webidl import BY_NAME
from shared.command_line import refuse_writer
from shared.crates import TOP, Unfit
from write.c_header import VERSION, found_in
from write.javascript_text import OF_ALL, abstract, choice_text, declared_module, doc, field_name, module, string
from write.javascript_today import JavaScriptToday
from write.python_types import ABOUT, LIBRARY, LISTS, PARENTHESIZED, TUPLE, VARIANTS, Makers, Package

FOLDER = TOP / "js/lib/written"
ROLES = "crates/weedle_places/src/role.rt"
# Its functions that say what the first name of a rule stands for.
FIRST_ROLES = "of_definition of_member of_part of_today_definition of_today_part".split()
VALUES = "The typed tree: literals, types, arguments, extended attributes, members and definitions."
TODAY = "Today's tree: the types that weedle2's hasn't. What both have is in the other modules."
# The base of what has one part without a name, of an enum that is a number, and what stands before octal digits.
LEAVES = {
    "Identifier": "Name", "Docstring": "Lines", "BooleanLit": "Truth", "FloatValueLit": "Decimal",
    "DecLit": "Whole", "HexLit": "Whole", "OctLit": "Whole",
}
CHOICES = {"IntegerLit": "WholeChoice", "FloatLit": "DecimalChoice"}
PREFIXES = {"OctLit": "0o"}
# What such a class declares more.
NUMBERS = {"Whole": "WholeNumber", "Decimal": "DecimalNumber"}
# The base of a list with separators.
BASES = {"Punctuated": "Listed", "PunctuatedNonEmpty": "FilledList"}


class Classes:
    """The classes of a package, in JavaScript and as TypeScript declares them."""

    def __init__(self, package):
        self.package = package

    def texts(self, declaration):
        """The class of a declaration, and what is declared of it; no class of an alias."""
        package = self.package
        former = package.former(declaration)
        whole = former or declaration
        if package.module[declaration.name] == "term":
            return self.term(declaration)
        if declaration.kind == "type" and not former:
            return "", self.alias(declaration)
        if whole.is_enum:
            return self.enum(declaration)
        if declaration.name in LISTS:
            return self.list(declaration)
        if [it.name for it in whole.parts] == ["0"]:
            return self.leaf(declaration)
        return self.struct(declaration)

    def term(self, declaration):
        head = doc(declaration.doc)
        name = declaration.name
        return f"{head}class {name} extends Terminal {{}}\n", abstract(head, name, "Terminal", [], name)

    def alias(self, declaration):
        text = self.type(declaration.parts[0].type)
        return f"{doc(declaration.doc)}export type {declaration.name} = {text};\n"

    def struct(self, declaration):
        head, name = doc(declaration.doc), declaration.name
        fields, getters, declared = [], [], []
        for number, (inner, type_, about) in enumerate(self.package.parts(declaration)):
            field = field_name(inner)
            if field in OF_ALL:
                raise Unfit(f"{name} has a field {field}, as all values have")
            fields.append(f"    {field}: {string(inner)},\n")
            getters.append(f"\n  get {field}() {{\n    return part(this, {number});\n  }}\n")
            declared.append(f"{doc(about, '  ')}  readonly {field}: {self.type(type_)};\n")
        parameters = self.parameters(declaration)
        code = f"{head}class {name} extends Value {{\n  static fields = {{\n{''.join(fields)}  }};\n{''.join(getters)}}}\n"
        return code, abstract(head, f"{name}{parameters}", "Value", declared, name)

    def parameters(self, declaration):
        return f"<{', '.join(declaration.parameters)}>" if declaration.parameters else ""

    def list(self, declaration):
        head, name = doc(declaration.doc), declaration.name
        base = BASES[name]
        parameters = self.parameters(declaration)
        return f"{head}class {name} extends {base} {{}}\n", abstract(head, name + parameters, f"Listed{parameters}", [], name)

    def leaf(self, declaration):
        """The class of what has one part without a name."""
        head, name = doc(declaration.doc), declaration.name
        ((_, type_, _),) = self.package.parts(declaration)
        declared = [f"  readonly value: {self.type(type_)};\n"]
        if type_.name in self.package.module:
            code = f"{head}class {name} extends Wrapped {{}}\n"
            return code, abstract(head, name, "Value", declared, name)
        kept = re.fullmatch(r"Kept (\d)", BY_NAME[upper(name)].shape)
        rows = f"  static kept = {kept[1]};\n" if kept else ""
        rows += f"  static prefix = {string(PREFIXES[name])};\n" if name in PREFIXES else ""
        base = LEAVES.get(name, "Leaf")
        code = f"{head}class {name} extends {base} {{{rows and chr(10) + rows}}}\n"
        return code, abstract(head, name, "Value", declared, name) + numbered(name, NUMBERS.get(base))

    def enum(self, declaration):
        """The class of an enum, whose variants are classes in it."""
        name = declaration.name
        base = CHOICES.get(name, "Choice")
        more_of = f", {NUMBERS[base.removesuffix('Choice')]}" if name in CHOICES else ""
        variants = [
            (VARIANTS.get(variant, variant), variant, self.type(type_, f"{name}."), about)
            for variant, type_, about in self.package.parts(declaration)
        ]
        return choice_text(declaration.doc, name, base, variants, more_of)

    def type(self, type_, within=""):
        """A type as TypeScript has it; within an enum whose variants may hide names, by its module."""
        items = [self.type(it, within) for it in type_.arguments]
        plain = {"&": "string", "String": "string", "bool": "boolean"}
        if type_.name in plain:
            return plain[type_.name]
        if type_.name == "()":
            return f"readonly [{', '.join(items)}]"
        if type_.name == "Box":
            return items[0]
        if type_.name == "Option":
            return f"{items[0]} | null"
        if type_.name == "Vec":
            return f"readonly {items[0]}[]"
        return self.named(type_, items, within)

    def named(self, type_, items, within):
        if type_.name == PARENTHESIZED:
            return self.named_as("Parenthesized", within) + f"<{self.named_as('ArgumentList', within)}>"
        if type_.name == TUPLE:
            types = [self.type(it.type) for it in self.package.declared.types[TUPLE].parts]
            return f"readonly [{', '.join(types)}]"
        arguments = f"<{', '.join(items)}>" if items else ""
        return self.named_as(type_.name, within) + arguments

    def named_as(self, name, within):
        """The name of a type, with the module before it of a terminal, and of any within an enum."""
        home = self.package.module.get(name)
        if home == "term":
            return f"term.{name}"
        return f"values.{name}" if home and within else name


def numbered(name, number):
    """What a class declares more that is a number."""
    return f"export interface {name} extends {number} {{}}\n" if number else ""


class JavaScriptMakers(Makers):
    """What each rule makes, in JavaScript."""

    NEW = "new "

    def __init__(self, classes):
        super().__init__(classes.package)
        self.classes = classes

    def listed(self, type_, rule):
        return f"new One({self.name(type_)}, {self.name(type_.arguments[1])})"

    def chosen(self, type_):
        rows = []
        for name, part in self.declared.parts_of(type_):
            rule = self.declared.rule_of(part).lower()
            rows.append(f"    {rule}: {self.name(type_)}.{VARIANTS.get(name, name)},\n")
        return "new Variants({\n" + "".join(rows) + "  })"

    def name(self, type_):
        module, _, name = super().name(type_).partition(".")
        return f"{module if module == 'term' else 'values'}.{name}"

    def text(self):
        """The module that says so, of today's rules too."""
        makers = self.makers | JavaScriptToday(self.classes).javascript_makers(self.makers)
        return MAKERS.format(makers="".join(f"  {rule}: {it},\n" for rule, it in sorted(makers.items())))


MAKERS = '''\
const {{
  Between, FOLLOWING, ITEMS, Kinds, Many, Maybe, One, Pieces, Through, Together, Variants, Within, tellMakers,
}} = require("../making.js");
const term = require("./term.js");
const today = require("./today.js");
const values = require("./values.js");

tellMakers({{
{makers}}});
'''

GRAMMAR = """\
/** The version of the library that has these rules: a byte each for its three numbers. */
const VERSION = {version};

/** The names of the rules, by their numbers. */
const RULES = Object.freeze([
{names}]);

/** The numbers of the rules, by their names. */
const NUMBERS = Object.freeze(Object.fromEntries(RULES.map((name, number) => [name, number])));

module.exports = {{ NUMBERS, RULES, VERSION }};
"""

# The roles of names.
def role_rows(text, function):
    """The rules that a function of roles tells apart, each with its role."""
    body = text.partition(f"fn {function}(")[2].partition("\n}")[0]
    found = re.findall(r"([A-Z_]+) => Some\(Role::(\w+)\)", body)
    if not found:
        raise Unfit(f"{ROLES} has no {function} with roles")
    return [(rule.lower(), role) for rule, role in found]


def roles(text):
    """The module of roles, and what is declared of it."""
    first = [row for name in FIRST_ROLES for row in role_rows(text, name)]
    tables = [("ROLES", "the rule that reads it", first),
              ("LATER", "that rule, where it has read a name before", role_rows(text, "of_later"))]
    code = "".join(
        f"/** What a name stands for, by {about}. */\nconst {name} = Object.freeze({{\n"
        + "".join(f"  {rule}: {string(role)},\n" for rule, role in rows) + "});\n\n"
        for name, about, rows in tables
    )
    body = text.partition("pub enum Role {")[2].partition("\n}")[0]
    docs = re.findall(r"((?: +/// .*\n)+) +(\w+),", body)
    declared = "".join(
        doc(" ".join(it.strip().removeprefix("/// ") for it in about.strip().split("\n")), "  ") + f"  | {string(name)}\n"
        for about, name in docs
    )
    declared = f"/** What a name stands for in a text. */\nexport type Role =\n{declared}".rstrip("\n") + ";\n"
    return f"{code}module.exports = {{ LATER, ROLES }};\n", declared


def texts():
    package = Package(Declared.of(TOP))
    classes = Classes(package)
    others = [it for name, all_ in package.modules.items() if name != "term" for it in all_]
    for name, about, declarations in (("term", ABOUT["term"], package.modules["term"]), ("values", VALUES, others)):
        pairs = [classes.texts(it) for it in declarations]
        names = [it.name for it, (code, _) in zip(declarations, pairs) if code]
        yield f"{name}.js", module(about, [code for code, _ in pairs if code], names)
        yield f"{name}.d.ts", declared_module(about, name, [declared for _, declared in pairs])
    own = [*JavaScriptToday(classes).triples()]
    yield "today.js", module(TODAY, [code for _, code, _ in own if code], [name for name, code, _ in own if code])
    yield "today.d.ts", declared_module(TODAY, "today", [declared for _, _, declared in own])
    yield "makers.js", module("Which class each rule makes.", [JavaScriptMakers(classes).text()])
    names = "".join(f"  {string(it.name.lower())},\n" for it in today.RULES)
    version = found_in(VERSION, (TOP / LIBRARY).read_text(encoding="utf-8"), LIBRARY)
    about = "The rules of the grammar. What each reads is in docs/GRAMMAR.md."
    yield "grammar.js", module(about, [GRAMMAR.format(version=version, names=names)])
    code, declared = roles((TOP / ROLES).read_text(encoding="utf-8"))
    yield "roles.js", module("What names stand for.", [code])
    yield "roles.d.ts", declared_module("What names stand for.", "roles", [declared])


def main():
    FOLDER.mkdir(parents=True, exist_ok=True)
    for name, text in texts():
        (FOLDER / name).write_text(text, encoding="utf-8")


if __name__ == "__main__":
    sys.exit(refuse_writer(__doc__))
