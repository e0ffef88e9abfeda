"""Writes the modules of the Python package that hold the grammar's rules and its values' classes.

tools/write/write_all.py runs it. It writes below python/weedle
    grammar.py      the names of the rules, by their numbers, and the version of the library
    term.py         a class for each terminal
    common.py ..    the other types that the crates declare, module by module as weedle2 has them
    today.py        the types of today's tree that weedle2 hasn't, by python_today.py
    _readers.py     which class each rule makes

Types, fields and variants have weedle2's names, as tools/measure/compare_with_weedle2.py has them, and
the docs of the crates. What a rule reads is taken from the declarations by description.readings.
"""

import re
import sys
from pathlib import Path
from textwrap import wrap

if not __package__:
    sys.path[0] = str(Path(__file__).resolve().parent.parent)

from description import today
from description.declarations import Type
from description.following import NAME_BEFORE, read_behind, texts_of
from description.names import upper
from description.readings import Declared
from description.webidl import BY_NAME, RULES, parts_of
from shared.command_line import refuse_writer
from shared.crates import TOP
from write.c_header import VERSION, found_in
from write.python_today import Today
from write.python_text import (
    annotation_of, class_head, comment, constructor, docstring, field, method, module_text, python_name, quoted_items, split,
    union_of, words_of,
)

PACKAGE = TOP / "python/weedle"
# Where the version of the library stands.
LIBRARY = "crates/weedle_c/src/lib.rt"
# The module of weedle2 for the types of a crate, or of a module of it.
MODULES = {
    "weedle_base.term": "term", "weedle_parts.common": "common", "weedle_parts.types": "types",
    "weedle_parts.literal.default": "common", "weedle_parts.literal": "literal",
    "weedle_types.argument": "argument", "weedle_types.attribute": "attribute",
    "weedle_types": "types", "weedle_parts.inheritance": "interface",
    "weedle_parts.modifier": "interface", "weedle_members": "interface",
    "weedle_iterables": "interface", "weedle_interfaces.member": "interface",
    "weedle_interfaces.members": "interface",
    "weedle_mixins.mixin": "mixin", "weedle_namespaces.namespace": "namespace",
    "weedle_namespaces.dictionary": "dictionary",
}
ABOUT = {
    "term": "Terminals: the words and signs of the grammar.",
    "common": "Parts that are anywhere in the grammar: brackets, lists, names and docstrings.",
    "literal": "Literals.",
    "types": "Types.",
    "argument": "Arguments.",
    "attribute": "Extended attributes.",
    "interface": "Members of interfaces.",
    "mixin": "Members of mixins.",
    "namespace": "Members of namespaces.",
    "dictionary": "Members of dictionaries.",
    "definitions": "Definitions.",
}
TODAY = """Today's tree: the types that weedle2's hasn't. What both have is in the other modules.

>>> import weedle
>>> (definition,) = weedle.parse("[Exposed=*] interface A {};", dialect="today")
>>> isinstance(definition, weedle.today.Definition.Interface)
True
>>> definition.value.attributes[0].body[0].value
ExtendedAttributeWildcard(identifier=Identifier('Exposed'))"""
# What weedle2 has otherwise: a part of parentheses, and a tuple.
PARENTHESIZED, TUPLE = "ParenthesizedArgumentList", "RecordTypes"
VARIANTS, FIELDS = {"Type_": "Type"}, {"record_": "record"}
# What stands behind the only field of a tuple struct, by the class that makes it.
LEAVES = {
    "Identifier": "Name", "Docstring": "Lines", "BooleanLit": "Truth", "StringLit": "Quoted",
    "DecLit": "Whole", "HexLit": "Whole", "OctLit": "Whole", "FloatValueLit": "Decimal",
}
BASES = {"HexLit": 16, "OctLit": 8}
# The base of an enum that is more than one of several.
CHOICES = {"IntegerLit": "WholeChoice", "FloatLit": "DecimalChoice", "ReturnType": "Result"}
# The struct whose last part, a default that may only follow `optional`, can have no node.
LACKING = "SingleArgument"
# The list of all definitions of a text, which is a class of its own.
WHOLE = "Definitions"
LISTS = ("Punctuated", "PunctuatedNonEmpty")


def module_of(declaration):
    """The module of a declaration in Python."""
    names = [declaration.crate, *declaration.module.split(".")]
    while names and ".".join(names) not in MODULES:
        names.pop()
    return MODULES[".".join(names)] if names else "definitions"


class Package:
    """The types that are written, with the module of each."""

    def __init__(self, declared):
        self.declared = declared
        self.modules = {name: [] for name in ABOUT}
        for it in [*declared.types.values(), *declared.aliases.values()]:
            if it.name not in (PARENTHESIZED, TUPLE) and it.module != "formers":
                self.modules[module_of(it)].append(it)
        self.module = {it.name: name for name, all_ in self.modules.items() for it in all_}

    def is_terminal(self, type_):
        """Whether values of a type are all spelled the same."""
        if type_.name in ("()", "Box"):
            return all(map(self.is_terminal, type_.arguments))
        return self.module.get(type_.name) == "term"

    def annotation(self, type_):
        return annotation_of(self.declared, self.module, type_)

    def parts(self, declaration):
        """The parts of a declaration, or of the one that it is an alias of."""
        former = self.former(declaration)
        docs = [it.doc for it in (former or declaration).parts]
        pairs = self.declared.parts_of(Type(declaration.name))
        return [(name, type_, doc) for (name, type_), doc in zip(pairs, docs)]

    def former(self, declaration):
        """What an alias stands for, where that is a type of one use."""
        if declaration.kind != "type":
            return None
        found = self.declared.types.get(declaration.parts[0].type.name)
        return found if found and found.module == "formers" else None


def class_text(package, declaration):
    """The class of a declaration, with those of its variants."""
    former = package.former(declaration)
    if package.module[declaration.name] == "term":
        name = python_name(declaration.name)
        head = class_head(name, "Terminal", declaration.doc, is_dataclass=False)
        return f'{head}\n    _spelled = "{texts_of(RULES)[upper(declaration.name)]}"\n'
    if declaration.name == WHOLE:
        return class_head(WHOLE, 'Listing["Definition.Variants"]', declaration.doc, is_dataclass=False)
    if declaration.kind == "type" and not former:
        return alias_text(package, declaration)
    if (former or declaration).is_enum:
        return enum_text(package, declaration)
    if declaration.name in LISTS:
        return list_text(declaration)
    if [it.name for it in (former or declaration).parts] == ["0"]:
        return leaf_text(package, declaration)
    return struct_text(package, declaration)


def alias_text(package, declaration):
    text = package.annotation(declaration.parts[0].type)
    quoted = re.sub(r"^(\w+)\[(.*)\]$", lambda it: f'{it[1]}[{quoted_items(it[2])}]', text)
    return f"{comment(declaration.doc, '')}{declaration.name} = {quoted}\n"


def struct_text(package, declaration):
    base = "Value, Generic[T]" if declaration.parameters else "Value"
    rows, renamed, given = [], {}, {}
    for name, type_, doc in package.parts(declaration):
        shown, annotation = FIELDS.get(name, name), package.annotation(type_)
        if shown != name:
            renamed[shown] = name
        if not package.is_terminal(type_):
            given[shown] = annotation
        rows.append(field(shown, annotation, "part" if shown in given else "word", doc))
    if renamed:
        rows.append(f"    _renamed: ClassVar[Dict[str, str]] = {renamed!r}\n".replace("'", '"'))
    if declaration.name == LACKING:
        rows.append("    _is_whole = False\n")
    rows.append(constructor(given))
    return class_head(declaration.name, base, declaration.doc) + "\n" + "".join(rows)


def list_text(declaration):
    """The class of a list with separators, whose items are found by the base."""
    head = class_head(declaration.name, "Listed[T, S]", declaration.doc, is_dataclass=False)
    if declaration.name == "PunctuatedNonEmpty":
        head += '\n    _fronts = ("", None)\n'
        head += "\n    def _listing(self) -> int:\n        return self._tree.children(self._node)[0]\n"
    return head


def leaf_text(package, declaration):
    """The class of what has one part without a name."""
    ((_, type_, _),) = package.parts(declaration)
    if type_.name in package.module:
        head = class_head(declaration.name, "Wrapped", declaration.doc)
        annotation = package.annotation(type_)
        head += "\n" + field("value", annotation, "part", declaration.parts[0].doc or declaration.doc)
        return head + method("__init__", [f"value: {annotation}"], "self._hold(value)")
    base = LEAVES.get(declaration.name, "Leaf")
    head = class_head(declaration.name, base, declaration.doc, is_dataclass=False)
    shape = BY_NAME[upper(declaration.name)].shape
    kept = re.fullmatch(r"Kept (\d)", shape)
    rows = f"    _kept = {kept[1]}\n" if kept else ""
    rows += f"    _base = {BASES[declaration.name]}\n" if declaration.name in BASES else ""
    return f"{head}\n{rows}" if rows else head


def enum_text(package, declaration):
    """The class of an enum, and one for each of its variants."""
    parts = package.parts(declaration)
    names = [VARIANTS.get(name, name) for name, _, _ in parts]
    rows = [f'        {it}: TypeAlias = "{declaration.name}_{it}"\n' for it in names]
    rows.append(f"        Variants: TypeAlias = (\n{union_of(declaration.name, names)}        )\n")
    base = CHOICES.get(declaration.name, "Choice")
    head = class_head(declaration.name, base, declaration.doc, is_dataclass=False)
    classes = [head + "\n    if TYPE_CHECKING:\n" + "".join(rows)]
    for shown, (name, type_, doc) in zip(names, parts):
        words = f'{declaration.name}, variant="{shown}"'
        words += f', in_json="{name}"' if shown != name else ""
        text = class_head(f"{declaration.name}_{shown}", words, doc, is_dataclass=False)
        annotation = package.annotation(type_)
        text += f"\n    value: {annotation}\n"
        classes.append(text + method("__init__", [f"value: {annotation}"], "self._hold(value)"))
    return "\n\n".join(classes)


# Which class a rule makes.
class Makers:
    """What each rule of weedle2's makes, found from the type of all definitions on."""

    # What stands before the call of a class.
    NEW = ""

    def __init__(self, package):
        self.package, self.declared = package, package.declared
        self.makers, self.separators = {}, {}
        waiting = [Type("Definitions")]
        while waiting:
            type_ = self.declared.whole(waiting.pop())
            rule = self.declared.rule_of(type_).lower()
            if type_.name == "Box":
                waiting += type_.arguments
            elif rule not in self.makers:
                self.makers[rule] = self.maker(type_, rule)
                waiting += self.below(type_)

    def below(self, type_):
        """The types of the parts of a type, as far as rules read them."""
        if type_.name in ("Option", "Vec", "()", *LISTS):
            return type_.arguments
        parts = [part for _, part in self.declared.parts_of(type_)]
        return [it for it in parts if it.name not in ("&", "String", "bool")]

    def name(self, type_):
        name = "Parenthesized" if type_.name == PARENTHESIZED else type_.name
        module = self.package.module[name]
        return f"{module}.{name}"

    def maker(self, type_, rule):
        if type_.name in ("Option", "Vec", "()", TUPLE):
            names = {"Option": "Maybe()", "Vec": "Many()", "()": "Together()"}
            return self.NEW + names.get(type_.name, f'Together("{TUPLE}")')
        if type_.name in LISTS:
            self.add_parts(BY_NAME[rule.upper()].row)
            return self.listed(type_, rule)
        declaration = self.declared.types[type_.name]
        return self.chosen(type_) if declaration.is_enum else self.name(type_)

    def listed(self, type_, rule):
        self.separators[rule] = self.name(type_.arguments[1])
        return self.name(type_)

    def add_parts(self, row):
        """Adds the rules of which a list with separators is made."""
        if row[0] == "Seq":
            self.makers[row[1][0].lower()] = f"{self.NEW}Between(ITEMS)"
            row = BY_NAME[row[1][0]].row
        self.makers[row[2].lower()] = f"{self.NEW}Between(FOLLOWING)"

    def chosen(self, type_):
        rows = []
        for name, part in self.declared.parts_of(type_):
            rule = self.declared.rule_of(part).lower()
            rows.append(f'        "{rule}": {self.name(type_)}.{VARIANTS.get(name, name)},\n')
        return "Variants({\n" + "".join(rows) + "    })"

    def text(self):
        """The module that says so, of today's rules too."""
        makers, separators = Today(self.package).makers(self.makers)
        lines, pairs = (
            [f'    "{rule}": {it},\n' for rule, it in sorted(all_.items())]
            for all_ in ({**self.makers, **makers}, {**self.separators, **separators})
        )
        used = re.findall(r"[ (](\w+)\.", "".join([*lines, *pairs]))
        return READERS.format(
            modules=",\n    ".join(wrap(", ".join(sorted(set(used))), 80)).replace(",,", ","),
            makers="".join(lines), separators="".join(pairs),
        )


READERS = '''\
"""Which class each rule makes.

Written by tools/write/python_types.py, and not edited by hand.
"""

from weedle import (
    {modules},
)
from weedle._making import (
    Between, Kinds, Many, Maybe, Pieces, Through, Together, Variants, Within, fill,
)
from weedle._writing import FOLLOWING, ITEMS
from weedle.grammar import NUMBERS, RULES

MAKERS = {{
{makers}}}

SEPARATORS = {{
{separators}}}

fill([MAKERS.get(name) for name in RULES], {{NUMBERS[name]: it for name, it in SEPARATORS.items()}})
'''

GRAMMAR = '''\
"""The rules of the grammar. What each reads is in docs/GRAMMAR.md.

Written by tools/write/python_types.py, and not edited by hand.
"""

#: The version of the library that has these rules: a byte each for its three numbers.
VERSION = {version}

#: The names of the rules, by their numbers.
RULES = (
{names})

#: The numbers of the rules, by their names.
NUMBERS = {{name: number for number, name in enumerate(RULES)}}

#: The words of the grammar that have the letters of a name.
KEYWORDS = frozenset(
{keywords})

#: Which of them are read behind which word, where a name could be too. The word is `{before}` for any
#: name.
READ_BEHIND = {{
{behind}}}

#: The words of today's grammar that have the letters of a name.
TODAY_KEYWORDS = frozenset(
{today_keywords})

#: Which of them are read behind which word.
TODAY_READ_BEHIND = {{
{today_behind}}}
'''


def texts():
    package = Package(Declared.of(TOP))
    for name, declarations in package.modules.items():
        classes = [class_text(package, it) for it in declarations]
        yield name, module_text(ABOUT[name], classes, package.module)
    yield "today", module_text(TODAY, list(Today(package).classes()), package.module)
    yield "_readers", Makers(package).text()
    names = "".join(f'    "{it.name.lower()}",\n' for it in today.RULES)
    version = found_in(VERSION, (TOP / LIBRARY).read_text(encoding="utf-8"), LIBRARY)
    known = reached(today.RULES, "TODAY_DEFINITIONS")
    yield "grammar", GRAMMAR.format(
        version=version, names=names, keywords=split(keywords(RULES)), behind=behind_text(RULES), before=NAME_BEFORE,
        today_keywords=split(keywords(known)), today_behind=behind_text(known),
    )


def behind_text(rules):
    """The rows that say which words are read behind which word."""
    return "".join(f'    "{word}": {words_of(it)},\n' for word, it in read_behind(rules).items())


def reached(rules, start):
    """The rules that are read from one on, in their order."""
    by_name, found, waiting = {it.name: it for it in rules}, set(), [start]
    while waiting:
        name = waiting.pop()
        if name not in found:
            found.add(name)
            waiting += parts_of(by_name[name].row)
    return [it for it in rules if it.name in found]


def keywords(rules):
    """The words of some rules that have the letters of a name."""
    words = {it.row[1] for it in rules if it.row[0] == "Bytes"}
    return sorted(it for it in words if it[:1].isalpha())


def main():
    PACKAGE.mkdir(parents=True, exist_ok=True)
    for name, text in texts():
        (PACKAGE / f"{name}.py").write_text(text, encoding="utf-8")


if __name__ == "__main__":
    sys.exit(refuse_writer(__doc__))
