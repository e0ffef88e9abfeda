"""How the fields of members and definitions are read, and which types have their proofs in which file.

The types of a module have their proofs in one file, which has the module's name, as AttributeRules of
`attribute`. What it says that it is about is the first line of the module's docs, and what is said of
a type the front of the type's doc; where something else is said, that stands in APART and ABOUT.
"""

import re

from description.docs import about
from description.imports import home_of
from description.names import snake, upper
from description.readings import IDL as CRATES, Declared
from description.webidl import NUMBER
from shared.crates import TOP

GROWS = "(Unit {0})"
TREE_NAMES = {"StringLit": "string_tree", "ParenthesizedArgumentList": "arguments_tree"}
# The rules whose readings, facts and trees are written by hand, with their names and types.
SHARED = {
    "OPT_EXTENDED_ATTRIBUTE_LIST": ("attributes", "Attributes"),
    "GENERICS_ATTRIBUTED_TYPE": ("one_type", "OneType"),
    "GENERICS_KEY_AND_VALUE_TYPES": ("two_types", "TwoTypes"),
    "ASYNC_ITERABLE": ("async_iterable", "AsyncIterable"),
    "OPT_PARENTHESIZED_ARGUMENT_LIST": ("optional_arguments", "(Option ParenthesizedArgumentList)"),
    "BRACED_ENUM_VALUE_LIST": ("enum_values", "EnumValues"),
}
# What is read by a function of its own.
ALONE = ("attributes_reading", "async_iterable_reading", "optional_arguments_reading", "enum_values_reading")
# The structs that are read by one call of `weedle_types::fields`: how many fields there are up to the extended
# attributes, and behind them.
BY_ONE_CALL = ((1, 3), (1, 4), (1, 5), (1, 6), (2, 4), (2, 5), (2, 6))
# A function that reads a few variants, with the enum and the number of the first.
PIECE = re.compile(
    r"^fn (\w+)<'a>\(alloc: Global, input: &'a str\) -> IResult<&'a str, (\w+)<'a>>\n"
    r"    ensures \{ Answers \(members \1_rules (\d+) ", re.M,
)
# Types that have a file of their own, with what its head says.
APART = {
    "EnumVariant": ("EnumVariantRules", "The values of enums."),
    "EnumDefinition": ("EnumRules", "Enums."),
}
# What is said otherwise than the docs say it: of modules, and of types.
ABOUT = {
    "weedle_parts.inheritance": "What interfaces and dictionaries inherit from.",
    "weedle_parts.modifier": "The words that may stand before a member.",
    "weedle_members.stringifier": "Stringifiers.",
    "weedle_interfaces.member": "Members of interfaces.",
    "weedle_interfaces.definition": "Interfaces.",
    "weedle_mixins.mixin": "Members of mixins.",
    "weedle_namespaces.namespace": "Members of namespaces.",
    "weedle_namespaces.dictionary": "Members of dictionaries.",
    "weedle_namespaces.namespace_definition": "Namespaces.",
    "weedle_namespaces.dictionary_definition": "Dictionaries.",
    "Inheritance": "a colon and a name",
    "Special": "one of four words",
    "StringifierOrInheritOrStatic": "one of three words",
    "StringifierOrStatic": "one of two words",
    "AttributeInterfaceMember": "an attribute",
    "OperationInterfaceMember": "an operation",
    "SingleTypedIterable": "one type",
    "DoubleTypedIterable": "two types",
    "IterableInterfaceMember": "either",
    "SingleTypedAsyncIterable": "one type",
    "DoubleTypedAsyncIterable": "two types",
    "AsyncIterableInterfaceMember": "either",
    "StringifierMember": "a stringifier",
    "InterfaceMember": "any of them",
    "OperationMixinMember": "an operation",
    "AttributeMixinMember": "an attribute",
    "MixinMember": "any of them",
    "OperationNamespaceMember": "an operation",
    "AttributeNamespaceMember": "an attribute",
    "NamespaceMember": "either",
    "DictionaryMember": "a member",
    "EnumVariant": "a value",
    "IncludesStatementDefinition": "the use of a mixin",
    "ImplementsDefinition": "the older form",
    "Definition": "any of them",
}
DECLARED = Declared.of(TOP)


def tree_name(name):
    return TREE_NAMES.get(name, f"{snake(name)}_tree")


class Part:
    """How a field is read: its type, its reading, that this is a rule's, and its tree."""

    def __init__(self, type_, reading, rule, tree):
        self.type, self.reading, self.rule, self.tree = type_, reading, rule, tree

    def tree_of(self, value):
        tree = self.tree[1:-1] if self.tree.startswith("(") else self.tree
        return "Mark" if tree == "mark_tree" else f"{tree} {value}"


def word(name, keep):
    rule = upper(name)
    return Part(name, f"(mark {rule})", f"({'mark_rule' if keep else 'word'} {rule})", "mark_tree")


def own(type_):
    rule, tree = upper(type_.name), tree_name(type_.name)
    fact = f"{rule} {tree} {GROWS}"
    return Part(DECLARED.logic_type(type_), f"(own {fact})", f"(own_rule {fact})", tree)


def still(name, keep):
    """A part that takes no memory."""
    tree = tree_name(name)
    fact = f"(own_rule {upper(name)} {tree} ⊥)"
    return Part(name, f"(own {upper(name)} {tree} ⊥)", fact if keep else f"(still_rule {fact})", tree)


def perhaps(rule, item):
    """A part that may be absent."""
    part = part_of(item, True)
    fact = f"({'perhaps' if DECLARED.is_copied(item) else 'option_rule'} {part.rule} {rule} refl refl)"
    return Part(f"(Option {part.type})", f"(option_reading {part.reading})", fact, f"(option_tree {part.tree})")


def items(rule, item):
    """The members of something, one after another."""
    part = own(item)
    fact = f"(members_rule {part.rule} {rule} refl refl)"
    return Part(f"(Vec {part.type})", f"(members_reading {part.reading})", fact, f"(members_tree {part.tree})")


def braced(rule, body):
    """What stands between braces, in the generic part."""
    part = part_of(body, False)
    fact = f"(braced_rule {part.rule} {rule} refl refl)"
    return Part(f"(Braced {part.type})", f"(braced_reading {part.reading})", fact, f"(braced_tree {part.tree})")


def part_of(type_, keep):
    """How a type is read; `keep` says that what it is a part of takes no memory either."""
    rule, whole = DECLARED.rule_of(type_), DECLARED.expanded(type_)
    if rule in SHARED:
        name, shown = SHARED[rule]
        return Part(shown, f"{name}_reading", f"{name}_rule", f"{name}_tree")
    if whole.name == "Option":
        return perhaps(rule, *whole.arguments)
    if whole.name == "Vec":
        return items(rule, *whole.arguments)
    if whole.name == "Braced":
        return braced(rule, *whole.arguments)
    if not DECLARED.is_copied(type_):
        return own(type_)
    return still(whole.name, keep) if DECLARED.types[whole.name].parts else word(whole.name, keep)


class Proved:
    """A struct or an enum: its name, what its proofs say that it is, and its fields or variants."""

    def __init__(self, declaration, text):
        self.name, self.is_enum = declaration.name, declaration.is_enum
        self.about = ABOUT.get(self.name) or about(declaration.doc)
        self.grows = "⊥" if declaration.is_copied else GROWS
        self.home, self.pieces = home_of(declaration), pieces_of(declaration, text)
        self.parts = [(it.name, part_of(it.type, declaration.is_copied)) for it in declaration.parts]

    def has_calls(self):
        """Whether the `parse` of a struct makes several calls: where not, it reads all its fields by one."""
        names = [name for name, _ in self.parts]
        alone = [k for k, (name, part) in enumerate(self.parts)
                 if part.reading in ALONE or name == "docstring" and names[1] == "attributes"]
        last = max(alone, default=-1)
        is_attributes = last >= 0 and names[last] == "attributes"
        return last >= 0 and not (is_attributes and (last + 1, len(names) - last - 1) in BY_ONE_CALL)


def pieces_of(declaration, text):
    """The functions of a module that read a few variants of an enum each, as a name and how many.

    Where the search for a proof can't go through all variants, they are read so. The contract of
    such a function says which is its first; the others follow up to the first of the next.
    """
    if not declaration.is_enum:
        return []
    found = [(name, int(first)) for name, type_, first in PIECE.findall(text) if type_ == declaration.name]
    ends = [first for _, first in found[1:]] + [len(declaration.parts)]
    return [(name, end - first) for (name, first), end in zip(found, ends)]


class File:
    """The proofs of some types of a module of a crate."""

    def __init__(self, name, head, declarations, text):
        self.name, self.about = name, head
        self.crate, self.module = declarations[0].crate, declarations[0].module
        in_order = sorted(declarations, key=lambda it: NUMBER[upper(it.name)])
        self.types = [Proved(it, text) for it in in_order]


def files():
    """The files of all modules that declare members or definitions, or words before them."""
    found = {}
    for it in DECLARED.types.values():
        if it.home in CRATES:
            found.setdefault((it.crate, it.module, APART.get(it.name)), []).append(it)
    for (crate, module, apart), declarations in found.items():
        text = (TOP / "crates" / crate / "src" / f"{module}.rt").read_text(encoding="utf-8")
        name = f"{''.join(word.capitalize() for word in module.split('_'))}Rules"
        head = ABOUT.get(f"{crate}.{module}") or text.partition("\n")[0].removeprefix("//! ")
        yield File(*(apart or (name, head)), declarations, text)

