"""Writes how values of types, members and definitions are spelt, the proofs of it, and the laws.

tools/write/write_all.py runs it.

For each of FILES it writes the spellings in specs/, that what a rule takes is so spelt in proofs/, and the
functions that carry these laws in src/laws: those of types in weedle_spell, those of members and
definitions in weedle_spell_idl. A struct is spelt as its fields, one after another, an enum as what its
variant holds; fields and variants are those of the declarations, and so are the examples in the docs of
the functions. The types that hold one another are spelt in specs/RecursiveTypes.antt of weedle_spell, by
hand: of these only the laws are written.

It refuses where none of FILES has a type that is declared.
"""

import re
import sys
from pathlib import Path

if not __package__:
    sys.path[0] = str(Path(__file__).resolve().parent.parent)

from description.declarations import type_of
from description.docs import law as law_doc, small, with_example
from description.imports import STATED, Names
from description.layout import filled
from description.names import snake
from description.readings import CRATES, LEAVES as LEAF_CRATES
from shared.command_line import refuse_writer
from shared.crates import TOP
from shared.written_places import in_crate, in_logic, put
from write.proofs.idl_parts import DECLARED
from write.proofs.spelling_terms import WHOLE, Item, definition, proof
from write.proofs.spelt import HELPERS, function, is_made, type_text

HEAD = "Written by tools/spellings.py, and not edited by hand."
COLUMNS = 110
SPELL, SPELL_IDL = "weedle_spell", "weedle_spell_idl"
# The module of the types that are made over one, each under the name of a `type`.
FORMERS = "formers"
STANDARD = {
    "Rattle.std.specs.Global": ["Box", "Vec"],
    "Rattle.std.specs.Prelude": ["List", "Option", "codes"],
    f"Rattle.{SPELL}.specs.Forms": ["◌then◌"],
}


class File:
    """Spellings that stand in one file: its name, what it holds, and its types, or their modules."""

    def __init__(self, name, spelt, of_what, types="", modules="", law_module=None):
        self.name, self.spelt, self.of_what = name, spelt, of_what
        self.types = [type_of(text) for text in types.split()]
        self.modules = modules.split()
        self.laws, self.law_module = f"{name[:-1]}Laws", law_module or snake(name)
        self.crate = SPELL if types else SPELL_IDL

    def declared(self):
        """The types of the file's modules; of those that a `type` names the lists, and what is over a type."""
        for it in [*DECLARED.types.values(), *DECLARED.aliases.values()]:
            target = it.parts[0].type if it.parts and it.kind == "type" else None
            is_alias = target and (is_made(target) or target.module == FORMERS)
            if {it.crate, f"{it.crate}.{it.module}"} & set(self.modules) and (is_alias or it.kind != "type"):
                yield type_of(it.name)


FILES = [
    File("PlainAttributes", "extended attributes without arguments are rendered",
         "extended attributes without arguments",
         types="IdentifierOrString IdentifierList ExtendedAttributeIdent ExtendedAttributeIdentList"
               " ExtendedAttributeNoArgs"),
    File("Arguments", "extended attributes and arguments are rendered",
         "arguments, and of extended attributes that may have arguments", law_module="attributes",
         types="Argument ArgumentList ParenthesizedArgumentList ExtendedAttribute ExtendedAttributeArgList"
               " ExtendedAttributeNamedArgList ExtendedAttributeList Option<ExtendedAttributeList>"
               " SingleArgument VariadicArgument"),
    File("Types", "the types are rendered that are made of types, arguments and extended attributes",
         "types",
         types="Type NonAnyType UnionMemberType SingleType ReturnType RecordKeyType RecordTypes Box<Type>"
               " Box<ReturnType> SequenceType FrozenArrayType PromiseType RecordType UnionType AttributedType"
               " AttributedNonAnyType", modules="weedle_types.types"),
    File("Modifiers", "what is inherited from is rendered, and the words before a member",
         "what is inherited from, and of the words before a member", modules="weedle_parts.inheritance weedle_parts.modifier"),
    File("Members",
         "constants, attributes, operations, constructors and stringifiers of interfaces are rendered, and the"
         " members of mixins",
         "constants, attributes, operations, constructors and stringifiers of interfaces, and of the members"
         " of mixins", modules="weedle_members weedle_mixins.mixin"),
    File("Iterables", "iterations, maps and sets are rendered", "iterations, maps and sets",
         modules="weedle_iterables"),
    File("Namespaces", "namespaces and dictionaries are rendered, and their members",
         "namespaces and dictionaries, and of their members", modules="weedle_namespaces"),
    File("Statements", "definitions without members are rendered", "definitions without members",
         modules="weedle_statements"),
    File("Interfaces", "the members of interfaces are rendered, interfaces and mixins",
         "the members of interfaces, of interfaces and of mixins",
         modules="weedle_interfaces weedle_mixins.mixin_definition"),
    File("Definitions", "definitions are rendered", "definitions", modules="weedle_idl",
         law_module="all_definitions"),
]


def items_of(file, done):
    """What is written of a file's types; of those of modules each behind what it is made of.

    Where a file names types and has modules too, those of the modules follow that no file names.
    """
    named = {function(it) for other in FILES for it in other.types}
    types = file.types + [it for it in file.declared() if function(it) not in named]
    mine, found = {function(it) for it in types}, []

    def add(type_):
        if function(type_) in done:
            return
        done.add(function(type_))
        item = Item(type_)
        for used in [] if file.types else item.needs():
            if function(used) in mine or DECLARED.rule_of(used) in HELPERS:
                add(used)
        found.append(item)

    for type_ in types:
        add(type_)
    return found


def clauses(name, said):
    """The clauses of a definition, each in one line where it fits."""
    text = ""
    for pattern, pieces in said:
        front = " ".join(filter(None, [name, pattern, "="]))
        line = f"{front} {' '.join(pieces)}"
        text += f"{line}\n" if len(line) <= COLUMNS else f"{front}\n{filled(pieces, '    ', columns=COLUMNS)}"
    return text


def spelling(item, known):
    type_ = type_text(item.type)
    if item.type.name == WHOLE:
        type_ = type_.replace("Vec", "List")
    text = clauses(item.name, definition(item, known))
    known.add(item.name)
    return f"-- {item.about}\nabbrev pub {item.name} : {type_} → Form\n{text}"


def spelt(item, stated, known):
    """The proof that what a type's rule takes spells the value that it gives."""
    said = f"IsSpelt {item.rule} {item.tree(stated)} {item.name}"
    return f"pub {item.fact} : {said}\n{clauses(item.fact, proof(item, known))}"


def contract(item, stated):
    return f"SpellsValues {item.rule} {item.tree(stated)} {item.name}"


def law(item, stated):
    name = f"{item.base}_law"
    return f"pub {name} : {contract(item, stated)}\n{name} = loose {item.fact}\n"


def law_function(item, stated, module):
    said = small(with_example(item.doc).removesuffix("."))
    comma = "," if ", as `" in said else ""
    doc = law_doc(f"the text of {said}{comma} is a rendering of its value.")
    return (f"{doc}\n#[tactic(auto, using({in_crate(module)}::{item.base}_law))]\npub fn {item.fact}()\n"
            f"    ensures {{ {contract(item, stated)} }}\n{{}}\n")


def imports(names, body, items=()):
    """The lines `use` for what a body names outside its texts."""
    return names.uses(re.sub(r'"[^"]*"', '""', body), [it.variants for it in items if it.is_enum])


def ghost(line):
    """A line `use` of the logic in Rattle, one name a line where they don't fit."""
    if len(f"ghost {line};") <= 100:
        return f"ghost {line};\n"
    module, names = re.fullmatch(r"(.*\.)\{(.*)\}", line).groups()
    rows = "".join(f"  {name},\n" for name in names.split(", "))
    return f"ghost {module}{{\n{rows}}};\n"


def head_of(said, prefix):
    """What stands at the head of a file; the script's name stays in one line."""
    return filled([*said.split(), HEAD], "", prefix)


class Writer:
    """Writes the files, in their order: each may name what stands in those before it."""

    def __init__(self):
        crates = [SPELL, "weedle_grammar", "weedle_base", *CRATES]
        self.specs = Names(TOP, crates, STANDARD, bound=[WHOLE.lower()])
        self.proofs = Names(TOP, crates, {"Rattle.std.proofs.Common": ["refl"]})
        self.done = set()

    def put_logic(self, module, head, uses, body):
        put(TOP, f"{module.replace('.', '/')}.antt", head + "\n".join(uses) + "\n\n" + body)
        stated = dict.fromkeys(STATED.findall(body), in_logic(module))
        self.proofs.stated.update(stated)
        if ".specs." in module:
            self.specs.stated.update(stated)

    def file(self, file):
        items = items_of(file, self.done)
        # What is spelt by hand has a law alone.
        own = [it for it in items if it.name not in self.specs.stated]
        known = set(self.specs.stated)
        body = "\n".join(spelling(it, known) for it in own)
        module = f"{file.crate}.specs.{file.name}"
        self.put_logic(module, head_of(f"How {file.spelt}.", "-- "), imports(self.specs, body, own), body)
        self.laws(file, items, own)

    def laws(self, file, items, own):
        stated, known = self.proofs.stated, set(self.specs.stated)
        with_law = [it for it in items if it.has_law]
        texts = [spelt(it, stated, known) for it in own if not it.is_box]
        body = "\n".join([*texts, "-- the laws\n" + "\n".join(law(it, stated) for it in with_law)])
        uses, said = imports(self.proofs, body, own), f"The laws of {file.of_what}."
        module = f"{file.crate}.proofs.{file.laws}"
        self.put_logic(module, head_of(said, "-- "), uses, body)
        ghosts = map(ghost, imports(self.proofs, "\n".join(contract(it, stated) for it in with_law)))
        functions = "\n".join(law_function(it, stated, module) for it in with_law)
        put(TOP, f"{file.crate}/src/laws/{file.law_module}.rt",
            f"{head_of(said, '//! ')}\n{''.join(ghosts)}\n{functions}")


def unwritten(done):
    """The declared types that none of the files has; those of LEAF_CRATES are spelt by hand."""
    for name, it in DECLARED.types.items():
        if it.home not in LEAF_CRATES and function(type_of(name)) not in done:
            yield name


def main():
    writer = Writer()
    for file in FILES:
        writer.file(file)
    if names := list(unwritten(writer.done)):
        sys.exit(f"no file of FILES has {', '.join(names)}")


if __name__ == "__main__":
    sys.exit(refuse_writer(__doc__))
