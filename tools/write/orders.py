"""Writes the laws of orders, from the declarations of the types whose `Ord` is derived.

A type's law is a function that does nothing when it runs. Its contract says of two values of the type
that `cmp` of a struct is the comparison of its fields in order, the first that differs deciding;
and that of an enum the value whose variant is declared first is less, and two of one variant
compare as what they hold.

They stand in weedle_comparisons: MODULES says which module of src/orders has the laws of which types, with
the places of variants in specs/Places.antt and, of the types that hold one another, proofs in
proofs/orders. tools/write/write_all.py runs the script.
"""

import re
import sys
from pathlib import Path

if not __package__:
    sys.path[0] = str(Path(__file__).resolve().parent.parent)

from description.docs import law as law_doc
from description.flat import flat_variants
from description.layout import COLUMNS, use_line
from description.names import logic
from description.readings import IDL, LEAVES, TYPES, Declared, lacking
from description.uses import ghost_line
from shared.command_line import refuse_writer
from shared.crates import TOP, Unfit
from shared.written_places import in_logic, put
from write.declared import FORMED, modules_of
from write.terminals import label

# The crate of the laws.
LAWS = "weedle_comparisons"
# Its modules, each with what it is about and the modules or crates that declare the types.
MODULES = {
    "parts": ("generic parts, names, docstrings and plain types", ["weedle_parts::common", "weedle_parts::types"]),
    "literals": ("literals and defaults", ["weedle_parts::literal"]),
    "modifiers": (
        "words before a member, and of what is inherited from",
        ["weedle_parts::inheritance", "weedle_parts::modifier"],
    ),
    "attributes": (
        "extended attributes and arguments",
        ["weedle_types::argument", "weedle_types::attribute"],
    ),
    "types": ("types", ["weedle_types::formers", "weedle_types::types"]),
    "members": ("constants, attributes, operations and stringifiers", ["weedle_members"]),
    "iterables": ("iterations, and of what is like a map or a set", ["weedle_iterables"]),
    "namespaces": ("namespaces and dictionaries, with their members", ["weedle_namespaces"]),
    "statements": ("definitions without members", ["weedle_statements"]),
    "interfaces": ("interfaces, with their members", ["weedle_interfaces"]),
    "mixins": ("mixins, with their members", ["weedle_mixins"]),
    "definitions": ("definitions", ["weedle_idl"]),
}
# The variants that the logic holds flat, each with how many parts it has there.
FLAT = flat_variants(Declared.of(TOP))
# The crate with formers and with the aliases by which a caller has them.
FORMERS = "weedle_types"
# The first of the types that lead back to themselves: the logic's views of all of them stand by it.
RING = "Rattle.weedle_types.specs.declared.argument.Argument"
HEAD = "Written by tools/orders.py, and not edited by hand."
TYPE_NAME = re.compile(r"\b[A-Z]\w*")
PRELUDE = ("Box", "Option", "Ord", "String", "Vec")


def cut(text):
    """The parts of a type's parameters, between the commas that no bracket holds."""
    parts, depth = [""], 0
    for c in text:
        depth += (c in "<(") - (c in ">)")
        if c == "," and not depth:
            parts.append("")
        else:
            parts[-1] += c
    return [part.strip() for part in parts if part.strip() not in ("", "'a")]


def in_clause(type_, aliases, inner=False):
    """A type as a clause has it of a variable: `MayBeNull<Long>` as `MayBeNull Long`."""
    name, _, over = type_.partition("<")
    over = over[:-1]
    if name in aliases:
        name, over = aliases[name]
    parts = [logic(name), *(in_clause(it, aliases, True) for it in cut(over))]
    return f"({' '.join(parts)})" if inner and parts[1:] else " ".join(parts)


def order(type_):
    """`cmp` of a type in a clause."""
    return f"{type_}.cmp" if re.fullmatch("[A-Z]", type_) else f"⟦<{type_} as Ord>⟧.cmp"


def whole_type(item):
    return item.name + (f"<{', '.join(item.over)}>" if item.over else "")


def comparison(type_, name, indent, before="", after=""):
    """A field's comparison, on two lines where it is too long for one."""
    line = f"{indent}{before}({order(type_)} a.{name} b.{name}){after}"
    if len(line) <= COLUMNS:
        return line
    return f"{indent}{before}({order(type_)}\n{indent}a.{name} b.{name}){after}"


def law_of_struct(item, aliases):
    """The clause that a struct is compared by its fields in order."""
    binder = in_clause(whole_type(item), aliases)
    head = f"    ensures {{ (a b : {binder})\n        → {order(whole_type(item))} a b\n"
    *first, (name, type_) = item.parts
    if not first:
        return f"{head}        ≡ {order(type_)} a.{name} b.{name} }}\n"
    lines = [
        comparison(it, field, " " * 8, f"{'(' if i else '≡ '}ordering_then ")
        for i, (field, it) in enumerate(first)
    ]
    lines.append(comparison(type_, name, " " * 8, after=")" * (len(first) - 1) + " }"))
    return head + "\n".join(lines) + "\n"


def clause(name, lines):
    """A clause, each of whose lines is cut before an arrow or a value where it is too long."""
    first, *more = [piece for line in lines for piece in cut_line(line)]
    return "\n".join([f"    ensures {name} {{ {first}", *(" " * 8 + line for line in more)]) + " }\n"


def cut_line(line):
    """A line of a clause, or its two parts where it is too long behind eight columns and with ` }`."""
    if len(line) <= COLUMNS - 10:
        return [line]
    for mark in (" → ", " ("):
        left, found, right = line.rpartition(mark)
        if left.lstrip("→ ") and found:
            return [left, found.strip() + " " * (mark == " → ") + right]
    return [line]


def made(item, variant):
    """A variant as a clause names it."""
    return f"{item.name}{'-' if item.is_former else '.'}{variant}"


def law_of_enum(item, aliases):
    """The clauses that an enum is compared by its variants, and then by what they hold."""
    cmp, place, out = order(whole_type(item)), item.place, ""
    binder = in_clause(whole_type(item), aliases)
    for name, one, other, answer in (("earlier", "a", "b", "Less"), ("later", "b", "a", "Greater")):
        premise = f"→ {place} {one} < {place} {other}"
        out += clause(name, [f"(a b : {binder})", premise, f"→ {cmp} a b ≡ Ordering.{answer}"])
    for variant, type_ in item.parts:
        this = made(item, variant)
        says = [f"(a b : {in_clause(type_, aliases)})", f"→ {cmp} ({this} a) ({this} b)"]
        out += clause(label(variant), [*says, f"≡ {order(type_)} a b"])
    return out


def law(item, aliases):
    over = [it if it == "'a" else f"{it}: Ord" for it in item.over]
    over = f"<{', '.join(over)}>" if over else ""
    clauses = law_of_enum(item, aliases) if item.is_enum else law_of_struct(item, aliases)
    how = "variants, and of one variant by what it holds" if item.is_enum else "fields, in order"
    doc = law_doc(f"`cmp` of `{item.name}` goes by its {how}.")
    return f"{doc}\npub fn {item.law}{over}()\n{clauses}{{}}\n"


def use_lines(items, aliases):
    """What the laws of these types name, brought in."""
    wanted = {}
    for item in items:
        types = [item.name, *(type_ for _, type_ in item.parts)]
        if item.is_enum:
            types += [in_clause(type_, aliases) for _, type_ in item.parts]
        for name in set(TYPE_NAME.findall(" ".join(types))) - set(PRELUDE) - set(item.over):
            if not name.endswith(FORMED):
                wanted.setdefault(path_of(item, name), set()).add(name)
    if any(item.is_enum for item in items):
        wanted.setdefault("std::cmp", set()).add("Ordering")
    return "".join(sorted(use_line(path, names) for path, names in wanted.items()))


def path_of(item, name):
    """The path of a type that a law names; a former's is that of its alias, with what it is given."""
    known = name in item.module.names or name in item.module.imported
    return item.module.path_of(name) if known else item.module.path


def ghost_lines(items, laws):
    """What the clauses of these laws name, brought in."""
    enums = [it for it in items if it.is_enum]
    lines = ghost_line("Rattle.std.specs.Prelude", ["◌≡◌", "◌<◌"] if enums else ["◌≡◌"])
    if "ordering_then" in laws:
        lines += ghost_line("Rattle.std.specs.Ordering", ["ordering_then"])
    if enums:
        lines += ghost_line(in_logic(f"{LAWS}.specs.Places"), [it.place for it in enums])
    for item in items:
        if item.is_former:
            lines += ghost_line(item.declared(), [f"{item.name} as {item.name}{FORMED}"])
        if item.is_former and item.is_enum:
            names = [f"{name} as {made(item, name)}" for name, _ in item.parts]
            lines += ghost_line(f"{item.declared()}.TheVariants", names)
    return lines


def laws_text(about, items, aliases):
    laws = "\n".join(law(item, aliases) for item in items)
    head = f"//! Orders of {about}.\n//!\n//! {HEAD}\n"
    return "\n".join([head, ghost_lines(items, laws), use_lines(items, aliases), laws])


def constructor(item, variant, parts=False):
    """A variant as specs/Places.antt has it, with its parts."""
    flat = FLAT.get(item.name, {}).get(variant) if item.leads_back else None
    name = f"{item.name}-{variant}" + "'" * bool(flat)
    return name + " _" * (flat or 1) if parts else name


def places_text(items):
    """The places of variants in their declarations."""
    uses, laws = ["use Rattle.std.specs.Prelude.{ℕ}"], []
    for item in items:
        names = [constructor(item, name) for name, _ in item.parts]
        variants = [f"{name.split('-')[1]} as {name}" for name in names]
        uses.append(f"use {item.declared()}.{{{logic(item.name)}}}")
        uses.append(f"use {item.declared()}.TheVariants.{{{', '.join(variants)}}}")
        over = "".join(f"{{{it} : Type 0}} → " for it in item.parameters)
        whole = " ".join([logic(item.name), *item.parameters])
        laws.append(f"\n-- `{item.name}`\nabbrev pub {item.place} : {over}{whole} → ℕ")
        for i, (name, _) in enumerate(item.parts):
            laws.append(f"{item.place} ({constructor(item, name, True)}) = {i}")
    head = "-- The place of each variant in its declaration, counted from 0. For a type that leads back to itself the variants\n-- are as the logic holds them, flat, with the parts of what they hold. " + HEAD
    return "\n".join([head, *uses, *laws]) + "\n"


def parts_of(k):
    """The k-th of the choices in which the logic sees an enum, of a value of its variant."""
    return f"{'inr (' * k}inl ({{}}, tt){')' * k}"


def enum_answers(item):
    """Why the clauses of an enum hold that leads back to itself."""
    parts, is_ = "(type.the_parts static_lft)", "order.is _ _"
    lines = [f"place_is : (x : {logic(item.name)}) → place_of {parts} (type.as_values static_lft x) ≡ {item.place} x",
             f"unfolding view.out-{item.name} denote.Hole.Carrier.out"]
    lines += [f"place_is ({constructor(item, name, True)}) = refl" for name, _ in item.parts]
    for name, lemma in (("earlier", "by_before"), ("later", "by_after")):
        goal = f"returns-clause-{name}"
        lines += ["", f"pub {goal} : goal.{goal}",
                  f"{goal} c a b h = {is_} ∙ {lemma} _ _ {parts} _ (type.as_values static_lft a) (type.as_values static_lft b) (rw (place_is a, place_is b) h)"]
    for k, (name, _) in enumerate(item.parts):
        goal, whole = f"returns-clause-{label(name)}", f"view.parts_whole-{item.name}"
        a, b = (f"({whole} ({parts_of(k).format(x)}))" for x in "ab")
        lines += ["", f"pub {goal} : goal.{goal}", f"{goal} c a b = {is_} ∙ by_same _ _ {parts} _ {a} {b}"]
    return lines


def answers_text(module, item):
    """The proof of the law of a type that leads back to itself."""
    own = item.module.dotted("contracts")
    uses = [f"use Rattle.{own}.{item.name}Ord.TheImpl.Laws as order"]
    if item.is_enum:
        names = [constructor(item, name) for name, _ in item.parts]
        variants = [f"{name.split('-')[1]} as {name}" for name in names]
        uses = [
            "use Rattle.std.proofs.Common.{◌≡◌, ◌∙◌, inl, inr, refl}", "use denote.Hole.Carrier",
            "use denote.Signature.{static_lft}",
            f"use Rattle.{own}.{logic(item.name)} as type", *uses, f"use {RING}.TheViews as view",
            f"use {item.declared()}.{{{logic(item.name)}}}",
            f"use {item.declared()}.TheVariants.{{{', '.join(variants)}}}",
            f"use {in_logic(f'{LAWS}.specs.Places')}.{{{item.place}}}",
            f"use Rattle.{LAWS}.proofs.Choices.{{by_after, by_before, by_same, place_of}}",
        ]
        lines = enum_answers(item)
    else:
        lines = ["pub returns : goal.returns", "returns c = order.is"]
    uses.append(f"use {in_logic(f'{LAWS}.proofs.orders.{module}.{item.law}')}.Goals as goal")
    return "\n".join([f"-- {HEAD}", *uses, "", *lines]) + "\n"


def files_of(root):
    """Each file that is written, by its path below crates/, with its text."""
    aliases = {}
    for module in modules_of(root, FORMERS):
        aliases.update(module.aliases())
    enums = []
    for module, (about, crates) in MODULES.items():
        items = [item for it in crates for one in modules_of(root, it) for item in one.items()]
        for item in items:
            if item.is_former:
                item.at(aliases[item.name][1])
            if item.leads_back:
                path = f"{LAWS}/proofs/orders/{module}/{item.law}/Answers.antt"
                yield path, answers_text(module, item)
        enums += [item for item in items if item.is_enum]
        yield f"{LAWS}/src/orders/{module}.rt", laws_text(about, items, aliases)
    yield f"{LAWS}/specs/Places.antt", places_text(enums)


def main(root=TOP):
    # The terminals have their laws by terminals.py.
    named = [it for _, crates in MODULES.values() for it in crates]
    if why := lacking([*LEAVES[1:], TYPES, *IDL], named):
        raise Unfit(f"{why}: MODULES says which modules have the laws")
    for path, text in files_of(root):
        put(root, path, text)


if __name__ == "__main__":
    sys.exit(refuse_writer(__doc__))
