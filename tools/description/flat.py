"""How many parts the logic holds of what stands in a variant of a type that leads back to itself.

Of such a type it holds a variant flat: in place of a struct its fields, where they lead back to the
type. A box is one part more than what it holds, and a list is two parts.
"""

from description.declarations import Type


def leads_back(declared, type_):
    """Whether a value of a type may hold one of the types that hold one another."""
    type_ = declared.expanded(type_)
    if any(leads_back(declared, it) for it in type_.arguments):
        return True
    declaration = declared.types.get(type_.name)
    if not declaration or declaration.is_recursive:
        return bool(declaration)
    return any(leads_back(declared, it.type) for it in declaration.parts if it.text)


def count(declared, type_):
    """The parts that the logic holds of a value of a type."""
    type_ = declared.expanded(type_)
    if type_.name == "Vec":
        return 2
    if type_.name == "Box":
        return 1 + count(declared, *type_.arguments)
    declaration = declared.types.get(type_.name)
    if not declaration or declaration.is_enum or not leads_back(declared, type_):
        return 1
    return sum(count(declared, part) for _, part in declared.parts_of(type_))


def flat_variants(declared):
    """The variants that are held flat, by their enums, each with the number of its parts."""
    found = {}
    for name, declaration in declared.types.items():
        if declaration.is_enum and declaration.is_recursive:
            held = [it for it in declared.parts_of(Type(name)) if leads_back(declared, it[1])]
            found[name] = {variant: count(declared, part) for variant, part in held}
    return found
