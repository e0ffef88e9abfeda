"""Which rule of the grammar reads a type, by the declarations of the types.

A type without parameters is read by the rule that has its name, as `ConstMember` by
`CONST_MEMBER`. What has arguments, as `Option<Default>` or `Generics<Type>`, is read by the rule
whose row says what the declaration does.
"""

from description.declarations import Type, crate_of, declared_by
from description.names import logic, upper
from description.webidl import BY_CONTENT, BY_NAME

# The crates whose types are read, lowest first; of the lowest the module of the terminals. All scripts
# have them from here, so a new one has its line here and in crates.txt. Scripts that say where they write
# what is of a crate, as FILES of write/builds.py and MODULES of write/orders.py, name a crate that they lack.
CRATES = """
    weedle_base::term
    weedle_parts::common
    weedle_parts::literal
    weedle_parts::types
    weedle_types
    weedle_parts::inheritance
    weedle_parts::modifier
    weedle_members
    weedle_iterables
    weedle_interfaces
    weedle_mixins
    weedle_namespaces
    weedle_statements
    weedle_idl
""".split()
TERMINALS = CRATES[0]
# The one with the types that hold one another; those below it, and those of members and definitions.
TYPES = "weedle_types"
LEAVES = CRATES[: CRATES.index(TYPES)]
IDL = CRATES[CRATES.index(TYPES) + 1:]


def lacking(crates, named):
    """What a script says of the crates for which it has no place, by the names that it has, or None."""
    known = set(map(crate_of, named))
    found = [crate for crate in crates if crate_of(crate) not in known]
    return f"no place is said for what is of {', '.join(found)}" if found else None


class Unread(Exception):
    """Why no rule reads a type, in one line."""


def name_of(row, shape="Plain"):
    """The name of the rule that has this row and shape."""
    if (row, shape) not in BY_CONTENT:
        raise Unread(f"no rule has the row {shown(row)}")
    return BY_CONTENT[row, shape]


def shown(row):
    """A row as it is written: `Seq A B`."""
    parts = [part if isinstance(part, str) else " ".join(part) for part in row[1:]]
    return " ".join([row[0], *parts])


class Declared:
    """The declarations of some crates."""

    def __init__(self, declarations):
        self.types, self.aliases = {}, {}
        for it in declarations:
            (self.aliases if it.kind == "type" else self.types)[it.name] = it

    @classmethod
    def of(cls, root, crates=None):
        return cls(it for crate in crates or CRATES for it in declared_by(root, crate))

    def expanded(self, type_):
        """A type without an alias at its front."""
        while not type_.module and type_.name in self.aliases:
            type_ = self.aliases[type_.name].parts[0].type
        return type_

    def is_copied(self, type_):
        """Whether values of a type hold no memory."""
        declaration = self.types.get(self.expanded(type_).name)
        return bool(declaration) and declaration.is_copied

    def whole(self, type_):
        """A type without an alias in it."""
        type_ = self.expanded(type_)
        return Type(type_.name, map(self.whole, type_.arguments), type_.module)

    def parts_of(self, type_):
        """The names of a type's fields or variants, with their types over its arguments."""
        type_ = self.expanded(type_)
        declaration = self.types[type_.name]
        given = dict(zip(declaration.parameters, type_.arguments))
        return [(part.name, placed(part.type, given)) for part in declaration.parts]

    def logic_text(self, type_):
        """A type in the words of the logic."""
        type_ = self.expanded(type_)
        return " ".join([logic(type_.name), *map(self.logic_type, type_.arguments)])

    def logic_type(self, type_):
        """A type in the words of the logic, in brackets where it has arguments."""
        text = self.logic_text(type_)
        return f"({text})" if " " in text else text

    def rule_of(self, type_):
        """The name of the rule that reads a type."""
        type_ = self.expanded(type_)
        reader = getattr(self, f"rule_of_{READERS.get(type_.name, 'declared')}")
        return reader(type_, *type_.arguments)

    def rule_of_tuple(self, type_, *items):
        return name_of(("Seq", tuple(map(self.rule_of, items))))

    def rule_of_box(self, type_, item):
        return self.rule_of(item)

    def rule_of_option(self, type_, item):
        return name_of(("Opt", self.rule_of(item)))

    def rule_of_vec(self, type_, item):
        return name_of(("Many", self.rule_of(item)))

    def rule_of_list(self, type_, item, separator):
        item, separator = self.rule_of(item), self.rule_of(separator)
        return name_of(("List", item, name_of(("Tail", item, separator))))

    def rule_of_filled_list(self, type_, item, separator):
        item, separator = self.rule_of(item), self.rule_of(separator)
        items = name_of(("List1", item, name_of(("Tail", item, separator))))
        return name_of(("Seq", (items, name_of(("Opt", separator)))), "Inner")

    def rule_of_declared(self, type_, *arguments):
        declaration = self.types.get(type_.name)
        if not declaration:
            raise Unread(f"no type {type_.name} is declared")
        if declaration.parameters:
            return name_of(self.row_of(type_))
        if upper(type_.name) not in BY_NAME:
            raise Unread(f"no rule has the name {upper(type_.name)}")
        return upper(type_.name)

    def row_of(self, type_):
        """The row of a struct or an enum as it is declared, over its arguments."""
        rules = tuple(self.rule_of(part) for _, part in self.parts_of(type_))
        return ("First" if self.types[type_.name].is_enum else "Seq", rules)


READERS = {
    "()": "tuple",
    "Box": "box",
    "Option": "option",
    "Vec": "vec",
    "Punctuated": "list",
    "PunctuatedNonEmpty": "filled_list",
}


def placed(type_, given):
    """A type with these types in place of its parameters."""
    if type_.name in given:
        return given[type_.name]
    return Type(type_.name, [placed(it, given) for it in type_.arguments], type_.module)
