"""The methods that take a type apart by move, where it has a `Drop` of its own.

A type that is dropped can be taken apart only below the module that declares it. So there are

- `into_fields` of a struct: all its fields, in their order;
- for each variant of an enum a method as `into_interface`: what it holds, where the value is that
  variant.
"""

import re

from description.layout import COLUMNS, filled
from description.names import snake
from write.written.pieces import EQUAL, Piece

IF_AND_ONLY_IF = ("Rattle.std.specs.Prelude", "◌↔◌")
TYPE_NAME = re.compile(r"\b[A-Z]\w*")


def methods(item, stated):
    """The `impl` of a struct or an enum with its methods."""
    if not item.is_dropped:
        return
    parts = [(part.name, part.text) for part in item.parts]
    if item.is_enum:
        text = "\n".join(into_variant(item, *it) for it in parts)
    else:
        text = into_fields(item, parts)
    ghost = [EQUAL, IF_AND_ONLY_IF] if item.is_enum else [EQUAL]
    yield Piece(f"impl<'a> {item.name}<'a> {{\n{text}}}\n", ghost)


def listed(words):
    """Words of code as a list in a sentence."""
    words = [f"`{word}`" for word in words]
    return " and ".join([", ".join(words[:-1]), words[-1]] if words[1:] else words)


def tuple_of(parts):
    return parts[0] if len(parts) == 1 else f"({', '.join(parts)})"


def clause(values):
    line = f"        ensures {{ result ≡ {tuple_of(values)} }}\n"
    if len(line) <= COLUMNS + 1:
        return line
    rows = "".join(f"          {value},\n" for value in values)
    return f"        ensures {{ result ≡ (\n{rows}        ) }}\n"


def into_fields(item, parts):
    names, types = zip(*parts)
    doc = f"Its {'field' if len(names) == 1 else 'fields, in order'}: {listed(names)}."
    return (
        filled(doc.split(), "    ", "/// ")
        + f"    pub fn into_fields(self) -> {tuple_of(types)}\n"
        + clause([f"self.entry.{name}" for name in names])
        + f"    {{\n        let {item.name} {{ {', '.join(names)} }} = self;\n        {tuple_of(names)}\n    }}\n"
    )


def into_variant(item, variant, held):
    """The method that gives what a variant of an enum holds."""
    bare = TYPE_NAME.match(held)[0]
    says = f"result ≡ Some held ↔ self.entry ≡ {item.name}.{variant} held"
    return f"""    /// What it holds where it is `{item.name}::{variant}`, and else None.
    pub fn into_{snake(variant)}(self) -> Option<{held}>
        ensures {{ (held : {bare})
            → {says} }}
    {{
        match self {{
            {item.name}::{variant}(held) => Some(held),
            _ => None,
        }}
    }}
"""
