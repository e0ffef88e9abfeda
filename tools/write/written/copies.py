"""The `TryClone` of a type with a `Drop` of its own: a copy has the tree of its original."""

from write.written.pieces import EQUAL, Piece, unbound

ALIKE = "Rattle.weedle_base.specs.AlikeLaws"


def copied(part, stated):
    if stated.is_copied(part.type):
        return f"self.{part.name}"
    function = stated.copying(part.type)
    return f"{function}(&self.{part.name}, alloc)?" if function else f"self.{part.name}.try_clone(alloc)?"


def copy_of(item, stated):
    if not item.is_enum:
        fields = ", ".join(f"{part.name}: {copied(part, stated)}" for part in item.parts)
        return f"        Ok({item.name} {{ {fields} }})\n"
    variants = [f"{item.name}::{part.name}" for part in item.parts]
    arms = "".join(
        f"            {variant}(member) => Ok({variant}(member.try_clone(alloc)?)),\n" for variant in variants
    )
    return f"        match self {{\n{arms}        }}\n"


def copies(item, stated):
    """The `TryClone`, where the type isn't copied as it is."""
    if not item.is_dropped:
        return
    module, tree = stated.tree(item)
    yield Piece(
        f"""impl TryClone for {unbound(item)} {{
    ghost alike = {{ λ a b. {tree} a ≡ {tree} b }};

    fn try_clone(&self, alloc: Global) -> Result<Self, AllocError> {{
{copy_of(item, stated)}    }}

    ghost equivalence = {{ seen_equivalence {tree} equal_equivalence }};
}}
""",
        [EQUAL, (module, tree), (ALIKE, "equal_equivalence"), (ALIKE, "seen_equivalence")],
    )
