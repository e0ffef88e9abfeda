"""The `From` of each variant of an enum: what it holds becomes that variant."""

from description.imports import home_of
from description.uses import ghost_line
from write.written.pieces import EQUAL, Piece, bound, unbound

# What a clause calls the value and what is made of it, and what it does in some crates.
NAMES = ("value", "made")
OTHER_NAMES = {"weedle_types": ("v", "e")}


def conversion(item, variant, held, declared):
    """The `From` of what a variant holds; `declared` is the enum that the logic knows."""
    is_borrowing = "'a" in held
    lifetime, to = ("<'a>", bound(item)) if is_borrowing else ("", unbound(item))
    value, made = OTHER_NAMES.get(item.crate, NAMES)
    variants = ghost_line(f"{home_of(declared)}.TheVariants", [variant], "    ")
    return Piece(
        f"""impl{lifetime} From<{held}> for {to} {{
{variants}
    ghost from_gives = {{ λ {value} {made}. {made} ≡ {variant} {value} }};

    fn from(value: {held}) -> Self {{
        {item.name}::{variant}(value)
    }}
}}
""",
        [EQUAL],
    )


def conversions(item, stated):
    """A `From` for each variant that holds something."""
    if item.is_enum:
        for part in item.parts:
            if part.text:
                yield conversion(item, part.name, part.text, item.former or item)
