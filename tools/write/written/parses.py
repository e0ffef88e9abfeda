"""The `Parse` of a type whose row is read in order, by one call, or of which the first variant that
fits is read."""

from description.declarations import type_of
from shared.crates import Unfit
from write.written.pieces import Piece, bound

OWN, LAWS = "Rattle.weedle_base.specs.Own", "Rattle.weedle_base.specs.OwnLaws"
# What a docstring and extended attributes that may be absent are declared as: the functions of
# weedle_types::fields are named by these, and by how many fields stand behind them.
BEGIN = {"docstring": type_of("Option<Docstring>"), "attributes": type_of("Option<ExtendedAttributeList>")}
NUMBERS = {3: "three", 4: "four", 5: "five", 6: "six"}
# How many fields are read as pairs within pairs, and how many variants as choices within choices.
PAIRS, CHOICES = 3, 4


def nested(words):
    """Words as pairs within pairs."""
    return words[0] if len(words) == 1 else f"({words[0]}, {nested(words[1:])})"


def filled_in(item):
    return f"{item.name} {{ {', '.join(part.name for part in item.parts)} }}"


def reader_of(item, stated):
    """The function of weedle_types::fields that reads the fields of a struct, or None."""
    begin = [name for name, type_ in BEGIN.items() if type_ in [part.type for part in item.parts[:2]]]
    name = f"{'_'.join(begin)}_and_{NUMBERS.get(len(item.parts) - len(begin))}"
    return name if begin and name in stated.readers else None


def by_fields(item, reader):
    """The body that reads the fields by one call."""
    names = ", ".join(part.name for part in item.parts)
    return f"""        match {reader}(alloc, input) {{
            Ok((rest, ({names}))) => Ok((rest, {filled_in(item)})),
            Err(error) => Err(error),
        }}
"""


def by_pairs(item):
    """The body that reads a few fields as pairs within pairs."""
    return f"""        let (rest, {nested([part.name for part in item.parts])}) = Parse::parse(alloc, input)?;
        Ok((rest, {filled_in(item)}))
"""


def by_choice(item):
    """The body that reads the first variant that fits."""
    arms = []
    for number, part in enumerate(item.parts):
        is_last = number == len(item.parts) - 1
        pattern = "member" if is_last else "First(member)"
        pattern = "Second(" * number + pattern + ")" * number
        arms.append(f"            {pattern} => {item.name}::{part.name}(member),\n")
    return f"""        let (rest, read) = Choice::parse(alloc, input)?;
        let member = match read {{
{''.join(arms)}        }};
        Ok((rest, member))
"""


def body(item, stated):
    """The body, where it has one of the forms above."""
    if item.is_enum and len(item.parts) <= CHOICES:
        return by_choice(item)
    if not item.is_enum and reader_of(item, stated):
        return by_fields(item, reader_of(item, stated))
    has_attributes = BEGIN["attributes"] in [part.type for part in item.parts]
    if not item.is_enum and not has_attributes and len(item.parts) <= PAIRS:
        return by_pairs(item)
    raise Unfit(f"the Parse of {item.name} has no plain form: it has to be written by hand")


def parses(item, stated):
    """The `Parse`, where the module that declares the type has none."""
    if stated.is_read(item):
        return
    (module, rule), (trees, tree) = stated.rule(item), stated.tree(item)
    grows = "⊥" if item.is_copied else "(Unit {0})"
    yield Piece(
        f"""#[tactic(auto, using({stated.steps(item)}))]
impl<'a> Parse<'a> for {bound(item)} {{
    ghost reading = {{ own {rule} {tree} {grows} }};

    fn parse(alloc: Global, input: &'a str) -> IResult<&'a str, Self> {{
{body(item, stated)}    }}

    ghost lawful = {{ own_lawful {rule} {tree} {grows} }};
}}
""",
        [(OWN, "own"), (LAWS, "own_lawful"), (module, rule), (trees, tree)],
    )
