"""The dialects, by their rows: by which rules a whole text, one of its pieces and a member are read.

Whatever here takes a dialect takes weedle2's where none is given. Today's rows stand behind weedle2's and cite some of these.
"""

from typing import NamedTuple

from rows.ends import NOW, TODAY as TODAY_ENDS, Ends

# The rules that read a type, a value or a name: each with its word, and the first that fits is said.
VALUES = (("a value", "CONST_VALUE"), ("a name", "IDENTIFIER"))


class Dialect(NamedTuple):
    """A dialect: its option, its rows, the rule of a whole text, that of a piece of it, and those of members.

    `members` has with each rule of a member the front of a definition with such a body. `kinds` has the rules that read a type,
    a value or a name, each with its word.
    """

    options: list[str]
    ends: Ends
    start: str
    item: str
    definition: str
    members: dict[str, str]
    kinds: tuple[tuple[str, str], ...]

    def end_of(self, text: bytes) -> int:
        """Takes a text, and says up to which byte it is read."""
        return self.ends.end_of(text, self.start)

    def is_whole(self, text: bytes) -> bool:
        """Takes a text, and says whether it is read whole."""
        return self.end_of(text) == len(text)


FRONTS = {"INTERFACE": "interface A{", "DICTIONARY": "dictionary A{", "MIXIN": "interface mixin A{", "NAMESPACE": "namespace A{"}
WEEDLE2 = Dialect(
    [], NOW, "DEFINITIONS", "DEFINITION", "DEFINITION", {f"{kind}_MEMBER": front for kind, front in FRONTS.items()},
    (("a type", "TYPE"), ("a type", "NON_ANY_TYPE"), ("a type", "CONST_TYPE"), ("a value", "DEFAULT_VALUE"), *VALUES),
)
TODAY = Dialect(
    ["--today"], TODAY_ENDS, "TODAY_DEFINITIONS", "TODAY_PIECE", "TODAY_DEFINITION",
    {f"TODAY_{kind}_MEMBER": front for kind, front in FRONTS.items()},
    (("a type", "TODAY_TYPE"), ("a type", "TODAY_NON_ANY_TYPE"), ("a type", "TODAY_CONST_TYPE"),
     ("a value", "TODAY_DEFAULT_VALUE"), *VALUES),
)
