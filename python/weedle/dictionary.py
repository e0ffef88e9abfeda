"""Members of dictionaries.

Written by tools/write/python_types.py, and not edited by hand.
"""

from __future__ import annotations

from typing import List, Optional, TYPE_CHECKING

from weedle._values import Value, part, value_class, word

if TYPE_CHECKING:
    from weedle import term
    from weedle.attribute import ExtendedAttributeList
    from weedle.common import Default, Docstring, Identifier
    from weedle.types import Type

__all__ = [
    "DictionaryMember",
    "DictionaryMembers",
]


@value_class
class DictionaryMember(Value):
    """A member of a dictionary, as `required long x;` or `long x = 5;`."""

    docstring: Optional[Docstring] = part("The docstring in front, where present.")
    attributes: Optional[ExtendedAttributeList] = part(
        "The extended attributes in brackets, as `[Exposed=Window]`, where present."
    )
    required: Optional[term.Required] = part("The word `required`, where present.")
    type_: Type.Variants = part("Its type, as `long`, with no extended attributes of its own.")
    identifier: Identifier = part("Its name.")
    default: Optional[Default] = part("Its default, as `= 5`, where present.")
    semi_colon: term.SemiColon = word("The `;` at the end.")

    def __init__(
        self, *, docstring: Optional[Docstring] = None,
        attributes: Optional[ExtendedAttributeList] = None,
        required: Optional[term.Required] = None, type_: Type.Variants, identifier: Identifier,
        default: Optional[Default] = None,
    ) -> None:
        self._hold(docstring, attributes, required, type_, identifier, default)


#: The members of a dictionary, one after another, as `long x; long y = 5;`; none included.
DictionaryMembers = List["DictionaryMember"]
