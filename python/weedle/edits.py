"""Changes of a text, made at once."""

from __future__ import annotations

from typing import Any, Generic, List, Tuple, TypeVar, Union, cast

from weedle import today
from weedle._dialect import Dialect, grammar_of
from weedle._text import Span, Text
from weedle._tree import Tree
from weedle._values import Value
from weedle.definitions import Definitions
from weedle.index import REFERENCES
from weedle.names import Name, Role
from weedle.nodes import Node

__all__ = ["Edits"]

Given = TypeVar("Given", str, bytes)
#: What says where an edit is: a part of the text in bytes, or what has such a part.
Where = Union[Value, Name, Node, Span, Tuple[int, int]]

# What a name stands for that a definition has: those that define it, and those that speak of it.
DEFINING = frozenset([
    Role.CALLBACK, Role.CALLBACK_INTERFACE, Role.INTERFACE, Role.MIXIN, Role.NAMESPACE,
    Role.DICTIONARY, Role.ENUM, Role.TYPEDEF,
])
RENAMED = DEFINING | REFERENCES


#: The definitions of a text, of either tree.
AnyDefinitions = Union[Definitions, today.Definitions]
# A change: from where to where, which of several at a place it is, and what comes there.
Edit = Tuple[int, int, int, bytes]


def parsed(text: Union[str, bytes], dialect: Dialect) -> Any:
    """The definitions of a text."""
    from weedle import parse  # it is above

    return parse(text, dialect=dialect)


class Edits(Generic[Given]):
    """Changes of a text, made at once: all other bytes stay as they are.

    >>> import weedle
    >>> text = "interface A { attribute long x; }; // of A"
    >>> edits = weedle.Edits(text)
    >>> (definition,) = edits.definitions
    >>> edits.replace(definition.value.identifier, "B")
    >>> edits.delete(definition.value.members.body[0])
    >>> edits.apply()
    'interface B {  }; // of A'

    Places are those of the text that was given, whatever was changed before. With `dialect="today"` it is
    read by the rules of today's WebIDL, before and after.
    """

    def __init__(self, text: Given, *, dialect: Dialect = "weedle2") -> None:
        self._is_str = isinstance(text, str)
        #: The dialect that the text is read by.
        self.dialect: Dialect = grammar_of(dialect).name
        #: The definitions of the text, by whose values it is changed.
        self.definitions: Any = parsed(text, dialect)
        self._data = Text(text).data
        # from where to where; which of several at a place comes first; and what comes there
        self._edits: List[Edit] = []

    def replace(self, where: Where, new: Union[str, bytes]) -> None:
        """Has this part of the text be another: the value, the name or the node, or the bytes."""
        start, end = self._span(where)
        if not 0 <= start <= end <= len(self._data):
            raise ValueError(f"the text has no bytes {start} to {end}")
        data = new.encode() if isinstance(new, str) else new
        self._edits.append((start, end, len(self._edits), data))

    def insert_before(self, where: Where, new: Union[str, bytes]) -> None:
        """Puts a text in front; of several at one place the first one comes first."""
        start, _ = self._span(where)
        self.replace(Span(start, start), new)

    def insert_behind(self, where: Where, new: Union[str, bytes]) -> None:
        """Puts a text behind; of several at one place the first one comes first."""
        _, end = self._span(where)
        self.replace(Span(end, end), new)

    def delete(self, where: Where) -> None:
        """Takes this part of the text out."""
        self.replace(where, b"")

    def renames(self, old: str, new: str) -> int:
        """Renames a definition wherever it is defined or spoken of. It says how many names those are.

        Of members, arguments, the values of enums and extended attributes none is renamed. A new
        name that is a word of the grammar is written with an underscore in front. ValueError where
        the text would then be read otherwise than with the new name in place of the old one.
        """
        names = [it for it in self.definitions.names() if it.text == old and it.role in RENAMED]
        written = f"_{new}" if new in grammar_of(self.dialect).keywords else new
        edits: Edits[bytes] = Edits(self._data, dialect=self.dialect)
        for name in names:
            edits.replace(name, written)
            self.replace(name, written)
        if not is_renamed(self.definitions, edits, old, new):
            raise ValueError(f"{new!r} would be read as something else than a name")
        return len(names)

    def apply(self) -> Given:
        """The text with all changes, of the type of the one that was given.

        It raises ValueError where changes overlap, and `Refused` where the text isn't read any more.
        """
        pieces: List[bytes] = []
        place = 0
        for start, end, _, new in sorted(self._edits):
            if start < place:
                raise ValueError(f"changes overlap at byte {start}")
            pieces += [self._data[place:start], new]
            place = end
        data = b"".join([*pieces, self._data[place:]])
        parsed(data, self.dialect)
        given: Any = data.decode() if self._is_str else data
        return cast(Given, given)

    def _span(self, where: Where) -> Tuple[int, int]:
        """The bytes of a place."""
        if isinstance(where, tuple):
            start, end = where
            return start, end
        tree: Tree = where.value._tree if isinstance(where, Name) else where._tree
        if tree.text.data != self._data:
            raise ValueError("what is to be changed stands in another text")
        return where.span


def is_renamed(definitions: AnyDefinitions, edits: Edits[bytes], old: str, new: str) -> bool:
    """Whether a text with these changes says the same with a new name in place of an old one."""
    try:
        after = parsed(edits.apply(), edits.dialect)
    except ValueError:
        return False
    found = [(name.role, name.text) for name in after.names()]
    wanted = [
        (name.role, new if name.text == old and name.role in RENAMED else name.text)
        for name in definitions.names()
    ]
    return found == wanted and kinds(definitions) == kinds(after)


def kinds(definitions: AnyDefinitions) -> List[Any]:
    """The classes of all values."""
    return [type(it) for it in definitions.walk()]
