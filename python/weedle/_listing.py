"""The list of all definitions of a text."""

from __future__ import annotations

from typing import TYPE_CHECKING, Any, Iterator, List, Sequence, Type, TypeVar

from weedle import _building
from weedle._dialect import GRAMMARS, Dialect
from weedle._making import made
from weedle._tree import Tree
from weedle.errors import Refused
from weedle.grammar import NUMBERS
from weedle.names import Name, names_in
from weedle.nodes import Node

if TYPE_CHECKING:
    from weedle._values import Value

D = TypeVar("D")
V = TypeVar("V", bound="Value")
# The rules of a whole text, of a definition, and of what a text is divided into; and those of docstrings that
# no definition follows.
WHOLE = frozenset(it.whole for it in GRAMMARS.values())
PIECES = frozenset(rule for it in GRAMMARS.values() for rule in (it.item, it.definition))
DOCS = frozenset(NUMBERS[name] for name in ("today_doc", "today_last_doc"))


class Listing(List[D]):
    """A list of what is in a text, which knows that text."""

    _tree: Tree
    #: Why parts of the text are unread; none where it is read whole.
    errors: Sequence[Refused] = ()

    @property
    def text(self) -> str:
        """The text that was read."""
        return self._tree.text.data.decode()

    @property
    def syntax(self) -> Node:
        """The node of the whole text, as `weedle.syntax` gives it; it isn't read again.

        ValueError of a text that was read with `recover=True`, of which `weedle.recover` has the nodes.
        """
        if self._roots() != [0] or self._tree.rules[0] not in WHOLE:
            raise ValueError("a text that was read with recover=True has no node for all of it")
        return Node(self._tree, 0)

    def _roots(self) -> List[int]:
        rules = self._tree.rules
        return [it for it in self._tree.roots() if rules[it] in WHOLE or rules[it] in PIECES]

    @property
    def dialect(self) -> Dialect:
        """The dialect that the text was read by, as "weedle2"."""
        return self._tree.grammar.name

    @property
    def docstrings(self) -> List[Any]:
        """The docstrings that no definition follows; only today's rules read such."""
        tree, item = self._tree, self._tree.grammar.item
        found = [node + 1 for root in self._roots() for node in [root, *tree.children(root)]
                 if tree.rules[node] == item and node + 1 < tree.count]
        return [made(tree, it) for it in found if tree.rules[it] in DOCS]

    def walk(self) -> Iterator[Value]:
        """All values in the list, each before those below it, terminals included."""
        items: List[Any] = self
        return (value for it in items for value in it.walk())

    def find(self, kind: Type[V]) -> Iterator[V]:
        """Those of a class among them, as `definitions.find(Identifier)`."""
        items: List[Any] = self
        return (value for it in items for value in it.find(kind))

    def names(self) -> Iterator[Name]:
        """Each name of the definitions, in the order of the text, with what it stands for."""
        return (name for it in self._roots() for name in names_in(self._tree, it))

    def to_webidl(self) -> str:
        """The definitions as WebIDL, formatted as `weedle.format` does it, without comments."""
        return _building.to_webidl(self)


def listing(kind: Any, tree: Tree, items: List[Any]) -> Any:
    """A list of a class, of the text of a tree."""
    found = kind(items)
    found._tree = tree
    return found
