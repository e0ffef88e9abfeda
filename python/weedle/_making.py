"""How the value of a node is made, by its rule."""

from __future__ import annotations

from functools import cache
from typing import TYPE_CHECKING, Any, Callable, Dict, FrozenSet, List, Set, Tuple

from weedle import _writing
from weedle._placed import UNPLACED, Placed
from weedle._tree import Tree
from weedle.grammar import NUMBERS

if TYPE_CHECKING:
    from weedle._values import Value

#: Makes the value of a node.
Make = Callable[[Tree, int], Any]


class Parts(Placed, Tuple[Any, ...]):
    """Parts that have no names, as the two `long` of `long long`. It is a tuple with a place."""

    def __reduce__(self) -> Tuple[Any, ...]:
        return parts_of, (tuple(self), self._tree, self._node)


def parts_of(items: Any, tree: Tree = UNPLACED, node: int = -1) -> Parts:
    """Parts at a place, or such that were built."""
    found = Parts(items)
    found._tree, found._node = tree, node
    return found


class Maybe:
    """Makes what may be absent, or None."""

    def __call__(self, tree: Tree, node: int) -> Any:
        below, levels = node + 1, tree.levels or tree.depths
        if below < tree.count and levels[below] > levels[node]:
            return MAKE[tree.rules[below]](tree, below)
        return None

    def _entry(self, style: Any, rule: int) -> Any:
        return _writing.Optional_(style.absent)


class Many:
    """Makes a list of items that are one behind another."""

    def __call__(self, tree: Tree, node: int) -> List[Any]:
        rules = tree.rules
        return [MAKE[rules[it]](tree, it) for it in tree.children(node)]

    def _entry(self, style: Any, rule: int) -> Any:
        return style.many()


class Together:
    """Makes a tuple of all parts. In JSON it has this name."""

    def __init__(self, name: str = "") -> None:
        self.name = name

    def __call__(self, tree: Tree, node: int) -> Parts:
        return parts_of((made(tree, it) for it in tree.children(node)), tree, node)

    def _entry(self, style: Any, rule: int) -> Any:
        return style.together(self.name)


class Variants:
    """Makes the variant for the rule that was chosen, by the rules' names."""

    def __init__(self, names: Dict[str, Any]) -> None:
        self.classes = {NUMBERS[name]: it for name, it in names.items()}
        self._makes = {number: maker_of(it) for number, it in self.classes.items()}

    def __call__(self, tree: Tree, node: int) -> Any:
        return self._makes[tree.rules[node + 1]](tree, node)

    def kinds_at(self, tree: Tree, node: int) -> Tuple[Any, ...]:
        """The classes of the values of a node."""
        return (self.classes[tree.rules[node + 1]],)

    def kinds(self) -> List[Any]:
        """The classes of all values that it makes."""
        return list(self.classes.values())

    def _entry(self, style: Any, rule: int) -> Any:
        return {below: style.variant(it) for below, it in self.classes.items()}


class Kinds(Variants):
    """Makes the variant of a factored row: docstrings and attributes are in front of what was chosen.

    The variant and the struct that it holds are both at the node of that row. By the names of the rules
    that may be chosen it has both.
    """

    def __init__(self, names: Dict[str, Tuple[Any, Any]]) -> None:
        super().__init__({name: variant for name, (variant, _) in names.items()})
        self.structs = {NUMBERS[name]: struct for name, (_, struct) in names.items()}
        self._inner = {number: maker_of(it) for number, it in self.structs.items()}

    def __call__(self, tree: Tree, node: int) -> Any:
        return self._makes[tree.rules[chosen(tree, node)]](tree, node)

    def inner(self, tree: Tree, node: int) -> Any:
        """The struct that the variant holds."""
        return self._inner[tree.rules[chosen(tree, node)]](tree, node)

    def kinds_at(self, tree: Tree, node: int) -> Tuple[Any, ...]:
        rule = tree.rules[chosen(tree, node)]
        return self.classes[rule], self.structs[rule]

    def kinds(self) -> List[Any]:
        return [*self.classes.values(), *self.structs.values()]

    def _entry(self, style: Any, rule: int) -> Any:
        return _writing.Chosen({
            below: style.variant(it).around(self.structs[below]._entry(style, rule))
            for below, it in self.classes.items()
        })


def chosen(tree: Tree, node: int) -> int:
    """The node of what was chosen in a factored row: its last part is the choice."""
    return tree.children(node)[-1] + 1


class Through:
    """Makes what is below a node that has one part. What a factored row chose has no value of its own."""

    def __call__(self, tree: Tree, node: int) -> Any:
        below = tree.children(node)
        make = MAKE[tree.rules[below[0]]] if len(below) == 1 else None
        return make(tree, below[0]) if make else None

    def _entry(self, style: Any, rule: int) -> Any:
        return _writing.THROUGH


class Within:
    """Makes what is in the part of this number."""

    def __init__(self, number: int) -> None:
        self.number = number

    def __call__(self, tree: Tree, node: int) -> Any:
        return made(tree, tree.child(node, self.number))

    def _entry(self, style: Any, rule: int) -> Any:
        return _writing.THROUGH


class Pieces(Many):
    """Makes a list of definitions, and of the docstrings that none follows."""

    def __call__(self, tree: Tree, node: int) -> List[Any]:
        return [it for it in super().__call__(tree, node) if it is not None]


class Between:
    """A part of a list with separators, which has no value."""

    def __init__(self, form: _writing.Form) -> None:
        self.form = form

    def _entry(self, style: Any, rule: int) -> Any:
        return self.form


def maker_of(kind: Any) -> Make:
    """What makes the values of a class."""
    new, set_tree, set_node = object.__new__, kind._tree.__set__, kind._node.__set__

    def make(tree: Tree, node: int) -> Any:
        value = new(kind)
        set_tree(value, tree)
        set_node(value, node)
        return value

    return make


# By the number of a rule: what makes its values, a class or one of the classes above; what is called for
# that; the same where that gives one value, which is no list and not what another rule gives; and the
# class, where it is one. The rules of what may be absent. Those of factored rows. And the class of a list's
# separator.
# weedle/_readers.py fills them.
MAKERS: List[Any] = []
MAKE: List[Any] = []
MAKE_VALUE: List[Any] = []
KINDS: List[Any] = []
OPTIONS: Set[int] = set()
FACTORED: Dict[int, Kinds] = {}
SEPARATORS: Dict[int, Any] = {}


def fill(makers: List[Any], separators: Dict[int, Any]) -> None:
    """Says once what each rule makes."""
    MAKERS[:] = makers
    MAKE[:] = [maker_of(it) if isinstance(it, type) else it for it in makers]
    MAKE_VALUE[:] = [
        make if isinstance(it, (type, Variants)) else None for it, make in zip(makers, MAKE)
    ]
    KINDS[:] = [it if isinstance(it, type) else None for it in makers]
    OPTIONS.update(rule for rule, it in enumerate(makers) if isinstance(it, Maybe))
    FACTORED.update((rule, it) for rule, it in enumerate(makers) if isinstance(it, Kinds))
    SEPARATORS.update(separators)


def made(tree: Tree, node: int) -> Any:
    """The value of a node."""
    return MAKE[tree.rules[node]](tree, node)


@cache
def entries_of(style: type) -> List[Any]:
    """How the values of the rules are written."""
    return [it and it._entry(style(), rule) for rule, it in enumerate(MAKERS)]


@cache
def rules_of(kind: Any) -> FrozenSet[int]:
    """The rules that may give a value of a class, or of one that derives from it."""
    found = set()
    for rule, it in enumerate(MAKERS):
        kinds = it.kinds() if isinstance(it, Variants) else [it]
        if any(isinstance(other, type) and issubclass(other, kind) for other in kinds):
            found.add(rule)
    return frozenset(found)
