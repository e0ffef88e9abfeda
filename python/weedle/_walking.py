"""Ways over the values of a tree: all of them, those of a class, and the one above."""

from __future__ import annotations

from typing import Any, Iterator, Optional

from weedle._making import FACTORED, KINDS, MAKE_VALUE, MAKERS, Variants, rules_of
from weedle._tree import Tree


def values_in(tree: Tree, node: int) -> Iterator[Any]:
    """The values of a node and of all nodes below it, in preorder."""
    from weedle._values import new, set_node, set_tree  # they are above

    kinds, makes = KINDS, MAKE_VALUE
    for at, rule in enumerate(tree.rules[node:tree.behind(node)], node):
        kind = kinds[rule]
        # most values are of one class, and made here without a call
        if kind:
            value = new(kind)
            set_tree(value, tree)
            set_node(value, at)
            yield value
        elif makes[rule]:
            yield makes[rule](tree, at)
            if rule in FACTORED:
                yield FACTORED[rule].inner(tree, at)


def values_of(tree: Tree, node: int, kind: type) -> Iterator[Any]:
    """Those of a class among them."""
    wanted = rules_of(kind)
    for at, rule in enumerate(tree.rules[node:tree.behind(node)], node):
        if rule in wanted:
            it = MAKERS[rule]
            outer, *inner = it.kinds_at(tree, at) if isinstance(it, Variants) else (it,)
            if issubclass(outer, kind):
                yield MAKE_VALUE[rule](tree, at)
            if inner and issubclass(inner[0], kind):
                yield FACTORED[rule].inner(tree, at)


def parent_of(tree: Tree, node: int) -> Optional[Any]:
    """The value that a node is in, or None."""
    above = tree.above(node)
    while above >= 0:
        rule = tree.rules[above]
        if rule in FACTORED:
            return FACTORED[rule].inner(tree, above)
        if MAKE_VALUE[rule]:
            return MAKE_VALUE[rule](tree, above)
        above = tree.above(above)
    return None
