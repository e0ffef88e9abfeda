"""Values as text: as JSON, and as `repr` shows them.

A value is written in one pass over its nodes, which are in preorder. So nothing here calls
itself, values may nest as deep as they will, and their parts aren't made for it.
"""

from __future__ import annotations

from json.encoder import encode_basestring  # type: ignore[attr-defined]  # typeshed lacks it
from typing import Any, Callable, Iterable, List, Optional, Sequence, Tuple, Union

from weedle._tree import Tree

# What precedes a part. None leaves the part out.
Front = Optional[str]


class Form:
    """How a value is written that has parts: what is around them, and before each.

    `fronts` come before the first parts, and `others` in turn before all that follow. Where parts
    are lacking, `absent` is written in their place, if it isn't None.
    """

    def __init__(
        self, opening: str, fronts: Sequence[Front], closing: str,
        others: Sequence[Front] = (), absent: Front = None,
    ) -> None:
        self.opening, self.fronts, self.closing = opening, fronts, closing
        self.others, self.absent = others, absent

    def front(self, number: int) -> Front:
        """What precedes the part of this number."""
        if number < len(self.fronts):
            return self.fronts[number]
        return self.others[(number - len(self.fronts)) % len(self.others)]

    def end(self, number: int) -> str:
        """What follows so many parts."""
        if self.absent is None:
            return self.closing
        lacking = [it + self.absent for it in self.fronts[number:] if it is not None]
        return "".join(lacking) + self.closing

    def around(self, inner: Form) -> Form:
        """The form of what has one part, which is at the same node: that of the part within this one."""
        front = self.front(0) or ""
        opening, closing = self.opening + front + inner.opening, inner.closing + self.closing
        return Form(opening, inner.fronts, closing, inner.others, inner.absent)


class Optional_:
    """How a value is written that may be absent: what stands for it then."""

    def __init__(self, absent: str) -> None:
        self.absent = absent


class Chosen:
    """How the values of a factored row are written, by the rule that is chosen behind what is in front."""

    def __init__(self, forms: "dict[int, Form]") -> None:
        self.forms = forms

    def form(self, tree: Tree, node: int) -> Form:
        """The form of the value of a node."""
        return self.forms[tree.rules[tree.children(node)[-1] + 1]]


class Passed:
    """What has no text of its own: what is below it belongs to what is around."""


# What gives the whole text of a value.
Text = Callable[[Tree, int], str]
# What a rule has: nothing at all; the form of what is chosen is found by the rule below.
Entry = Union[None, Text, Form, Optional_, Chosen, Passed, "dict[int, Form]"]
THROUGH = Passed()

PRESENT = Form("", ("",), "")
# An item and those behind it; and these, each behind a separator.
ITEMS, FOLLOWING = Form("", ("", ""), ""), Form("", (), "", others=(None, ", "))


def separated(fronts: Iterable[Tuple[str, bool]]) -> List[Front]:
    """What precedes parts with commas between them, of which some are left out."""
    found: List[Front] = []
    comma = ""
    for front, is_shown in fronts:
        found.append(comma + front if is_shown else None)
        comma = ", " if is_shown else comma
    return found


class Json:
    """JSON, as docs/USING.md has it."""

    absent = "null"

    def word(self, name: str) -> Entry:
        text = f'"{name}"'
        return lambda tree, node: text

    def leaf(self, name: str, read: Callable[[Tree, int], Union[str, bool]]) -> Entry:
        def text(tree: Tree, node: int) -> str:
            value = read(tree, node)
            said = encode_basestring(value) if isinstance(value, str) else str(value).lower()
            return f'{{"{name}": {said}}}'
        return text

    def wrapped(self, name: str) -> Form:
        return Form(f'{{"{name}": ', ("",), "}")

    def variant(self, kind: Any) -> Form:
        return self.wrapped(kind.in_json)

    def many(self) -> Form:
        return Form("[", ("",), "]", others=(", ",))

    def together(self, name: str) -> Form:
        opening, closing = (f'{{"{name}": [', "]}") if name else ("[", "]")
        return Form(opening, ("",), closing, others=(", ",))

    def listed(self, name: str, fronts: Sequence[Front], separator: str) -> Form:
        return Form('{"list": [', fronts, f'], "separator": "{separator}"}}')

    def struct(self, name: str, parts: Sequence[Tuple[str, str, bool]]) -> Form:
        fronts = separated((f'"{in_json}": ', True) for _, in_json, _ in parts)
        return Form("{", fronts, "}", absent=self.absent)


class Repr:
    """What `repr` shows: what a value is, without words that are the same in each such value."""

    absent = "None"

    def word(self, name: str) -> Entry:
        return lambda tree, node: f"{name}()"

    def leaf(self, name: str, read: Callable[[Tree, int], Union[str, bool]]) -> Entry:
        return lambda tree, node: f"{name}({read(tree, node)!r})"

    def wrapped(self, name: str) -> Form:
        return Form(f"{name}(", ("",), ")")

    def variant(self, kind: Any) -> Form:
        return self.wrapped(kind.__qualname__)

    def many(self) -> Form:
        return Form("[", ("",), "]", others=(", ",))

    def together(self, name: str) -> Form:
        return Form("(", ("",), ")", others=(", ",))

    def listed(self, name: str, fronts: Sequence[Front], separator: str) -> Form:
        return Form(f"{name}(list=[", fronts, "])")

    def struct(self, name: str, parts: Sequence[Tuple[str, str, bool]]) -> Form:
        fronts = separated((f"{field}=", is_shown) for field, _, is_shown in parts)
        return Form(f"{name}(", fronts, ")", absent=self.absent)


class Frame:
    """A value that is being written: its form, its depth, and how many parts it has so far."""

    __slots__ = ("form", "depth", "parts")

    def __init__(self, form: Form, depth: int) -> None:
        self.form, self.depth, self.parts = form, depth, 0

    def next_front(self) -> Front:
        self.parts += 1
        return self.form.front(self.parts - 1)


def write(
    tree: Tree, root: int, entries: Sequence[Entry], own: Optional[Form] = None,
) -> str:
    """The value of a node as text, by the entries of the rules; that node may have a form of its own."""
    behind = tree.behind(root)
    rules, depths = tree.rules, tree.depths
    pieces: List[str] = []
    frames = [Frame(PRESENT, depths[root] - 1)]
    # What is deeper belongs to a value that is written, or left out.
    limit = depths[root]
    for node, depth in enumerate(depths[root:behind], root):
        if depth > limit:
            continue
        limit, entry = depth, entries[rules[node]]
        if entry is None:
            continue
        while frames[-1].depth >= depth:
            frame = frames.pop()
            pieces.append(frame.form.end(frame.parts))
        if entry is THROUGH:
            limit = depth + LIMITLESS
            continue
        front = frames[-1].next_front()
        if front is None:
            continue
        pieces.append(front)
        form = own if own and node == root else form_of(entry, tree, node, behind)
        if isinstance(form, str):
            pieces.append(form)
            continue
        limit = depth + LIMITLESS
        pieces.append(form.opening)
        frames.append(Frame(form, depth))
    pieces += [it.form.end(it.parts) for it in reversed(frames)]
    return "".join(pieces)


# More than the depth of any node.
LIMITLESS = 1 << 62


def form_of(entry: Any, tree: Tree, node: int, behind: int) -> Union[Form, str]:
    """The form of a value, or its whole text."""
    if type(entry) is Form:
        return entry
    if type(entry) is dict:
        chosen: Form = entry[tree.rules[node + 1]]
        return chosen
    if type(entry) is Chosen:
        return entry.form(tree, node)
    if type(entry) is Optional_:
        is_there = node + 1 < behind and tree.depths[node + 1] > tree.depths[node]
        return PRESENT if is_there else entry.absent
    text: str = entry(tree, node)
    return text
