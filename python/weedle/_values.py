"""What all values of the typed tree have: how their parts are made, shown and compared."""

from __future__ import annotations

from dataclasses import FrozenInstanceError, dataclass, field, fields
from itertools import islice
from typing import (
    Any, ClassVar, Dict, Generic, Iterator, List, Optional, Tuple, Type, TypeVar, Union, overload,
)

from weedle import _building, _comments, _walking, _words, _writing
from weedle._making import FACTORED, KINDS, MAKE, OPTIONS, SEPARATORS, chosen, entries_of, made
from weedle._placed import UNPLACED, Placed
from weedle._tree import Tree

T = TypeVar("T")
S = TypeVar("S")
V = TypeVar("V", bound="Value")

# Keeps a part that was made: values are frozen. It makes no dictionary, as `value.__dict__` would.
keep = object.__setattr__

# What each dataclass of the typed tree is: `Value` makes, shows and compares its fields.
value_class = dataclass(frozen=True, init=False, repr=False, eq=False)


class Part:
    """A field that is made when it is first asked for, with those beside it."""

    def __init__(self, doc: str, is_word: bool = False) -> None:
        self.__doc__, self.is_word = doc, is_word

    def __set_name__(self, owner: Any, name: str) -> None:
        self.name = name
        # the parts of a class, in the order of its fields, and those that are the same words always
        own = vars(owner)
        owner._names = (*own.get("_names", ()), name)
        owner._split = owner._names[:-1], name
        owner._words = (*own.get("_words", ()), *[name] * self.is_word)

    def __get__(self, value: Any, owner: Any = None) -> Any:
        if value is None:
            return self
        value._fill()
        return getattr(value, self.name)

    def __repr__(self) -> str:
        return f"<field {self.name}>"


def part(doc: str) -> Any:
    """A field for a part, in the order of the parts."""
    return field(default=Part(doc))


def word(doc: str) -> Any:
    """The same for a part that is the same words in each value: `repr` leaves it out."""
    return field(default=Part(doc, is_word=True), repr=False)


class Value(Placed):
    """What was read of a text. Its parts are made when they are asked for.

    Two values are equal where all their parts are, wherever they are.
    """

    __slots__ = ("_tree", "_node", "__dict__", "__weakref__")

    # Whether each part has a node: a default that may only follow `optional` can lack it.
    _is_whole: ClassVar[bool] = True
    # The names of fields, the same except for the last and the last, and their names in JSON, where they
    # are others.
    _names: ClassVar[Tuple[str, ...]] = ()
    _split: ClassVar[Tuple[Tuple[str, ...], str]] = ((), "")
    _words: ClassVar[Tuple[str, ...]] = ()
    _renamed: ClassVar[Dict[str, str]] = {}

    def walk(self) -> Iterator[Value]:
        """The value and all below it, each before those below it, terminals included."""
        if self._tree is UNPLACED:
            return _building.walk(self)
        return _walking.values_in(self._tree, self._node)

    def find(self, kind: Type[V]) -> Iterator[V]:
        """Those of a class among them, as `value.find(Identifier)`."""
        if self._tree is UNPLACED:
            return (it for it in _building.walk(self) if isinstance(it, kind))
        return _walking.values_of(self._tree, self._node, kind)

    @property
    def parent(self) -> Optional[Value]:
        """The value that it is in; None of a definition, and of what was built."""
        return None if self._tree is UNPLACED else _walking.parent_of(self._tree, self._node)

    @property
    def comments(self) -> List[str]:
        """The comments right in front of it, with their signs, the first one first.

        An empty line ends them, and so does a comment that trails something else on its line.
        """
        if self._tree is UNPLACED:
            return []
        return _comments.comments_before(self._tree, self.span.start)

    @property
    def trailing(self) -> List[str]:
        """The comments behind it, where nothing else follows on its line, as `// a` of `long x; // a`."""
        if self._tree is UNPLACED:
            return []
        return _comments.comments_behind(self._tree, self.span.end)

    @property
    def doc(self) -> str:
        """Its docstring, or else what its comments say, without their signs; empty without both."""
        return _comments.doc_of(self)

    def replace(self: V, **parts: Any) -> V:
        """A value built of its parts, except for these, as `value.replace(identifier=name)`."""
        found: V = _building.replaced(self, parts)
        return found

    def to_webidl(self) -> str:
        """The value as WebIDL, without comments.

        A definition is formatted as `weedle.format` does it, with a line end behind it, and any
        other value takes one line. It raises `Refused` of a definition that was built of what can't
        be read, as a name with a space in it.
        """
        return _building.to_webidl(self)

    def to_json(self) -> str:
        """The value as JSON, as docs/USING.md has it."""
        return self._written(_writing.Json)

    def __repr__(self) -> str:
        return self._written(_writing.Repr)

    def __eq__(self, other: object) -> bool:
        if type(other) is not type(self):
            return NotImplemented
        assert isinstance(other, Value)
        return other is self or self.to_json() == other.to_json()

    def __hash__(self) -> int:
        return hash((type(self), self.to_json()))

    def __setattr__(self, name: str, value: object) -> None:
        raise FrozenInstanceError(f"cannot assign to field {name!r}")

    def __delattr__(self, name: str) -> None:
        raise FrozenInstanceError(f"cannot delete field {name!r}")

    def __reduce__(self) -> Tuple[Any, ...]:
        if self._tree is UNPLACED:
            return _building.built, (type(self), self.__dict__)
        return _placed_at, (type(self), self._tree, self._node)

    def _written(self, style: Any) -> str:
        if self._tree is UNPLACED:
            return _building.written(self, style)
        return _writing.write(self._tree, self._node, entries_of(style))

    def _hold(self, *parts: Any) -> None:
        """Makes it a value that was built, of these parts: those that aren't the same words always."""
        _building.hold(self, parts)

    def _fill(self) -> None:
        """Makes its parts."""
        tree, kinds = self._tree, KINDS
        rules, levels, node = tree.rules, tree.levels, self._node + 1
        if levels is None or not self._is_whole:
            return self._fill_slowly()
        find, below = levels.find, levels[node]
        firsts, last = self._split
        # most parts are words and names, which are made here without a call
        for name in firsts:
            rule = rules[node]
            kind = kinds[rule]
            if kind:
                value = new(kind)
                set_tree(value, tree)
                set_node(value, node)
                keep(self, name, value)
            elif rule in OPTIONS and levels[node + 1] == below:
                # nothing is below what is absent, and another part follows
                keep(self, name, None)
                node += 1
                continue
            else:
                keep(self, name, MAKE[rule](tree, node))
            node = find(below, node + 1)
        keep(self, last, MAKE[rules[node]](tree, node))
        return None

    def _fill_slowly(self) -> None:
        """The same in a tree of any depth, and where the last part may have no node."""
        nodes = self._tree.children(self._node)
        for number, name in enumerate(self._names):
            keep(self, name, made(self._tree, nodes[number]) if number < len(nodes) else None)

    def _in_order(self) -> List[Any]:
        """What it is made of, in the order of the text."""
        return [getattr(self, name) for name in self._names]

    def _put(self, writer: Any) -> Iterator[Any]:
        """Writes its words, or gives the values that have them."""
        return _words.marked(self)

    def _form(self, style: Any) -> Any:
        """How a value that was built is written."""
        return self._entry(style, 0)

    def _written_parts(self, style: Any) -> Iterator[Tuple[bool, Any]]:
        """What a value that was built is written of: texts, and the values between them."""
        form = self._form(style)
        yield True, form.opening
        for number, name in enumerate(self._names):
            front = form.front(number)
            if front is not None:
                yield from ((True, front), (False, getattr(self, name)))
        yield True, form.closing

    @classmethod
    def _entry(cls, style: Any, rule: int) -> Any:
        """How its values are written."""
        all_: Any = fields(cls)
        parts = [(it.name, cls._renamed.get(it.name, it.name), it.repr) for it in all_]
        return style.struct(cls.__name__, parts)


# What makes a value of a class, and says where it is: values are frozen.
new: Any = object.__new__
set_tree, set_node = vars(Value)["_tree"].__set__, vars(Value)["_node"].__set__


def _placed_at(kind: Type[V], tree: Tree, node: int) -> V:
    """The value of a class at a node."""
    value: V = new(kind)
    set_tree(value, tree)
    set_node(value, node)
    return value


@value_class
class Kind(Value):
    """What the variant of a factored row holds: what is in front of the choice is a part of it too.

    It is at the node of its variant.
    """

    def walk(self) -> Iterator[Value]:
        """The value and all below it, each before those below it, terminals included."""
        if self._tree is UNPLACED:
            return super().walk()
        return islice(_walking.values_in(self._tree, self._node), 1, None)

    def find(self, kind: Type[V]) -> Iterator[V]:
        """Those of a class among them, as `value.find(Identifier)`."""
        if self._tree is UNPLACED:
            return super().find(kind)
        all_ = _walking.values_of(self._tree, self._node, kind)
        return (it for it in all_ if it._node != self._node or not isinstance(it, Factored))

    @property
    def parent(self) -> Optional[Value]:
        """The variant that holds it; None of what was built."""
        if self._tree is UNPLACED:
            return None
        found: Value = MAKE[self._tree.rules[self._node]](self._tree, self._node)
        return found

    def _written(self, style: Any) -> str:
        if self._tree is UNPLACED:
            return _building.written(self, style)
        return _writing.write(self._tree, self._node, entries_of(style), self._form(style()))

    def _fill(self) -> None:
        tree = self._tree
        nodes = [*tree.children(self._node)[:-1], *tree.children(chosen(tree, self._node))]
        for name, node in zip(self._names, nodes):
            keep(self, name, made(tree, node))


class Terminal(Value):
    """A word or a sign that is always spelled the same. Two of a kind are equal."""

    # How it is spelled.
    _spelled: ClassVar[str] = ""

    def __init__(self) -> None:
        self._hold()

    def _put(self, writer: Any) -> Iterator[Any]:
        writer.put(self._spelled, self._spelled)
        return iter(())

    def _written(self, style: Any) -> str:
        # one that separates the items of a list may have no text
        text: str = self._entry(style(), 0)(UNPLACED, -1)
        return text

    def _written_parts(self, style: Any) -> Iterator[Tuple[bool, Any]]:
        yield True, self._entry(style, 0)(UNPLACED, -1)

    @classmethod
    def _entry(cls, style: Any, rule: int) -> Any:
        return style.word(cls.__name__)


@value_class
class Wrapped(Value):
    """A value of one part, which has no name of its own."""

    __match_args__ = ("value",)

    value: Any = part("What it holds.")

    @classmethod
    def _entry(cls, style: Any, rule: int) -> Any:
        return style.wrapped(cls.__name__)


@value_class
class Choice(Wrapped):
    """One of several variants, each a class of its own with what it holds as `value`."""

    #: The name of the variant, as `Interface`, and its name in JSON.
    variant: ClassVar[str] = ""
    in_json: ClassVar[str] = ""

    def __init_subclass__(cls, variant: str = "", in_json: str = "", **more: Any) -> None:
        super().__init_subclass__(**more)
        if variant:
            (outer,) = cls.__bases__
            cls.variant, cls.in_json = variant, in_json or variant
            cls.__qualname__ = f"{outer.__qualname__}.{variant}"
            setattr(outer, variant, cls)
            others = vars(outer).get("Variants")
            setattr(outer, "Variants", Union[others, cls] if others else cls)

    def _fill(self) -> None:
        tree, node = self._tree, self._node + 1
        keep(self, "value", MAKE[tree.rules[node]](tree, node))

    def _form(self, style: Any) -> Any:
        return style.variant(type(self))


class Factored(Choice):
    """A variant of a factored row, which is at the same node as what it holds."""

    def _fill(self) -> None:
        tree, node = self._tree, self._node
        keep(self, "value", FACTORED[tree.rules[node]].inner(tree, node))


class Result(Choice):
    """The type of a result, behind which arguments are apart."""

    def _put(self, writer: Any) -> Iterator[Any]:
        return iter((self.value, _words.TYPE_ENDS))


class WholeChoice(Choice):
    """A whole number, in one of several bases."""

    @property
    def number(self) -> int:
        """The number, as 31 of `0x1F`."""
        found: int = self.value.number
        return found


class DecimalChoice(Choice):
    """A float, or one of the words for what is no number or has no end."""

    @property
    def number(self) -> float:
        """The number nearest to it: of `-Infinity` and `NaN` those of Python."""
        found: float = self.value.number if self.variant == "Value" else float(self.word)
        return found

    @property
    def word(self) -> str:
        """What Python calls the words."""
        return {"NegInfinity": "-inf", "Infinity": "inf", "NaN": "nan"}[self.variant]


@value_class
class Listed(Value, Generic[T, S]):
    """Items with separators between them. It is iterated, indexed and counted as its `list`."""

    list: List[T] = part("The items.")
    separator: S = field(
        default=Part("A separator: the first one, or one without text where none was read."),  # type: ignore[assignment]
        repr=False,
    )
    # What precedes the parts of its node: an item, and what follows it.
    _fronts: ClassVar[Any] = ("", "")

    def __init__(self, list: List[T], separator: S) -> None:
        self._hold(list, separator)

    def __iter__(self) -> Iterator[T]:
        return iter(self.list)

    def __len__(self) -> int:
        return len(self.list)

    @overload
    def __getitem__(self, index: int) -> T: ...
    @overload
    def __getitem__(self, index: slice) -> List[T]: ...

    def __getitem__(self, index: Union[int, slice]) -> Union[T, List[T]]:
        return self.list[index]

    def _in_order(self) -> List[Any]:
        items: List[Any] = []
        for it in self.list:
            items += [self.separator, it] if items else [it]
        return items

    def _listing(self) -> int:
        """The node of the items and what separates them."""
        return self._node

    def _fill(self) -> None:
        tree, rules = self._tree, self._tree.rules
        parts, kind = tree.children(self._listing()), SEPARATORS[rules[self._node]]
        between = tree.children(parts[1]) if parts else []
        items = [parts[0], *between[1::2]] if parts else []
        keep(self, "list", [MAKE[rules[it]](tree, it) for it in items])
        # where there is none, it has no text, and is at the end of the items
        at = between[0] if between else parts[1] if parts else self._node
        keep(self, "separator", _placed_at(kind, tree, at))

    def _written_parts(self, style: Any) -> Iterator[Tuple[bool, Any]]:
        form = style.listed(type(self).__name__, self._fronts, type(self.separator).__name__)
        yield True, form.opening
        for number, it in enumerate(self.list):
            yield from ((True, ", " if number else ""), (False, it))
        yield True, form.closing

    @classmethod
    def _entry(cls, style: Any, rule: int) -> Any:
        return style.listed(cls.__name__, cls._fronts, SEPARATORS[rule].__name__)
