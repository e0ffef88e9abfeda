"""Values that were built of their parts: they are in no text, and say the same as one that was read."""

from __future__ import annotations

from functools import cache
from typing import Any, Dict, Iterator, List, Sequence, Tuple, get_type_hints

from weedle import _words
from weedle._dialect import TODAY, WEEDLE2, Grammar
from weedle._formatting import format
from weedle._making import Parts, parts_of
from weedle._placed import UNPLACED

# Definitions of one of these kinds that take a line each are below one another.
STATEMENTS = frozenset({"Callback", "Typedef", "IncludesStatement", "Implements"})
# The modules of definitions, and that of what today's tree alone has.
OF_TODAY = "weedle.today"
OF_DEFINITIONS = frozenset(["weedle.definitions", OF_TODAY])


@cache
def fields_of(kind: Any) -> Tuple[Tuple[str, ...], Dict[str, Any]]:
    """The fields that are given, and those that are the same words always, with their classes."""
    hints = get_type_hints(kind)
    words = {name: hints[name] for name in kind._names if name in kind._words}
    return tuple(name for name in kind._names if name not in words), words


def hold(value: Any, parts: Sequence[Any]) -> None:
    """Makes it a value that was built, of the parts that are given."""
    given, words = fields_of(value.__class__)
    own = dict(zip(given, parts))
    for name, kind in words.items():
        kinds = getattr(kind, "__args__", None)
        own[name] = parts_of(it() for it in kinds) if kinds else kind()
    built(type(value), own, value)


def built(kind: Any, own: Dict[str, Any], value: Any = None) -> Any:
    """A value of a class, of all its parts by their names."""
    value = object.__new__(kind) if value is None else value
    object.__setattr__(value, "_tree", UNPLACED)
    object.__setattr__(value, "_node", -1)
    value.__dict__.update(own)
    return value


def replaced(value: Any, parts: Dict[str, Any]) -> Any:
    """A value of the same parts, except for these."""
    for name in parts:
        if name not in value._names:
            raise TypeError(f"{type(value).__qualname__} has no field {name!r}")
    return built(type(value), {name: parts.get(name, getattr(value, name)) for name in value._names})


def walk(root: Any) -> Iterator[Any]:
    """The value and all below it, each before those below it."""
    waiting = [root]
    while waiting:
        it = waiting.pop()
        if isinstance(it, (list, tuple)):
            waiting += reversed(it)
        elif it is not None and not isinstance(it, (str, bool)):
            if it._tree is UNPLACED:
                yield it
                waiting += reversed(it._in_order())
            else:
                yield from it.walk()


def written(root: Any, style: Any) -> str:
    """The value in a style of `_writing`: as one that was read."""
    pieces: List[str] = []
    # a text that is written as it is, or a value
    waiting: List[Tuple[bool, Any]] = [(False, root)]
    while waiting:
        is_text, it = waiting.pop()
        if is_text:
            pieces.append(it)
        elif getattr(it, "_tree", UNPLACED) is not UNPLACED and not isinstance(it, Parts):
            pieces.append(it._written(style))
        else:
            waiting += reversed(list(written_parts(it, style())))
    return "".join(pieces)


def written_parts(it: Any, style: Any) -> Iterator[Tuple[bool, Any]]:
    """What a value is written of, in turn: texts, and the values between them."""
    if it is None:
        yield True, style.absent
        return
    if not isinstance(it, (list, tuple)):
        yield from it._written_parts(style)
        return
    name = "RecordTypes" if isinstance(it, tuple) and _words.is_record(it) else ""
    form = style.together(name) if isinstance(it, tuple) else style.many()
    yield True, form.opening
    for number, part in enumerate(it):
        yield True, form.front(number)
        yield False, part
    yield True, form.closing


def to_webidl(value: Any) -> str:
    """The value as WebIDL, formatted where it is a definition, or a list of such."""
    from weedle import parse  # it is above the values

    items, grammar = value if isinstance(value, list) else [value], grammar_of(value)
    if not items or not all(map(is_definition, items)):
        return _words.one_line(value, grammar)
    # lines end as this one does, and not as one of a docstring with a CR
    last = getattr(value, "docstrings", []) if value is items else []
    said = f"{apart(items, grammar)}\n{_words.one_line(last, grammar)}"
    found = format(said, dialect=grammar.name)
    if not is_said(value, parse(found, dialect=grammar.name)):
        raise _words.Unwritable(f"no text says what was built: {found!r} is read as something else")
    return found


def apart(definitions: List[Any], grammar: Grammar) -> str:
    """The words of definitions: statements of one kind are below one another, and others apart."""
    text, before = "", ""
    for it in definitions:
        kind = getattr(it, "variant", "")
        if text:
            text += "\n" if kind == before and kind in STATEMENTS else "\n\n"
        text, before = text + _words.one_line(it, grammar), kind
    return text


def is_definition(value: Any) -> bool:
    """Whether a value is a definition, or what one holds."""
    return type(value).__mro__[1].__name__ == "Definition" or (
        type(value).__module__ in OF_DEFINITIONS and type(value).__name__.endswith("Definition")
    )


def grammar_of(root: Any) -> Grammar:
    """The grammar by which a value is written, or several: today's where one of today's is in them."""
    waiting = [root]
    while waiting:
        it = waiting.pop()
        tree = getattr(it, "_tree", UNPLACED)
        is_built = tree is UNPLACED
        if type(it).__module__ == OF_TODAY or not is_built and tree.grammar == TODAY:
            return TODAY
        if is_built and isinstance(it, (list, tuple)):
            waiting += it
        elif is_built and it is not None and not isinstance(it, (str, bool)):
            waiting += it._in_order()
    return WEEDLE2


def is_said(value: Any, definitions: Any) -> bool:
    """Whether definitions are those of a value; what was read isn't compared again."""
    items = value if isinstance(value, list) else [value]
    return len(items) == len(definitions) and all(
        it._tree is not UNPLACED or it in (other, other.value) for it, other in zip(items, definitions)
    )
