"""The words of a value, one behind another, and the text that they make."""

from __future__ import annotations

import re
from typing import Any, Iterator, List

from weedle._dialect import WEEDLE2, Grammar

# What is among words: nothing is to be between the words beside it; a type ends here; arguments
# begin, which are apart behind a type alone.
JOINED, TYPE_ENDS, ARGUMENTS = object(), object(), object()
# Words with nothing in front of them, or behind them.
TIGHT_IN_FRONT = frozenset([";", ",", ")", "]", "<", ">", "?", "..."])
TIGHT_BEHIND = frozenset(["(", "[", "<"])
# A name, and what may be between quotes.
NAME, STRING = re.compile(r"[A-Za-z][A-Za-z0-9_-]*"), re.compile(r'[^"]*')


class Unwritable(ValueError):
    """A value that was built of what no text says, as of a name with a space in it."""


def is_record(parts: Any) -> bool:
    """Whether parts without names are those of a record: a type of keys, a comma and a type."""
    return len(parts) == 3 and type(parts[0]).__mro__[1].__name__ == "RecordKeyType"


class Writer:
    """Writes words, with a space between two where one belongs."""

    def __init__(self, grammar: Grammar = WEEDLE2) -> None:
        self.pieces: List[str] = []
        self.grammar = grammar
        # the word before, as `READ_BEHIND` has it
        self.before = ""
        self.is_joined, self.is_behind_type, self.is_behind_lines = True, False, False

    def mark(self, mark: object) -> None:
        """Takes what is among the words."""
        if mark is TYPE_ENDS:
            self.is_behind_type = True
        elif mark is JOINED or not self.is_behind_type:
            self.is_joined = True

    def put(self, text: str, word: str) -> None:
        """Writes a word, which `word` says for those behind it."""
        is_tight = self.is_joined or text in TIGHT_IN_FRONT or self.before + text == "{}"
        self.pieces.append(text if is_tight else " " + text)
        self.before, self.is_behind_type, self.is_behind_lines = word, False, False
        self.is_joined = text in TIGHT_BEHIND

    def put_name(self, name: str) -> None:
        """Writes a name, behind an underscore where a keyword would be read in its place."""
        if not NAME.fullmatch(name):
            raise Unwritable(f"{name!r} is no name")
        known = self.grammar
        read = known.read_behind.get(self.before, ()) if self.before else known.keywords
        self.put(f"_{name}" if name in read else name, "a")

    def put_leaf(self, value: Any) -> None:
        """Writes a number, or `true` or `false`."""
        self.put(str(value).lower() if isinstance(value, bool) else value, "")

    def put_string(self, text: str) -> None:
        """Writes a text in quotes."""
        if not STRING.fullmatch(text):
            raise Unwritable(f"{text!r} has a quote")
        self.put(f'"{text}"', "")

    def put_lines(self, lines: str) -> None:
        """Writes a docstring, behind an empty comment where it would go on with another one."""
        if self.is_behind_lines:
            self.pieces.append("//\n")
        self.pieces.append("".join(f"///{it}\n" for it in lines.split("\n")))
        self.before, self.is_joined, self.is_behind_lines = "", True, True

    def write(self, root: Any) -> None:
        """Writes the words of a value. Nothing here calls itself: values nest as deep as they will."""
        waiting = [root]
        while waiting:
            it = waiting.pop()
            if it is JOINED or it is TYPE_ENDS or it is ARGUMENTS:
                self.mark(it)
            elif isinstance(it, (list, tuple)):
                waiting += reversed(it)
            elif it is not None:
                waiting += reversed(list(it._put(self)))


def marked(value: Any) -> Iterator[Any]:
    """The parts of a value, with what is among them."""
    is_attribute = type(value).__name__.startswith("ExtendedAttribute")
    result = getattr(value, "return_type", None)
    for it in value._in_order():
        is_joined = is_attribute and type(it).__name__ == "Assign"
        if is_joined or type(it).__name__ == "Parenthesized" and is_arguments(it):
            yield JOINED if is_joined else ARGUMENTS
        yield it
        if is_joined:
            yield JOINED
        if it is not None and it is result:
            yield TYPE_ENDS


def is_arguments(it: Any) -> bool:
    """Whether these parentheses have arguments, and no types of a union."""
    return type(it.body.separator).__name__ == "Comma"


def one_line(value: Any, grammar: Grammar = WEEDLE2) -> str:
    """The words of a value, or of several, on a line except for docstrings."""
    writer = Writer(grammar)
    writer.write(value)
    return "".join(writer.pieces)
