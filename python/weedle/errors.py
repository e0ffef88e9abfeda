"""Why a text gives no tree."""

from __future__ import annotations

import re
from enum import Enum
from functools import cached_property
from typing import ClassVar, List, Optional, Tuple

from weedle import _library
from weedle._dialect import TODAY, WEEDLE2, Dialect, grammar_of
from weedle._text import Span, Text
from weedle.grammar import NUMBERS

# How many words a message has at most.
SHOWN = 6
# The rules of members.
MEMBERS = frozenset(
    NUMBERS[name]
    for member in ("interface_member", "dictionary_member", "mixin_member", "namespace_member")
    for name in (member, f"today_{member}")
)
# What is said of a text that weedle2's rules refuse and today's read whole, and how Python says so.
READ_TODAY, IN_PYTHON = "today's WebIDL reads it", 'dialect="today"'
# So many bytes in front of a part are given with it: what is at the front of a text may mean more.
BEFORE = 8
# A line and a column, in front of a hint.
POSITION = re.compile(r"\d+:\d+: ")


class Hint(Enum):
    """What would fix a text, or what it lacks: what is said of the bytes at `hint_span`."""

    #: A keyword belongs there in place of a word that differs by a letter.
    KEYWORD = 1
    #: A sign is missing there.
    MISSING = 2
    #: The sign there is too many.
    EXTRA = 3
    #: Another sign belongs there.
    WRONG_SIGN = 4
    #: Two words are there in the wrong order.
    WORD_ORDER = 5
    #: A docstring is where none may.
    DOCSTRING = 6
    #: A string opens there that isn't closed.
    OPEN_STRING = 7
    #: A string opens there that ends in another line.
    SPLIT_STRING = 8
    #: A byte order mark is there.
    BYTE_ORDER_MARK = 9
    #: The text has no definitions.
    NO_DEFINITIONS = 10


class Refused(ValueError):
    """A text that the grammar doesn't read whole.

    Of `interface A {}; enum E { "a" "b" };` the second definition, from byte 16 on, isn't read:
    the reading comes to line 1, column 30, where a `,` or a `}` would go on.

    What is expected is found when it is asked for: mostly in some 300 nanoseconds for each byte of
    the definition that isn't read, and up to sixteen changes are tried for a hint, each once or
    twice. What precedes that definition isn't read again. Where the text nests deep, by a
    table of it from `start` on, which takes some 1,600 bytes of memory and 2 microseconds a byte.
    Today's rules have no such table: of a text that nests too deep for them no more is said.
    """

    # Whether it speaks of a whole text, as only then another dialect may be meant.
    _is_of_whole: ClassVar[bool] = True

    def __init__(self, text: Text, start: int, dialect: str = WEEDLE2.name) -> None:
        super().__init__(text, start, dialect)
        self._text, self._grammar = text, grammar_of(dialect)
        #: The byte from which on the text is unread: where the first definition that isn't begins.
        self.start = start

    def _explain(self) -> _library.Explanation:
        return _library.explain(self._text.data, self.start, self._grammar.number)

    def _expect(self) -> List[str]:
        return _library.expected(self._text.data, self.start, self._grammar.number)

    @cached_property
    def _explanation(self) -> Optional[_library.Explanation]:
        try:
            return self._explain()
        except (MemoryError, RecursionError):
            return None

    @cached_property
    def words(self) -> List[str]:
        """All that would have been read there, as ["`,`", "`}`"]; none where memory ran out for it."""
        try:
            return self._expect()
        except (MemoryError, RecursionError):
            return []

    @property
    def dialect(self) -> Dialect:
        """The dialect whose rules refuse the text, as "weedle2"."""
        return self._grammar.name

    @cached_property
    def is_read_today(self) -> bool:
        """Whether weedle2's rules refuse the text, and those of today's WebIDL read it whole."""
        is_asked = self._is_of_whole and self._grammar == WEEDLE2
        return is_asked and _library.is_read(self._text.data, TODAY.number)

    @property
    def place(self) -> int:
        """The furthest byte to which the reading comes; `start` where memory ran out for more."""
        return self._explanation.place if self._explanation else self.start

    @property
    def line(self) -> int:
        """The line of that place, from 1 on."""
        return self._text.position(self.place).line

    @property
    def column(self) -> int:
        """Its column in characters, from 1 on."""
        return self._text.position(self.place).column

    @property
    def expected(self) -> str:
        """What would have been read there, as "`,` or `}`": of more than six words six, and how many more there are.

        It is empty where memory ran out for it.
        """
        words = self.words[:SHOWN]
        if len(self.words) > SHOWN:
            words.append(f"{len(self.words) - SHOWN} more")
        return " or ".join(filter(None, (", ".join(words[:-1]), *words[-1:])))

    @property
    def hint(self) -> Optional[str]:
        """What would fix the text, or what it lacks, with line and column; None where nothing was found.

        Of `interface A { atribute long x; };`, which is read up to column 29, it is
        "1:15: `attribute` in place of `atribute`?". A change is told only where the text was read
        again with it, and came to the end of the definition, or further by more than a member.
        """
        return self._explanation.hint or None if self._explanation else None

    @property
    def hint_kind(self) -> Optional[Hint]:
        """Which kind of hint that is."""
        found = self._explanation
        return Hint(found.kind) if found and found.kind else None

    @property
    def hint_span(self) -> Optional[Span]:
        """The bytes that it speaks of: the word, the sign, the lines; none where something is missing."""
        found = self._explanation
        if not found or not found.kind:
            return None
        return Span(found.hint_place, found.hint_place + found.hint_length)

    @property
    def message(self) -> str:
        """Line, column and what was expected, the line of the text with a mark, and the hint.

        Of a text that today's rules read whole the last line says so.
        """
        return self.said(IN_PYTHON)

    def said(self, how: str) -> str:
        """The message, whose last line says that today's rules read the text, and how that is asked for."""
        return self.why() + (f"\n{READ_TODAY}: {how}" if self.is_read_today else "")

    def why(self) -> str:
        """The message without that line."""
        if self._explanation:
            return self._explanation.message.rstrip("\n")
        line, column = self._text.position(self.start)
        why = "memory ran out" if self._grammar == WEEDLE2 else "it nests too deep, or memory ran out,"
        return f"{line}:{column}: unread from here on; {why} for more"

    def __str__(self) -> str:
        return self.message

    def __repr__(self) -> str:
        return f"Refused(start={self.start})"


class RuleRefused(Refused):
    """A text at whose front a rule that was asked for isn't read; of it no more is said."""

    _is_of_whole = False

    def __init__(self, text: Text, rule: str) -> None:
        super().__init__(text, 0)
        self.args = (text, rule)
        #: The name of the rule.
        self.rule = rule

    def _explain(self) -> _library.Explanation:
        raise MemoryError

    def _expect(self) -> List[str]:
        return [f"the rule `{self.rule}`"]

    def why(self) -> str:
        return f"1:1: expected {self.expected}"


class PartRefused(Refused):
    """An unread part of a text: why that part is unread, whatever is elsewhere.

    Only what is read for that is looked at: a member alone, and else its definition up to its end. So
    what it costs doesn't grow with the text, except for `message`.
    """

    _is_of_whole = False

    def __init__(
        self, text: Text, numbers: _library.Part, dialect: str = WEEDLE2.name,
    ) -> None:
        super().__init__(text, numbers.start, dialect)
        self.args = (text, numbers, dialect)
        self._numbers = numbers

    @cached_property
    def _stretch(self) -> Tuple[bytes, _library.Part, int]:
        """What is read for it, the numbers of the part in that, and where it begins in the text."""
        data, part = self._text.data, self._numbers
        # a member is read as the only one of its definition
        first = part.start if part.rule in MEMBERS else part.definition
        at = max(first - BEFORE, 0)
        while at > 0 and 0x80 <= data[at] < 0xC0:
            at -= 1
        moved = part._replace(start=part.start - at, end=part.end - at, definition=first - at)
        return data[at:part.end], moved, at

    def _explain(self) -> _library.Explanation:
        data, part, at = self._stretch
        found = _library.explain_part(data, part, self._grammar.number)
        hint_place = found.hint_place + at if found.kind else 0
        hint = self._placed(found.hint, hint_place)
        return found._replace(place=found.place + at, hint_place=hint_place, hint=hint)

    def _placed(self, hint: str, place: int) -> str:
        """A hint behind its line and column in the whole text."""
        found = POSITION.match(hint)
        if not found:
            return hint
        line, column = self._text.position(place)
        return f"{line}:{column}: {hint[found.end():]}"

    def _expect(self) -> List[str]:
        data, part, _ = self._stretch
        return _library.expected_part(data, part, self._grammar.number)

    def why(self) -> str:
        try:
            found = _library.explain_part(self._text.data, self._numbers, self._grammar.number)
        except (MemoryError, RecursionError):
            return super().why()
        return found.message.rstrip("\n")
