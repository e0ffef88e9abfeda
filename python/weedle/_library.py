"""The shared object: where it is found, and its calls."""

from __future__ import annotations

import ctypes
import mmap
import os
from ctypes import POINTER, Structure, byref, c_char_p, c_size_t, c_uint32
from pathlib import Path
from typing import Any, Callable, List, NamedTuple, Optional, Tuple, Union

from weedle.grammar import RULES, VERSION

# The variable that names another shared object, and where one is looked for where it isn't set:
# beside the package, and in the repository that the package is in, for this processor.
VARIABLE = "WEEDLE_SO"
HOME = Path(__file__).resolve().parent
OWN = HOME / "libweedle.so"
MACHINE = os.uname().machine
PREBUILT = HOME.parents[1] / f"prebuilt/{MACHINE}-linux/libweedle.so"

# The type of a node's numbers, FORMAT as a memoryview names it, and their order.
NUMBER, FORMAT = c_uint32, "I"
FIELDS = ("rule", "depth", "start", "end")
NODE_SIZE = len(FIELDS) * ctypes.sizeof(NUMBER)
# What the calls answer, as `enum weedle_status` of include/weedle.h has it. The last is of today's rules
# alone: of a text that nests too deep for what is asked.
READ, REFUSED, NOT_UTF8, NO_MEMORY, NO_ROOM, TOO_LONG = range(6)
TOO_DEEP = 9
# The dialect that is meant where none is given: weedle2's.
USUAL = 0
# Few texts have more parts than bytes.
LEAST_PARTS = 64
# How many bytes there is room for at first: no message was found that has 1,024, and no words that have 2,048.
MESSAGE_ROOM = WORDS_ROOM = 4096
# How many nodes there is room for at first: the densest text that was found has 9.3 for a byte.
NODES_A_BYTE, LEAST_NODES = 12, 64
# Room of more bytes is taken page by page as it is written to, and none is kept free for it before:
# Python names that flag of Linux from 3.13 on.
LARGE = 1 << 17
PAGED = mmap.MAP_PRIVATE | mmap.MAP_ANONYMOUS | getattr(mmap, "MAP_NORESERVE", 0x4000)

Buffer = Union[bytearray, mmap.mmap]


class SyntaxAnswer(Structure):
    """How many nodes there are, and where the remaining input begins."""

    _fields_ = [("count", c_size_t), ("rest", c_size_t)]


class ExplainAnswer(Structure):
    """Where a text is refused, how long the message is, and what the hint is."""

    _fields_ = [
        ("start", c_size_t),
        ("place", c_size_t),
        ("line", c_size_t),
        ("column", c_size_t),
        ("length", c_size_t),
        ("hint", c_size_t),
        ("hint_place", c_size_t),
        ("hint_length", c_size_t),
        ("hint_offset", c_size_t),
    ]


class ExpectAnswer(Structure):
    """How many words there are, how long they are, and where they are expected."""

    _fields_ = [("count", c_size_t), ("length", c_size_t), ("place", c_size_t)]


class RecoverAnswer(Structure):
    """How many parts there are, how many nodes they have, and how many parts are unread."""

    _fields_ = [("parts", c_size_t), ("nodes", c_size_t), ("unread", c_size_t), ("rest", c_size_t)]


class FormatAnswer(Structure):
    """How long the formatted text is, where the remaining input begins, and whether it was formatted."""

    _fields_ = [("length", c_size_t), ("rest", c_size_t), ("is_laid_out", c_size_t)]


class Explanation(NamedTuple):
    """Why a text is refused: the place in bytes, its line and column, the message and the hint."""

    place: int
    line: int
    column: int
    message: str
    #: The line of the message that has the hint; empty where there is none.
    hint: str
    #: Its kind, as `enum weedle_hint` of include/weedle.h has it, and the bytes that it speaks of.
    kind: int
    hint_place: int
    hint_length: int


class Part(NamedTuple):
    """A part: its rule, whether it is read, where it begins and ends, and where its definition begins."""

    rule: int
    is_read: int
    start: int
    end: int
    definition: int


class PartNumbers(Structure):
    """A part as C has it."""

    _fields_ = [(name, NUMBER) for name in Part._fields]


PART_FIELDS, PART_SIZE = len(Part._fields), ctypes.sizeof(PartNumbers)


class Unread(Exception):
    """The status of a text that gives no nodes, and the byte that the library says of it."""

    def __init__(self, status: int, rest: int) -> None:
        super().__init__(status, rest)
        self.status, self.rest = status, rest


def place() -> Path:
    """Where the shared object is, or where it would have to be."""
    named = os.environ.get(VARIABLE)
    if named:
        return Path(named)
    return PREBUILT if PREBUILT.exists() and not OWN.exists() else OWN


def _loaded() -> ctypes.CDLL:
    """The shared object, which has to be of this package's version."""
    path = place()
    try:
        library = ctypes.CDLL(str(path))
    except OSError as fault:
        raise ImportError(_unloaded(path, fault)) from None
    try:
        _compare(path, library)
    except AttributeError as fault:
        raise ImportError(f"{path} isn't weedle's shared object: {fault}") from None
    _declare(library)
    return library


def _compare(path: Path, library: ctypes.CDLL) -> None:
    """Refuses a shared object of another version, or one that lacks calls."""
    library.weedle_version.restype = library.weedle_rules.restype = c_uint32
    found = library.weedle_version(), library.weedle_rules()
    wanted = VERSION, len(RULES)
    lacking = [name for name in CALLS if not hasattr(library, name)] if found == wanted else []
    if found != wanted or lacking:
        lacks = f" without {lacking[0]}" if lacking else ""
        raise ImportError(
            f"{path} has version {found[0]:#08x} and {found[1]} rules{lacks}, and this package "
            f"{wanted[0]:#08x} and {wanted[1]}: build it anew by python/build.sh"
        )


def _unloaded(path: Path, fault: OSError) -> str:
    """What is said where the shared object isn't there, or is for another machine."""
    if os.environ.get(VARIABLE):
        where = f"{path}, which {VARIABLE} names"
    elif path.exists():
        where = f"{path} ({VARIABLE} isn't set)"
    else:
        where = f"{OWN} and {PREBUILT} ({VARIABLE} isn't set)"
    if path.exists():
        said = f"can't load {where}. It has to be for Linux on {MACHINE}, as this Python"
    else:
        said = f"finds no shared object: it looked for {where}"
    return f"weedle {said}. python/build.sh of the repository makes it. ({fault})"


# What a call is given first, a dialect or a rule and the text, and the room that it writes to.
TEXT: List[Any] = [c_uint32, c_char_p, c_size_t]
ROOM: List[Any] = [ctypes.c_void_p, c_size_t]
CALLS = {
    "weedle_syntax_in": [*TEXT, *ROOM, POINTER(SyntaxAnswer)],
    "weedle_syntax_of": [*TEXT, *ROOM, POINTER(SyntaxAnswer)],
    "weedle_explain_in": [*TEXT, c_size_t, *ROOM, POINTER(ExplainAnswer)],
    "weedle_explain_part_in": [*TEXT, POINTER(PartNumbers), *ROOM, POINTER(ExplainAnswer)],
    "weedle_expected_in": [*TEXT, c_size_t, *ROOM, POINTER(ExpectAnswer)],
    "weedle_expected_part_in": [*TEXT, POINTER(PartNumbers), *ROOM, POINTER(ExpectAnswer)],
    "weedle_recover_in": [*TEXT, *ROOM, *ROOM, POINTER(RecoverAnswer)],
    "weedle_format_in": [*TEXT, *ROOM, POINTER(FormatAnswer)],
}


def _declare(library: ctypes.CDLL) -> None:
    for name, types in CALLS.items():
        call = getattr(library, name)
        call.argtypes, call.restype = types, c_uint32


LIBRARY = _loaded()


def _room(size: int) -> Buffer:
    """So many bytes. A large room takes memory only where it is written to."""
    if size < LARGE:
        return bytearray(size)
    try:
        return mmap.mmap(-1, size, flags=PAGED)
    except (OSError, OverflowError):
        raise MemoryError(f"no memory for {size} bytes") from None


def _call(
    data: bytes, nodes: int, rule: Optional[int] = None, dialect: int = USUAL,
) -> tuple[int, Buffer, SyntaxAnswer]:
    """The status with room for so many nodes, the room, and the answer; of a rule, or of the text."""
    # No pointer is null, also where there is room for no node.
    room = _room(max(nodes, 1) * NODE_SIZE)
    answer = SyntaxAnswer()
    # A view has to go before the room can shrink.
    address = ctypes.addressof(ctypes.c_char.from_buffer(room))
    if rule is None:
        status = LIBRARY.weedle_syntax_in(dialect, data, len(data), address, nodes, byref(answer))
    else:
        status = LIBRARY.weedle_syntax_of(rule, data, len(data), address, nodes, byref(answer))
    return status, room, answer


def _first_call(
    data: bytes, rule: Optional[int], dialect: int,
) -> tuple[int, Buffer, SyntaxAnswer]:
    """The same with room for all nodes; where the system grants no such room, they are counted."""
    try:
        return _call(data, _most_nodes(data), rule, dialect)
    except MemoryError:
        return _call(data, 0, rule, dialect)


def read_nodes(data: bytes, rule: Optional[int] = None, dialect: int = USUAL) -> memoryview:
    """The numbers of all nodes, four a node, or Unread: of a rule at the front, or of the whole text."""
    status, room, answer = _first_call(data, rule, dialect)
    if status == NO_ROOM:
        status, room, answer = _call(data, answer.count, rule, dialect)
    if status != READ:
        raise Unread(status, answer.rest)
    return memoryview(_cut(room, answer.count * NODE_SIZE)).cast("B").cast(FORMAT)


def _cut(room: Buffer, size: int) -> Buffer:
    """The room, cut to so many bytes: the others are given back."""
    if isinstance(room, bytearray):
        del room[size:]
    else:
        room.resize(size)
    return room


def _address(room: Buffer) -> int:
    """Where a room is; a view has to go before it can shrink."""
    return ctypes.addressof(ctypes.c_char.from_buffer(room))


def _numbers(part: Part) -> PartNumbers:
    return PartNumbers(*part)


def is_read(data: bytes, dialect: int) -> bool:
    """Whether the rules of a dialect read a whole text; no nodes are written."""
    status, _, _ = _call(data, 0, None, dialect)
    return status in (READ, NO_ROOM)


def explain(data: bytes, start: int, dialect: int = USUAL) -> Explanation:
    """Why the text from a byte on is refused; MemoryError where there is no room to find it.

    RecursionError of a text that nests too deep for it.
    """
    call = LIBRARY.weedle_explain_in
    return _explained(lambda *room: call(dialect, data, len(data), start, *room))


def explain_part(data: bytes, part: Part, dialect: int = USUAL) -> Explanation:
    """Why a part is unread, with the same exceptions."""
    call = LIBRARY.weedle_explain_part_in
    return _explained(lambda *room: call(dialect, data, len(data), byref(_numbers(part)), *room))


def _explained(call: Callable[..., int]) -> Explanation:
    """What a call says that is given a room, and how many bytes it has."""
    size = MESSAGE_ROOM
    while True:
        room, answer = bytearray(size), ExplainAnswer()
        status = call(_address(room), size, byref(answer))
        if status == NO_MEMORY:
            raise MemoryError("no memory to explain why the text is refused")
        if status == TOO_DEEP:
            raise RecursionError("the text nests too deep to explain why it is refused")
        if answer.length < size:
            break
        # A zero follows the message.
        size = answer.length + 1
    message, hint = (room[at:answer.length].decode() for at in (0, answer.hint_offset))
    return Explanation(
        answer.place, answer.line, answer.column, message, hint.rstrip("\n"), answer.hint,
        answer.hint_place, answer.hint_length,
    )


def expected(data: bytes, start: int, dialect: int = USUAL) -> List[str]:
    """The words for what would go on where the reading from a byte on comes furthest.

    Else MemoryError, or RecursionError of a text that nests too deep for it.
    """
    call = LIBRARY.weedle_expected_in
    return _expected(lambda *room: call(dialect, data, len(data), start, *room))


def expected_part(data: bytes, part: Part, dialect: int = USUAL) -> List[str]:
    """The same of an unread part."""
    call = LIBRARY.weedle_expected_part_in
    return _expected(lambda *room: call(dialect, data, len(data), byref(_numbers(part)), *room))


def _expected(call: Callable[..., int]) -> List[str]:
    """The words that a call writes, each with a zero behind it."""
    size, status = WORDS_ROOM, NO_ROOM
    while status == NO_ROOM:
        room, answer = bytearray(size), ExpectAnswer()
        status, size = call(_address(room), size, byref(answer)), answer.length
    if status == TOO_DEEP:
        raise RecursionError("the text nests too deep to say what is expected")
    if status != READ:
        raise MemoryError("no memory to say what is expected")
    return room[:answer.length].decode().split("\0")[:-1]


def recover(data: bytes, dialect: int = USUAL) -> Tuple[List[Part], memoryview]:
    """The parts of a text, and the numbers of the nodes of those that are read, or Unread."""
    try:
        rooms = _room((len(data) + LEAST_PARTS) * PART_SIZE), _room(_most_nodes(data) * NODE_SIZE)
    except MemoryError:
        rooms = bytearray(PART_SIZE), bytearray(NODE_SIZE)
    status, answer = _recovered(data, dialect, *rooms)
    if status == NO_ROOM:
        rooms = _room(answer.parts * PART_SIZE), _room(max(answer.nodes, 1) * NODE_SIZE)
        status, answer = _recovered(data, dialect, *rooms)
    if status != READ:
        raise Unread(status, answer.rest)
    parts = memoryview(rooms[0])[:answer.parts * PART_SIZE].cast("B").cast(FORMAT).tolist()
    found = [Part(*parts[at:at + PART_FIELDS]) for at in range(0, len(parts), PART_FIELDS)]
    nodes = _cut(rooms[1], answer.nodes * NODE_SIZE) if answer.nodes else b""
    return found, memoryview(nodes).cast("B").cast(FORMAT)


def _recovered(
    data: bytes, dialect: int, parts: Buffer, nodes: Buffer,
) -> Tuple[int, RecoverAnswer]:
    """The status with these rooms, and the answer."""
    answer = RecoverAnswer()
    status = LIBRARY.weedle_recover_in(
        dialect, data, len(data), _address(parts), len(parts) // PART_SIZE,
        _address(nodes), len(nodes) // NODE_SIZE, byref(answer),
    )
    return status, answer


def _most_nodes(data: bytes) -> int:
    """How many nodes there is room for at first."""
    return len(data) * NODES_A_BYTE + LEAST_NODES


def lay_out(data: bytes, dialect: int = USUAL) -> bytes:
    """The formatted text, or Unread."""
    size = 2 * len(data) + LEAST_NODES
    while True:
        room, answer = _room(size), FormatAnswer()
        address = ctypes.addressof(ctypes.c_char.from_buffer(room))
        status = LIBRARY.weedle_format_in(
            dialect, data, len(data), address, size, byref(answer),
        )
        if status == READ:
            return bytes(memoryview(room)[:answer.length])
        if status != NO_ROOM:
            raise Unread(status, answer.rest)
        size = answer.length
