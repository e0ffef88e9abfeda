"""Words and numbers of the Language Server Protocol 3.17, as far as the server speaks it."""

from __future__ import annotations

from enum import IntEnum
from typing import Any, Callable, Dict

#: What a message carries.
Json = Dict[str, Any]
#: What is called now and then by what takes long: it raises where no answer is wanted any more.
Check = Callable[[], None]


def nothing() -> None:
    """A check that finds nothing."""


class Code(IntEnum):
    """Why a request has no result."""

    PARSE_ERROR = -32700
    INVALID_REQUEST = -32600
    METHOD_NOT_FOUND = -32601
    INVALID_PARAMS = -32602
    INTERNAL_ERROR = -32603
    NOT_INITIALIZED = -32002
    REQUEST_FAILED = -32803
    CANCELLED = -32800
    CONTENT_MODIFIED = -32801


class Fault(Exception):
    """A request that has no result, and why, as a person reads it."""

    def __init__(self, message: str, code: Code = Code.REQUEST_FAILED) -> None:
        super().__init__(message)
        self.message, self.code = message, code


class Cancelled(Fault):
    """A request whose answer isn't wanted any more."""

    def __init__(self) -> None:
        super().__init__("cancelled", Code.CANCELLED)


class Outdated(Fault):
    """A request about a text that was changed since: the editor asks again."""

    def __init__(self) -> None:
        super().__init__("the text was changed", Code.CONTENT_MODIFIED)


class Severity(IntEnum):
    """How bad a problem is."""

    ERROR = 1
    WARNING = 2


class SymbolKind(IntEnum):
    """What a symbol is called, of the names that the protocol has."""

    NAMESPACE = 3
    CLASS = 5
    METHOD = 6
    PROPERTY = 7
    FIELD = 8
    CONSTRUCTOR = 9
    ENUM = 10
    INTERFACE = 11
    FUNCTION = 12
    CONSTANT = 14
    ENUM_MEMBER = 22
    STRUCT = 23
    TYPE_PARAMETER = 26


class ItemKind(IntEnum):
    """What a completion is."""

    FUNCTION = 3
    CLASS = 7
    INTERFACE = 8
    MODULE = 9
    PROPERTY = 10
    VALUE = 12
    ENUM = 13
    KEYWORD = 14
    STRUCT = 22
    TYPE_PARAMETER = 25


class HighlightKind(IntEnum):
    """How a name is used where it is marked."""

    READ = 2
    WRITE = 3
