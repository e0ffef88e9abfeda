"""Messages of JSON-RPC on a stream: a header that says how many bytes follow, and JSON.

    Content-Length: 38

    {"jsonrpc":"2.0","method":"initialized"}
"""

from __future__ import annotations

import json
from typing import Any, BinaryIO, Dict, Optional

#: A message, as JSON has it.
Message = Dict[str, Any]
LENGTH = b"content-length"
# A body that is longer is none that an editor sends.
MOST = 1 << 30


class Malformed(ValueError):
    """A body that is no message. What follows it can be read."""


def length_in(stream: BinaryIO) -> Optional[int]:
    """The length that a header says, or None at the end of the stream; -1 where it says none."""
    length, is_begun = -1, False
    while True:
        line = stream.readline(1 << 16)
        if not line:
            return None
        line = line.strip()
        if not line and is_begun:
            return length
        is_begun = is_begun or bool(line)
        name, _, value = line.partition(b":")
        if name.strip().lower() == LENGTH and value.strip().isdigit():
            length = int(value)


def read_message(stream: BinaryIO) -> Optional[Message]:
    """The next message, or None at the end of the stream.

    Malformed where a header has no length, or a body is no JSON object.
    """
    length = length_in(stream)
    if length is None:
        return None
    if not 0 <= length <= MOST:
        raise Malformed("a header without a Content-Length")
    body = stream.read(length)
    if len(body) < length:
        return None
    try:
        message = json.loads(body)
    except (ValueError, RecursionError) as fault:
        raise Malformed(f"a body that is no JSON: {fault}") from None
    if not is_message(message):
        raise Malformed("a body that is no message")
    found: Message = message
    return found


def is_message(it: Any) -> bool:
    """Whether a value of JSON is a request, a notification or an answer."""
    if not isinstance(it, dict) or not isinstance(it.get("id"), (int, str, type(None))):
        return False
    return isinstance(it.get("method", ""), str) and isinstance(it.get("params") or {}, dict)


def packed(message: Message) -> bytes:
    """The bytes of a message, with its header."""
    body = json.dumps({"jsonrpc": "2.0", **message}, separators=(",", ":")).encode()
    return b"Content-Length: %d\r\n\r\n%b" % (len(body), body)
