"""A language server for WebIDL.

    weedle lsp [--stdio | --help]

It speaks the Language Server Protocol over standard input and output, and needs no more than this
package. docs/EDITORS.md says how editors start it. The status is 0 where the client shut it down
before it ended, and else 1; 5 where there are other arguments.
"""

from __future__ import annotations

import os
import sys
from typing import Sequence

from weedle.lsp.server import Server

__all__ = ["Server", "main"]

IN, OUT, ERRORS = range(3)
ENDED, MISUSED = 1, 5
USAGE = "usage: weedle lsp [--stdio | --help]"
HELP = f"""{USAGE}

Serves WebIDL to an editor by the Language Server Protocol, over standard input and output.

options:
  --stdio  what it does anyway, since editors say so
  --help   show this help message and exit

Status: 0 the client shut it down before it ended, 1 it didn't, 5 other arguments than these."""


def main(words: Sequence[str] = ()) -> int:
    """Serves over standard input and output until the client ends it."""
    if "--help" in words or "-h" in words:
        print(HELP)
        return 0
    if set(words) - {"--stdio"}:
        print(f"{USAGE}\nweedle lsp: it takes no arguments but --stdio", file=sys.stderr)
        return MISUSED
    try:
        given, taken = (os.fdopen(os.dup(it), mode) for it, mode in ((IN, "rb"), (OUT, "wb")))
        # what is printed by mistake must not be among the messages
        os.dup2(ERRORS, OUT)
        return Server(given, taken).run()  # type: ignore[arg-type]  # both are of bytes
    except OSError:
        return ENDED  # the client is gone, or there never was one
