"""What passed and what failed, and how it is printed."""

from __future__ import annotations

from collections.abc import Iterable
from typing import NamedTuple

from shared.case_files import compact

# How many failures of a kind are shown, and how much of each value.
SHOWN, LENGTH = 10, 3_000


class Failure(NamedTuple):
    """A case that failed: what it is, what was wanted, and what came."""

    what: object
    wanted: object
    came: object

    def __str__(self) -> str:
        return f"FAILED: {short(self.what)}\n  wanted: {short(self.wanted)}\n  came:   {short(self.came)}"


class Wrong(NamedTuple):
    """A case that failed: what it is, and what is wrong."""

    what: object
    why: object

    def __str__(self) -> str:
        return f"FAILED: {short(self.what)}\n  {short(self.why)}"


def short(value: object) -> str:
    """A value on a line, or its front."""
    text = value if isinstance(value, str) else compact(value)
    return repr(text[:LENGTH]) + (f" and {len(text) - LENGTH} characters more" if len(text) > LENGTH else "")


def compared(what: object, wanted: object, came: object) -> Failure | None:
    """A failure where something else came than was wanted."""
    return None if wanted == came else Failure(what, wanted, came)


class Report:
    """How many cases passed and failed so far. It prints those that fail."""

    def __init__(self) -> None:
        self.passed = self.failed = 0

    def add(self, kind: str, count: int, failures: Iterable[Failure | Wrong | None], more: str = "") -> None:
        """Adds so many cases of a kind with their failures, of which None is none, and prints a line."""
        found = [it for it in failures if it]
        for it in found[:SHOWN]:
            print(it)
        self.passed, self.failed = self.passed + count - len(found), self.failed + len(found)
        if count:
            print(f"{kind}: {count - len(found)} passed, {len(found)} failed{more}", flush=True)

    def status(self) -> int:
        """Prints the sum. The status of the run."""
        print(f"{self.passed} passed, {self.failed} failed")
        return 0 if self.passed and not self.failed else 1
