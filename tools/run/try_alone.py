"""Runs `rt try` alone, without the check that it runs beside itself: that takes as long again.

    python3 tools/run/try_alone.py [WORD..]

The words are those of `rt try`, as `--test --seconds 600`, and it is called in a crate's folder. What is compiled and run
is `rt`'s own, and so are what is printed and the status: this loads the command `rt` as a module and calls its `try`.
Beside a try `rt` checks the crate, as far as names that are reserved in a clause are found, and says no more of it. `rt
check` and the gate refuse such a name too. So here a program that ends at once stands in the place of that check.

Where `rt try` is another than the one that is known here, or can't be read as Python, it is called as it is, and a line
on standard error says so. The status is that of `rt try`, or 2 where there is no command `rt`.
"""

import inspect
import subprocess
import sys
from pathlib import Path

if not __package__:
    sys.path[0] = str(Path(__file__).resolve().parent.parent)

from shared import toolchain
from shared.command_line import take_none

IDLE = "true"
# How the source of `rt try` names the program that checks, and what it looks for in what that says.
CHECKER, LOOKS_FOR = "RATTLE", "reserved-name"


def is_known(rt):
    """Whether `rt try` is the one that is known here: it names the program that checks once, for the check beside."""
    try:
        source = inspect.getsource(rt.rtlib.Crate.try_unproved)
        names_it = isinstance(getattr(rt.rtlib, CHECKER), str)
    except (AttributeError, TypeError, OSError):
        return False
    return names_it and source.count(CHECKER) == 1 and LOOKS_FOR in source


def main(words):
    if words == ["--help"]:
        take_none(__doc__)
    path = toolchain.command()
    if path is None:
        print("try_alone.py: there is no command rt on PATH", file=sys.stderr)
        return 2
    rt = toolchain.load(path)
    if rt is None or not is_known(rt):
        print("try_alone.py: this rt tries otherwise, so it is called as it is", file=sys.stderr, flush=True)
        return subprocess.run(["rt", "try", *words], check=False).returncode
    setattr(rt.rtlib, CHECKER, IDLE)
    return rt.main(["try", *words])


if __name__ == "__main__":
    sys.exit(main(sys.argv[1:]))
