#!/usr/bin/env python3
"""Renames a definition in WebIDL files, wherever it is spoken of, and prints what that changes:

    rename.py OLD NEW FILE.. > names.diff
"""

import difflib
import sys
from pathlib import Path
from typing import List

import weedle


def main(old: str, new: str, files: List[str]) -> int:
    """Prints the changes of files; the status is 1 where one can't be changed."""
    status = 0
    for name in files:
        text = Path(name).read_bytes()
        try:
            edits = weedle.Edits(text)
            edits.renames(old, new)
            old_lines, new_lines = (it.decode().splitlines(True) for it in (text, edits.apply()))
        except ValueError as fault:
            print(f"{name}: {fault}", file=sys.stderr)
            status = 1
            continue
        sys.stdout.writelines(difflib.unified_diff(old_lines, new_lines, name, name, n=0))
    return status


if __name__ == "__main__":
    sys.exit(main(sys.argv[1], sys.argv[2], sys.argv[3:]))
