"""Writes the code that follows from the declarations of types, members and definitions.

tools/write/write_all.py runs it.

Who declares a struct or an enum writes it once, with docs and derives. Below each module MODULE.rt of
CRATES that declares some, this writes MODULE/written.rt, with

- `Parse`, where the row is read in order by one call, or where the first variant that fits is read
  by one choice. What `parse` MODULE.rt has itself, by hand, isn't written;
- `TryClone`, where the type derives no `Copy`;
- `From` for each variant of an enum that holds something;
- `into_fields` of a struct, and for each variant of an enum a method as `into_interface`, where the
  type derives neither `Copy` nor `Drop`.

Of literals and of types only `From` is written, since they are read by hand.

`Drop` stands in MODULE.rt by hand, since the language wants it in the module that declares the type; so does the line
`mod written;`. The conversions of an enum with many variants stand in a file of their own. `rt fmt` lays the files out, as
tools/write/write_all.py has it do.
"""

import sys
from pathlib import Path

if not __package__:
    sys.path[0] = str(Path(__file__).resolve().parent.parent)

from description.readings import IDL, LEAVES, TYPES
from shared.command_line import refuse_writer
from shared.crates import TOP
from shared.written_places import put
from write.written.files import files_of

CRATES = [*LEAVES[1:], TYPES, *IDL]


def main(root=TOP):
    for home in CRATES:
        for path, text in list(files_of(root, home)):
            put(root, path, text)


if __name__ == "__main__":
    sys.exit(refuse_writer(__doc__))
