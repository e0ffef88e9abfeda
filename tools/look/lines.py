"""Counts the lines of a checkout by crate: by hand or written by a script, of code, specs and proofs.

    python3 tools/look/lines.py [FOLDER]

FOLDER is a checkout of this repository, of any commit; without it the one is counted that the script
stands in. What a script writes says so at its head, as tools/write/write_all.py has it. Counted is every line
of the files below src, specs and proofs, empty ones and comments too. Under the sums stands how many
lines the scripts of tools have, which are by hand as well.

The status is 0, or 2 where the folder holds no such repository.
"""

import sys
from collections import Counter
from pathlib import Path

if not __package__:
    sys.path[0] = str(Path(__file__).resolve().parent.parent)

from shared.command_line import ended, parser_of
from shared.crates import PARTS, TOP, files_of, read_lines
from write.write_all import writer_in

MAKERS = ("by hand", "written")
KINDS = dict(zip(PARTS, ("code", "specs", "proofs")))
COLUMNS = [(maker, kind) for maker in MAKERS for kind in KINDS.values()]
# The widths of a crate's name and of a number.
NAME, NUMBER = 24, 9
SUM = "sum"


def lines_of(root, crate):
    """How many lines a crate has, by who made them and by their kind."""
    found = Counter()
    for path in files_of(root, crate):
        text = (Path(root) / path).read_text(encoding="utf-8")
        kind = KINDS[path.split("/")[2]]
        found[MAKERS[bool(writer_in(text))], kind] += text.count("\n")
    return found


def lines_of_tools(root):
    """How many lines the scripts have, and how many of those are their tests'."""
    counts = {path: path.read_text(encoding="utf-8").count("\n") for path in (Path(root) / "tools").rglob("*.py")}
    return sum(counts.values()), sum(it for path, it in counts.items() if path.name.startswith("test_"))


def row(name, words):
    return f"{name:<{NAME}}" + "".join(f"{word:>{NUMBER}}" for word in words)


def report(root):
    """The lines of a table, a row for each crate and one for their sums, and the sums below it."""
    counts = {name: lines_of(root, name) for name in read_lines(root)}
    whole = sum(counts.values(), Counter())
    yield from (row("", words) for words in zip(*COLUMNS))
    yield from (row(name, [count[it] for it in COLUMNS]) for name, count in [*counts.items(), (SUM, whole)])
    yield ""
    yield from (f"{maker}: {sum(whole[maker, kind] for kind in KINDS.values())}" for maker in MAKERS)
    lines, tests = lines_of_tools(root)
    yield f"tools: {lines}, of which tests {tests}"


def main():
    parser = parser_of(__doc__)
    parser.add_argument("folder", nargs="?", default=TOP, help="a checkout; without it this one")
    print(*report(parser.parse_args().folder), sep="\n")


if __name__ == "__main__":
    sys.exit(ended(main))
