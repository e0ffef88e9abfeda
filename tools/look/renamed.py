"""Finds what still has the old name of a field, a variant, a type or a public function, or the old number of rules.

    python3 tools/look/renamed.py

A name is an old one where a file of crates/ that was changed since the last commit declared it then, and no file
declares it now. Looked for are all lines of files by hand that have the word: of a field or a variant those in
files that name its type too, in Rust's words or in the logic's. Texts of tests/, CHANGELOG and what a script
writes are left out: `tools/write/write_all.py` has the latter.

It prints for each old name how many lines have it, and below that all of them, as `FILE:LINE: the line`. Where
nothing was renamed, and where the folder is no checkout of git, it prints nothing. The status is 0 where it
prints nothing, or else 1.
"""

import re
import subprocess
import sys
from pathlib import Path

if not __package__:
    sys.path[0] = str(Path(__file__).resolve().parent.parent)

from description.declarations import declared_in
from description.names import snake
from description.readings import CRATES
from shared.command_line import take_none, told
from shared.crates import TOP
from write.write_all import writer_in

FUNCTION = re.compile(r"^ *pub fn (\w+)", re.M)
# How many rules there are, which proofs, tests and pages say too.
GRAMMAR, COUNT = "crates/weedle_grammar/src/lib.rt", re.compile(r"pub const RULES: usize = (\d+);")
# What may name a field or a function by hand, and what is left alone.
SUFFIXES = {".rt", ".antt", ".edit", ".md", ".py", ".pyi", ".rs", ".js", ".ts", ".c", ".h", ".in", ".cpp", ".sh"}
ASIDE = ("tests/", "CHANGELOG.md", "python/tests/", "docs/CALLING.md")


def git(root, *words):
    """What git says, or nothing where it fails."""
    ran = subprocess.run(["git", "-C", root, *words], capture_output=True, text=True)
    return ran.stdout if ran.returncode == 0 else ""


def names_in(path, text):
    """What a file declares: (type, field or variant), (type, nothing) and (nothing, function)."""
    yield from (("", count) for count in COUNT.findall(text) if path == GRAMMAR)
    is_read = path.split("/")[1] in (it.partition("::")[0] for it in CRATES)
    for it in declared_in(text) if is_read else ():
        yield it.name, ""
        yield from ((it.name, part.name) for part in it.parts if part.name and not part.name.isdigit())
    yield from (("", name) for name in FUNCTION.findall(text))


def old_names(root):
    """The names that were declared at the last commit, and aren't any more."""
    now, before = set(), set()
    for path in git(root, "diff", "--name-only", "HEAD", "--", "crates/*.rt").splitlines():
        before.update(names_in(path, git(root, "show", f"HEAD:{path}")))
        file = Path(root, path)
        now.update(names_in(path, file.read_text(encoding="utf-8")) if file.is_file() else ())
    gone = sorted(before - now)
    return [it for it in gone if not it[1] or not it[0] or (it[0], "") not in gone]


def lines_with(texts, type_, name):
    """The lines of files that have an old name, each with its file and number."""
    # A module of the same name is another thing.
    word = re.compile(rf"(?<!mod )(?<!\.declared\.)\b{name}\b(?!::)" if name and type_ else rf"\b{name or type_}\b")
    is_about = re.compile(rf"\b(?:{type_}|{snake(type_)}\w*|{type_.removesuffix('Definition')}|{type_}-\w+)\b")
    for path, text in texts.items():
        if word.search(text) and (not name or not type_ or is_about.search(text)):
            for number, line in enumerate(text.splitlines(), 1):
                if word.search(line):
                    yield f"  {path}:{number}: {line.strip()}"


def texts_by_hand(root):
    """The files that may have a name by hand, by their paths."""
    found = {}
    for path in git(root, "ls-files", "--cached", "--others", "--exclude-standard").splitlines():
        file = Path(root, path)
        if file.suffix in SUFFIXES and not path.startswith(ASIDE) and file.is_file():
            text = file.read_text(encoding="utf-8")
            if not writer_in(text):
                found[path] = text
    return found


def renamed(root):
    old = old_names(root)
    texts = texts_by_hand(root) if old else {}
    for type_, name in old:
        if lines := list(lines_with(texts, type_, name)):
            yield f"{'.'.join(filter(None, (type_, name)))} is declared no more, and {len(lines)} lines have the word:"
            yield from lines


if __name__ == "__main__":
    take_none(__doc__)
    sys.exit(told(renamed(TOP)))
