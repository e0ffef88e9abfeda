"""Finds what the pages say and isn't so, and which public fields and variants have no doc line.

    python3 tools/look/pages.py

- A link `[text](TARGET)` of a page leads to a file or a folder, by its path from the page's folder, or to a
  heading, as `USING.md#faults` or `#faults`: by its words in small letters with `-` between them, without
  signs, as GitHub calls it. Links to other places, as `https://..`, aren't followed.
- Each crate of crates.txt stands once in the table of docs/ARCHITECTURE.md below `## The crates`, in
  its first column, and no other crate does.
- Each script of tools/ and of its rooms is named in docs/TOOLS.md, but for tests and what stands in folders of a room; one
  that `tools/run` runs by its name there.
- A path in code, as `weedle_base/src/parse.rt` or `tools/look/check.py`, leads to a file or a folder, in the
  pages of docs/ and in README.md: from the top, from crates/ or from tools/. `{a,b}` stands for each
  of a and b, `*` for any name. Paths are looked at that begin with a crate's name or with a folder
  of the top, but for what is built.
- How many rules, keywords, symbols and terminals there are, and of how many kinds definitions, is as the grammar has
  it, wherever a page but CHANGELOG.md or a doc line of crates/ says it.
- README.md, docs/PROVED.md and the newest version of CHANGELOG.md that names one name the same kit of
  the toolchain, as `rattle-kit-13f logic dac8208d650f15bf`.
- README.md, and the files that the library for C and the packages have their versions from, name the newest
  version of CHANGELOG.md.
- Each public field with a name and each variant of a public type of crates/ stands below a `///` line;
  attributes may stand between.

It prints a line for each that isn't so. The status is 0 where there is none, or else 1.
"""

import re
import sys
from pathlib import Path

if not __package__:
    sys.path[0] = str(Path(__file__).resolve().parent.parent)

from description.docs import NUMBERS
from description.webidl import BY_NAME, CAPITALIZED, KEYWORDS, RULES, SYMBOLS
from shared.command_line import take_none, told
from shared.crates import TOP, read_lines

MAP, TOOLS, HISTORY = "docs/ARCHITECTURE.md", "docs/TOOLS.md", "CHANGELOG.md"
# Folders in which nothing is a page of the repository: what is built, and what is brought in.
ASIDE = {".git", "out", "target", "__pycache__", "build", "dist", ".venv"}
FENCE = re.compile(r" *(```|~~~)")
CODE = re.compile(r"(`+).+?\1")
LINK = re.compile(r"\[[^\[\]]*\]\([^()\s]+\)")
# The end of a link, whose beginning may stand in the line above.
TARGET = re.compile(r"\]\(([^()\s]+)\)")
HEADING = re.compile(r"#{1,6} +(.+?)[ #]*$")
ELSEWHERE = re.compile(r"[a-z]+:")
SPAN = re.compile(r"`([^`]+)`")
PATH = re.compile(r"[\w.{},*-]+(?:/[\w.{},*-]+)+/?")
BRACES = re.compile(r"\{([^{}]*)\}")
CRATE = re.compile(r"`(weedle\w*)`")
SCRIPTS = (".py", ".sh", ".c")
# What is there only once it was built, as crates/weedle_list/out; and names that stand for any name,
# as those of the programs of README and of the worked pages.
BUILT = {"out", "target"}
ANY = {"NAME", "CRATE", "FOLDER", "app", "validator", "documentation"}
# The line of `rt version`, and the pages of which the first such line counts.
KIT = re.compile(r"`(rattle-kit-\w+ logic [0-9a-f]+)`")
KIT_PAGES = ("README.md", "docs/PROVED.md", HISTORY)
# The newest version, and where else it stands.
NEWEST = re.compile(r"^## (\d+\.\d+\.\d+) ", re.M)
VERSIONS = {
    "README.md": re.compile(r"This is version (\d+\.\d+\.\d+) "),
    "crates/weedle_c/src/lib.rt": re.compile(r"the three numbers of (\d+\.\d+\.\d+)\."),
    "python/pyproject.toml": re.compile(r'^version = "(.*)"', re.M),
    "python/weedle/__init__.py": re.compile(r'^__version__ = "(.*)"', re.M),
    "js/package.json": re.compile(r'^  "version": "(.*)",$', re.M),
    "examples/rust/Cargo.toml": re.compile(r'^version = "(.*)"', re.M),
}
# `-Infinity` stands in no list of keywords. Fewer rules than a hundred are those of a section.
KEYWORD_COUNT = len(KEYWORDS) + len(CAPITALIZED) + 1
COUNTS = {
    r"(?<![Uu]p to )\b([1-9]\d\d+)\s+rules": len(RULES),
    r"\b(\d+)\s+keywords": KEYWORD_COUNT,
    r"\b(\d+)\s+symbols": len(SYMBOLS),
    r"\b(\d+)\s+terminals": KEYWORD_COUNT + len(SYMBOLS),
    r"\b(\w+)\s+kinds\s+of\s+definitions?": len(BY_NAME["DEFINITION"].row[1]),
}
TYPE = re.compile(r"^pub (?:struct|enum) (\w+)[^{;(]*\{\n(.*?)^\}", re.M | re.S)
# A line of a type's body, as `rt fmt` lays it out: a public field of a struct, or a variant.
PART = re.compile(r"    (?:pub (\w+):|([A-Z]\w*)\b)")


def pages_of(root):
    for path in sorted(root.rglob("*.md")):
        if not ASIDE.intersection(path.relative_to(root).parts):
            yield path


def prose_of(text):
    """The lines of a page with their numbers, from 1, without those of blocks of code."""
    is_code = False
    for number, line in enumerate(text.splitlines(), 1):
        if FENCE.match(line):
            is_code = not is_code
        elif not is_code:
            yield number, line


def anchor_of(heading):
    """What a heading is called by in a link."""
    words = LINK.sub(lambda link: link[0][1:link[0].index("]")], heading)
    return re.sub(r"[^\w\- ]", "", words).lower().replace(" ", "-")


def anchors_of(text):
    """What the headings of a page are called by in links: the second of a name ends with `-1`."""
    found = {}
    for _, line in prose_of(text):
        if heading := HEADING.match(line):
            anchor = anchor_of(heading[1])
            count = found[anchor] = found.get(anchor, -1) + 1
            yield f"{anchor}-{count}" if count else anchor


def links_of(text):
    """The targets of a page's links, each with the number of its line."""
    for number, line in prose_of(text):
        for link in TARGET.finditer(CODE.sub("", line)):
            yield number, link[1]


def of_links(root):
    """The links of the pages that lead nowhere."""
    texts = {path.resolve(): path.read_text(encoding="utf-8") for path in pages_of(root)}
    anchors = {path: set(anchors_of(text)) for path, text in texts.items()}
    for page, text in texts.items():
        for number, target in links_of(text):
            name, _, anchor = target.partition("#")
            path = (page.parent / name).resolve() if name else page
            place = f"{page.relative_to(root.resolve()).as_posix()}:{number}: {target}"
            if ELSEWHERE.match(target):
                continue
            if not path.is_relative_to(root.resolve()) or not path.exists():
                yield f"{place}: no such file"
            elif anchor and anchor not in anchors.get(path, ()):
                yield f"{place}: no such heading"


def crates_named(text):
    """The crates in the first column of the table below the heading, in its order."""
    rows = text.partition("\n## The crates\n")[2].partition("\n## ")[0].splitlines()
    return [name for row in rows if row.startswith("|") for name in CRATE.findall(row.split("|")[1])]


def of_crates(root):
    """What of the table of crates isn't as crates.txt has it."""
    named, there = crates_named((root / MAP).read_text(encoding="utf-8")), read_lines(root)
    for name in dict.fromkeys([*there, *named]):
        if named.count(name) != (name in there):
            yield f"{MAP}: the table of crates has {name} {named.count(name)} times, and crates.txt {int(name in there)}"


def of_scripts(root):
    """The scripts that the page of tools doesn't name."""
    text = (root / TOOLS).read_text(encoding="utf-8")
    for path in sorted(it for pattern in ("*", "*/*") for it in (root / "tools").glob(pattern)):
        is_script = path.suffix in SCRIPTS and not path.name.startswith(("test_", "__"))
        if is_script and not re.search(rf"(?<!\w){re.escape(path.name)}|^\| `{path.stem}\b", text, re.M):
            yield f"{TOOLS}: nothing is said of {path.relative_to(root).as_posix()}"


def each_of(path):
    """The paths that one with braces stands for."""
    braces = BRACES.search(path)
    if not braces:
        return [path]
    words = braces[1].split(",")
    return [it for word in words for it in each_of(path[: braces.start()] + word + path[braces.end() :])]


def paths_of(text, beginnings):
    """The paths in a page's code that begin so, each with the number of its line."""
    for number, line in prose_of(text):
        for path in (it for span in SPAN.findall(line) for it in PATH.findall(span)):
            words = path.rstrip("/").split("/")
            if words[0] in beginnings and not (BUILT | ANY).intersection(words):
                yield from ((number, it) for it in each_of(path.rstrip("/")))


def of_paths(root):
    """The paths that the pages name and that aren't there."""
    crates = {path.name for path in (root / "crates").iterdir() if path.is_dir()} | set(read_lines(root))
    beginnings = crates | {path.name for path in root.iterdir() if path.is_dir()}
    for page in [root / "README.md", *sorted((root / "docs").glob("*.md"))]:
        for number, path in paths_of(page.read_text(encoding="utf-8"), beginnings):
            if not any(any(base.glob(path)) for base in (root, root / "crates", root / "tools")):
                yield f"{page.relative_to(root).as_posix()}:{number}: there is no {path}"


def sources(root):
    return sorted(root.glob("crates/*/src/**/*.rt"))


def of_counts(root):
    """The counts of pages and doc lines that aren't the grammar's."""
    for path in [*(it for it in pages_of(root) if it.name != HISTORY), *sources(root)]:
        text = path.read_text(encoding="utf-8")
        if path.suffix == ".rt":
            text = re.sub(r"^(?!\s*//[/!]).*", "", text, flags=re.M).replace("///", "   ").replace("//!", "   ")
        for pattern, count in COUNTS.items():
            for found in re.finditer(rf"(?<![\d,.]){pattern}\b", text):
                said = NUMBERS.index(found[1]) + 1 if found[1] in NUMBERS else found[1]
                if str(said).isdigit() and int(said) != count:
                    line = text.count("\n", 0, found.start()) + 1
                    yield f"{path.relative_to(root).as_posix()}:{line}: `{' '.join(found[0].split())}`, by the grammar {count}"


def of_kits(root):
    """The pages that name another kit than the first of them, or none."""
    first = None
    for page in KIT_PAGES:
        found = KIT.search((root / page).read_text(encoding="utf-8"))
        first = first or found
        if not found:
            yield f"{page}: no kit is named"
        elif found[1] != first[1]:
            yield f"{page}: the kit is {found[1]}, and {first[1]} in {KIT_PAGES[0]}"


def of_versions(root):
    """The files that have another version than the newest of CHANGELOG.md, or none."""
    newest = NEWEST.search((root / HISTORY).read_text(encoding="utf-8"))[1]
    for name, version in VERSIONS.items():
        found = version.search((root / name).read_text(encoding="utf-8"))
        if not found or found[1] != newest:
            yield f"{name}: the version is {found[1] if found else 'not named'}, and {newest} in {HISTORY}"


def undocumented_in(text):
    """The line, the type and the name of each public field or variant without a doc line, as `rt fmt` lays it out."""
    for found in TYPE.finditer(text):
        before, number = "", text.count("\n", 0, found.start(2))
        for row in found[2].split("\n"):
            number += 1
            if (part := PART.match(row)) and not re.match("    ///(?!/)", before):
                yield number, found[1], part[1] or part[2]
            # An attribute may stand below the doc line, and what a variant holds in lines of its own is deeper.
            if not row.startswith(("    #[", "     ", "    )", "    ]")):
                before = row


def of_docs(root):
    """The public fields and variants without a doc line."""
    for path in sources(root):
        for line, type_, name in undocumented_in(path.read_text(encoding="utf-8")):
            yield f"{path.relative_to(root).as_posix()}:{line}: {type_}.{name} has no doc line"


LOOKS = (of_links, of_crates, of_scripts, of_paths, of_counts, of_kits, of_versions, of_docs)


if __name__ == "__main__":
    take_none(__doc__)
    sys.exit(told(row for look in LOOKS for row in look(TOP)))
