"""Holds the programs and pieces of Rust in pages and doc lines to what is there, what is proved and what they print.

    python3 tools/look/try_pages.py [--no-run] [--files FOLDER] [PAGE..]
    python3 tools/look/try_pages.py --examples [--no-run] [CRATE..]

README has a program: its ```rust block with a `fn main(rt: HostRuntime)`. The ```rust blocks of docs/VALIDATOR.md,
one behind another, are one too, and so are those of docs/DOCUMENTATION.md. Such a page has the program's line of
crates.txt, indented, as `    app: weedle`; a ```webidl block, what the program is given; behind that a ```text or
```markdown block, what it prints of that. A command in front of the first, as `    rt try -- shop.webidl`, says
that it is given as a file of this name, and else it is its standard input.

- The line names crates of crates.txt. What the program's `use` lines bring in of a crate of this repository stands
  in that crate's src/lib.rt. The program has no more lines than MOST_LINES says.
- Of README each piece of the program that has no blank line, but for `use` lines and `main`, stands in
  crates/weedle_rows/src/readme.rt, which the gate proves and whose tests run it. Each other ```rust block, of
  docs/USING.md too, stands, indentation and blank lines aside, in a file with tests below crates/*/src, or in a doc
  comment there; what its `use` lines bring in, that file's do too.
- The program prints what the page says, by `rt try` over a copy of the library, as tools/vendor.py makes it.
- With --files those of VALIDATOR and DOCUMENTATION run over each *.webidl, *.idl and *.widl file of that folder,
  and what they print is counted: so much as the ```text block behind `## Over real files` says.

With --examples the ```rust blocks in the doc comments of crates/*/src are tried instead, or those of each CRATE, as
tests of a crate over those that they name (doc_examples.py).

--no-run compares texts alone; of examples it prints the modules. PAGE is README, VALIDATOR or DOCUMENTATION; without it
all are looked at. It needs Python 3.11, and without --no-run the toolchain's command `rt` on PATH, 3,000 MB of memory
and some two minutes a page; so the gate runs nothing.

It prints what was looked at, or a line for whatever doesn't hold, with both texts where texts differ. The status
is 0 where all holds, 1 where something doesn't, 2 where it could not be looked at.
"""

import re
import shutil
import subprocess
import sys
import tempfile
from collections import Counter
from dataclasses import dataclass
from pathlib import Path

if not __package__:
    sys.path[0] = str(Path(__file__).resolve().parent.parent)

from look.doc_examples import USE, Piece, build_examples, code_of, examples_of
from shared.command_line import ended, parser_of
from shared.crates import LIST, TOP, Line, Unfit, line_of, read_lines
from vendor import vendor

# The pages with a program, with how many lines it may have; a page with blocks of Rust and no program; and the
# file that has the pieces of README's.
README, USING, PROVED = "README", "docs/USING.md", "crates/weedle_rows/src/readme.rt"
MOST_LINES = {README: 100, "VALIDATOR": 370, "DOCUMENTATION": 410}
FENCE = re.compile(r"```(.*)")
LIST_LINE = re.compile(r" {4}[a-z0-9_]+:( [a-z0-9_]+)+")
COMMAND = re.compile(r" {4}rt try (?P<how>--|<) (?P<file>[\w.]+)")
MAIN = "fn main(rt: HostRuntime)"
HEADING = "## Over real files"
SUFFIXES = (".webidl", ".idl", ".widl")
# The innermost group of the paths of a `use`.
GROUP = re.compile(r"([\w:]*)\{([^{}]*)\}")
# What is counted of the lines that a program prints: a word for it, and what such a line has.
COUNTED = {
    "VALIDATOR": (
        ("texts that aren't read whole", re.compile(r"^\S+:\d+:\d+: (expected|no definitions|out of)")),
        ("definitions again", re.compile(r": [a-z ]+ \S+ is defined already, at ")),
        ("attributes again", re.compile(r" has the attribute \S+ already, at ")),
        ("types that nothing defines", re.compile(r": nothing defines the type ")),
        ("mixins that nothing defines", re.compile(r": nothing defines the mixin ")),
    ),
    "DOCUMENTATION": (
        ("sections", re.compile(r"^## ")),
        ("members and values", re.compile(r"^- `")),
    ),
}
# Where the files of a folder lie below the program's own; what a run needs, and the time that it has.
FILES, MEGABYTES, SECONDS = "files", 3000, "1200"


@dataclass
class Page:
    """A page with a program, and what is said there of it."""

    name: str
    program: list[str]
    others: list[Piece]
    line: Line
    file: str
    is_argument: bool
    input: str
    output: str
    counts: list[str]

    @property
    def path(self):
        return path_of(self.name)


def path_of(name):
    """Where a page stands, from the top on."""
    return f"{name}.md" if name == README else f"docs/{name}.md"


def blocks_of(rows, file):
    blocks, open_block = [], None
    for number, row in enumerate(rows, 1):
        fence = FENCE.match(row)
        if open_block and row == "```":
            blocks.append(open_block)
            open_block = None
        elif open_block:
            open_block.lines.append(row)
        elif fence:
            open_block = Piece(file, number + 1, [], fence[1])
    return blocks


def page_of(name, text):
    """The page of a text. It is Unfit where a part of it is missing."""
    rows, path = text.splitlines(), path_of(name)
    blocks = blocks_of(rows, path)
    fenced = {block.number + at for block in blocks for at in range(len(block.lines))}
    plain = [(number, row) for number, row in enumerate(rows, 1) if number not in fenced]
    rust = [block for block in blocks if block.language == "rust"]
    parts = [it for it in rust if name != README or any(row.startswith(MAIN) for row in it.lines)]
    lines = [row for number, row in plain if LIST_LINE.fullmatch(row)]
    if not parts or name == README and len(parts) != 1 or not lines:
        raise Unfit(f"{path} lacks a program or its line of {LIST}, or has several programs")
    commands = [(number, found) for number, row in plain if (found := COMMAND.fullmatch(row))] if name != README else []
    if name != README and not commands:
        raise Unfit(f"{path} lacks a command")
    number, command = commands[0] if commands else (parts[0].number, None)
    given = block_behind(path, blocks, number, ("webidl",))
    printed = block_behind(path, blocks, given.number, ("text", "markdown"))
    over = [number for number, row in plain if row == HEADING]
    counts = block_behind(path, blocks, over[0], ("text",)).lines if over else []
    program = [row for block in parts for row in [*block.lines, ""]][:-1]
    others = [it for it in rust if it not in parts]
    file, is_argument = (command["file"], command["how"] == "--") if command else ("given.webidl", False)
    return Page(name, program, others, line_of(lines[0]), file, is_argument, given.text, printed.text, counts)


def block_behind(path, blocks, number, languages):
    """The first block of one of these languages behind a line."""
    for block in blocks:
        if block.number > number and block.language in languages:
            return block
    raise Unfit(f"{path} has no ```{languages[0]} block behind its line {number}")


def imported(text):
    """The paths that the `use` lines of a text bring in, as `a::b` and `a::c` of `a::{b, c}`."""
    def each(group):
        return ", ".join(group[1] + name.strip() for name in group[2].split(",") if name.strip())

    paths = set()
    for path in USE.findall(text):
        while GROUP.search(path):
            path = GROUP.sub(each, path)
        paths |= {"".join(it.split()) for it in path.split(",")}
    return paths


def unknown(root, page):
    """What the program names of this repository and isn't there, and whether it is too long."""
    most, lines = MOST_LINES[page.name], read_lines(root)
    if len(page.program) > most:
        yield f"{page.path}: the program has {len(page.program)} lines, and may have {most}"
    for path in sorted(imported("\n".join(page.program))):
        crate, *names = path.split("::")
        if not crate.startswith("weedle"):
            continue
        if crate not in lines:
            yield f"{page.path}: {crate} is no crate of {LIST}"
        elif crate not in page.line.uses:
            yield f"{page.path}: the program's line of {LIST} lacks {crate}"
        elif names and not re.search(rf"\b{names[0]}\b", (root / f"crates/{crate}/src/lib.rt").read_text(encoding="utf-8")):
            yield f"{page.path}: {crate} gives no {names[0]}"


def unproved(root, page):
    """The pieces of README's program that don't stand in the file that is proved."""
    proved = "\n" + (root / PROVED).read_text(encoding="utf-8")
    text = re.sub(r"^//!.*\n|^#!.*\n", "", "\n".join(page.program) + "\n", flags=re.M)
    for piece in re.sub(rf"^{re.escape(MAIN)}.*?^\}}\n", "", USE.sub("", text), flags=re.M | re.S).split("\n\n"):
        if piece.strip() and f"\n{piece.strip(chr(10))}\n" not in proved:
            yield f"{page.path}: this piece of the program doesn't stand in {PROVED}:\n{piece.strip(chr(10))}"


def compared(rows):
    """Lines as they are compared, without indentation and blanks, and what `use` lines bring."""
    text = "".join(f"{row.strip()}\n" for row in rows)
    left = [row for row in USE.sub("", text).splitlines() if row]
    return "".join(f"\n{row}" for row in left) + "\n", imported(text)


def places_of_rust(root):
    """What a block may stand in: each file with tests, and the doc comments of each file."""
    for file in sorted(root.glob("crates/*/src/**/*.rt")):
        rows = [row.strip() for row in file.read_text(encoding="utf-8").splitlines()]
        if "#[test]" in rows:
            yield compared(rows)
        yield compared(row[3:] if row.startswith(("//!", "///")) else "(code)" for row in rows)


def unfound(root, blocks):
    """Those of the blocks of Rust that stand nowhere."""
    places = list(places_of_rust(root))
    for block in blocks:
        text, names = compared(block.lines)
        if not any(text in there and names <= brought for there, brought in places):
            yield f"{block.file}:{block.number}: no file with tests and no doc comment has this block"


def want_what_a_run_needs():
    if not shutil.which("rt"):
        raise Unfit("the toolchain's command rt isn't on PATH")
    said = Path("/proc/meminfo").read_text(encoding="utf-8")
    free = int(re.search(r"^MemAvailable: +(\d+)", said, re.M)[1]) // 1024
    if free < MEGABYTES:
        raise Unfit(f"{free} MB of memory are free, and a run needs {MEGABYTES}")


def build_repository(root, pages, room):
    """Makes a repository of the programs, and of a copy of the library."""
    (room / LIST).write_text("".join(f"{page.line.words}\n" for page in pages), encoding="utf-8")
    for page in pages:
        source = room / "crates" / page.line.name / "src"
        source.mkdir(parents=True)
        (source / "main.rt").write_text("".join(f"{row}\n" for row in page.program), encoding="utf-8")
        (source.parent / page.file).write_text(page.input, encoding="utf-8")
    vendor(root, room, False)


def run(folder, words, **more):
    words = ["rt", "try", "--seconds", SECONDS, *words]
    return subprocess.run(words, cwd=folder, capture_output=True, text=True, **more)


def misprints(page, folder):
    """What the program does otherwise than its page says."""
    given = ["--", page.file] if page.is_argument else []
    ran = run(folder, given, input="" if given else page.input)
    if ran.stdout != page.output or page.name == README and ran.returncode:
        yield f"{page.path}: the program ends with status {ran.returncode}, and prints"
        yield from (f"  {row}" for row in ran.stdout.splitlines())
        yield from ("where the page has", *(f"  {row}" for row in page.output.splitlines()))
        yield from ran.stderr.splitlines()


def miscounts(page, folder, files):
    """What is counted of a folder of real files, where the page says otherwise."""
    there = sorted(file for file in files.rglob("*") if file.suffix in SUFFIXES)
    if not there:
        raise Unfit(f"{files} has no file of {', '.join(SUFFIXES)}")
    (folder / FILES).mkdir()
    names = [f"{FILES}/{number}-{file.name}" for number, file in enumerate(there)]
    for file, name in zip(there, names):
        shutil.copyfile(file, folder / name)
    ran, kinds = run(folder, ["--", *names] if page.is_argument else ["--cases", FILES]), COUNTED[page.name]
    rows = ran.stdout.splitlines()
    found = Counter(kind for row in rows for kind, pattern in kinds if pattern.search(row))
    counts = [f"{len(there)} files", *(f"{found[kind]} {kind}" for kind, _ in kinds)]
    if counts != page.counts:
        yield f"{page.path}: of the files of {files} there are"
        yield from (f"  {row}" for row in counts)
        yield from ("where the page has", *(f"  {row}" for row in page.counts))


def try_pages(root, names, is_run, files=None):
    """What doesn't hold, and a line for each page of what was looked at."""
    pages = [page_of(name, (root / path_of(name)).read_text(encoding="utf-8")) for name in names]
    wrong = [row for page in pages for row in unknown(root, page)]
    said = [f"{page.path}: {len(page.program)} lines" for page in pages]
    for page in pages:
        if page.name == README:
            rows = (root / USING).read_text(encoding="utf-8").splitlines() if (root / USING).is_file() else []
            others = page.others + [it for it in blocks_of(rows, USING) if it.language == "rust"]
            wrong += [*unproved(root, page), *unfound(root, others)]
            said[pages.index(page)] += f", and {len(others)} other blocks of Rust stand in crates/"
    if wrong or not is_run:
        return wrong, said
    want_what_a_run_needs()
    with tempfile.TemporaryDirectory() as room:
        build_repository(root, pages, Path(room))
        for page in pages:
            folder = Path(room) / "crates" / page.line.name
            wrong += misprints(page, folder)
            if files and page.name in COUNTED:
                wrong += miscounts(page, folder, files)
    return wrong, [f"{row}, prints what the page says" for row in said]


def try_examples(root, examples):
    """The status of a run of examples; what it says is printed."""
    want_what_a_run_needs()
    with tempfile.TemporaryDirectory() as room:
        folder = build_examples(root, examples, Path(room))
        words = ["rt", "try", "--test", "--seconds", SECONDS]
        return subprocess.run(words, cwd=folder, stdin=subprocess.DEVNULL).returncode


def main():
    parser = parser_of(__doc__)
    parser.add_argument("names", nargs="*", metavar="PAGE", help=f"{', '.join(MOST_LINES)}; of examples a crate")
    parser.add_argument("--no-run", action="store_true", help="look at the texts alone")
    parser.add_argument("--files", type=Path, metavar="FOLDER", help="run them over these files too")
    parser.add_argument("--examples", action="store_true", help="try the examples in doc comments instead")
    given = parser.parse_args()
    if not given.examples and not set(given.names) <= set(MOST_LINES):
        parser.error(f"the pages are {', '.join(MOST_LINES)}")
    if given.examples:
        examples = examples_of(TOP, given.names)
        if given.no_run:
            print("\n".join(code_of(*it) for it in examples.values()), end="")
            return 0
        status = try_examples(TOP, examples)
        wrong, said = [f"{len(examples)} examples, not all hold"] * bool(status), [f"{len(examples)} examples, all hold"]
    else:
        wrong, said = try_pages(TOP, given.names or list(MOST_LINES), not given.no_run, given.files)
    print("\n".join(wrong or said))
    return 1 if wrong else 0


if __name__ == "__main__":
    sys.exit(ended(main))
