"""The examples in the doc comments of crates/, each as a module of a crate of tests, for tools/look/try_pages.py."""

import re
from dataclasses import dataclass

from shared.crates import LIST, Unfit, closure, copy_crate, read_lines

# A `use` with its paths.
USE = re.compile(r"^(?:pub )?use ([^;]+);\n?", re.M)
# Their crate, the marks of a doc comment, and the crates that they name.
NAME = "examples"
DOC = re.compile(r"^\s*//[/!] ?")
CRATE = re.compile(r"\b(weedle\w*)::")
TEST = "#[test]\nfn holds(rt: HostRuntime) -> Result<(), Fail> {\n    let rt = &rt;\n"
END = "    Ok(())\n"
# What stands round an example, by its file and its number there: items in front of its function, and how the
# function begins and ends.
LENT = "    assert_eq!(rt; count, 1);\n" + END
AROUND = {
    ("crates/weedle_view/src/lending.rt", 1): (
        "use weedle::{Definitions, lend, outline, parse};\n",
        '    let alloc = rt.alloc();\n    let text = "interface A {};";\n', LENT,
    ),
    ("crates/weedle_view/src/lending.rt", 2): (
        "use weedle::{Definitions, lend, parse};\n\n"
        "fn has_interface(definitions: &Definitions<'_>, name: &str) -> bool {\n"
        '    definitions.len() == 1 && name == "A"\n}\n',
        '    let definitions = parse(rt.alloc(), "interface A {};")?;\n    let name = "A";\n',
        "    assert!(rt; is_there);\n" + END,
    ),
}


@dataclass
class Piece:
    """Lines that stand one behind another: the file, the number of the first, all of them, and the language."""

    file: str
    number: int
    lines: list[str]
    language: str = ""

    @property
    def text(self):
        return "".join(f"{row}\n" for row in self.lines)


def examples_in(file, text):
    """The examples in the doc comments of a source."""
    found, rows = [], None
    for line, row in enumerate(text.split("\n"), 1):
        said = DOC.sub("", row) if DOC.match(row) else None
        if rows is None and said == "```rust":
            rows = []
        elif rows is not None and (said == "```" or said is None):
            found.append(Piece(file, line - len(rows), rows))
            rows = None
        elif rows is not None:
            rows.append(said)
    return found


def examples_of(root, crates):
    """The examples of a repository, or of these crates, by the names of their modules, each with what stands round it."""
    found = {}
    for path in sorted(root.glob("crates/*/src/**/*.rt")):
        file = path.relative_to(root).as_posix()
        if not crates or file.split("/")[1] in crates:
            name = re.sub(r"\W+", "_", file.removeprefix("crates/").removesuffix(".rt")).replace("_src_", "_")
            for number, piece in enumerate(examples_in(file, path.read_text(encoding="utf-8")), 1):
                found[f"{name}_{number}"] = piece, AROUND.get((file, number), ("", "", END))
    for name in crates:
        if name not in {piece.file.split("/")[1] for piece, _ in found.values()}:
            raise Unfit(f"{name} has no example")
    return found


def code_of(piece, around):
    """The module that tries an example."""
    items, front, end = around
    uses, body = "".join(it[0] for it in USE.finditer(piece.text)), USE.sub("", piece.text).strip("\n")
    head = f"//! {piece.file}:{piece.number}\n\n"
    if "fn main(" in body:
        return f"{head}{uses}\n{body}\n"
    rows = "".join(f"    {row}".rstrip() + "\n" for row in body.split("\n"))
    return f"{head}use std::test::Fail;\n{uses}{items}\n{TEST}{front}{rows}{end}}}\n"


def build_examples(root, examples, room):
    """Makes a repository of examples and the crates below them. Returns their crate's folder."""
    lines = read_lines(root)
    named = sorted({it for piece, around in examples.values()
                    for it in (piece.file.split("/")[1], *CRATE.findall(piece.text + around[0]))})
    wanted, source = closure(lines, named), room / "crates" / NAME / "src"
    for name in wanted:
        copy_crate(root, name, room)
    words = [*(lines[name].words for name in wanted), f"{NAME}: {' '.join(named)}"]
    (room / LIST).write_text("".join(f"{it}\n" for it in words), encoding="utf-8")
    source.mkdir(parents=True)
    modules = "".join(f"mod {name};\n" for name in examples)
    (source / "lib.rt").write_text(f"//! Examples.\n#![tactic(auto)]\n\n{modules}", encoding="utf-8")
    for name, it in examples.items():
        (source / f"{name}.rt").write_text(code_of(*it), encoding="utf-8")
    return source.parent
