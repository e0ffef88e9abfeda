"""Reads every type at every word of random texts by the Rust package and by weedle2 itself, by hand.

    python3 tools/measure/compare_rust_types.py WEEDLE2 [--config FILE] [--seed N] [--texts N]

WEEDLE2 is the folder of weedle2's package; FILE is given to Cargo, as one that says where nom is without a network.
In a folder of its own it builds the program of compare/types over the package, over weedle2 and over a copy of weedle2 in which
the port's three rules are brought in by CHANGES. The texts are random ones of the seed, nearly right ones, and ones with
a byte changed, a third each. At each word every type is asked for that weedle2 has, and what is made of types
(COMPOSED): how much it leaves, and what it reads, by `Debug`.

It prints the answers in which the package differs from weedle2 with the port's rules, twenty at most, and the counts.
The status is 0 where none differs, 1 where one does, 2 where the program can't be built.
"""

import re
import shutil
import subprocess
import sys
import tempfile
from pathlib import Path

if not __package__:
    sys.path[0] = str(Path(__file__).resolve().parent.parent)

from description.readings import Declared
from measure.compare_with_weedle2 import in_files
from measure.rust_surface import cargo, parser_with_weedle2
from rows.random_texts import Maker
from shared.command_line import ended
from shared.crates import TOP, Unfit
from write.python_types import Package
from write.rust_types import FRONT

PROGRAM = TOP / "compare/types/main.rs"
CRATES = ("here", "weedle2", "changed")
# How the three rules are brought into weedle2: in which file, what takes the place of what.
CHANGES = (
    ("common.rs", "AsChar::is_alphanum)", "AsChar::is_alpha)"),
    ("literal.rs", "take_while(nom::AsChar::is_hex_digit)", "take_while1(nom::AsChar::is_hex_digit)"),
    ("whitespace.rs", r'take_until("\n")', r"take_while(|it| it != '\n')"),
    ("whitespace.rs", r'nom::bytes::complete::tag("\n")', r'nom::combinator::opt(nom::bytes::complete::tag("\n"))'),
)
# What is made of types, `@` for the crate.
COMPOSED = """
Option<@common::Identifier>
Option<@literal::IntegerLit>
Box<@types::Type>
Vec<@common::Identifier>
Vec<@types::Type>
Vec<@Definition>
Vec<Option<@term::Comma>>
(@common::Identifier, @term::Comma)
(@types::Type, @common::Identifier, @term::SemiColon)
@common::Parenthesized<@types::Type>
@common::Parenthesized<@argument::ArgumentList>
@common::Bracketed<@common::Identifier>
@common::Braced<@interface::InterfaceMembers>
@common::Generics<Box<@types::Type>>
@common::Punctuated<@common::Identifier, @term::SemiColon>
@common::Punctuated<@argument::Argument, @term::Comma>
@common::Punctuated<Option<@term::Comma>, @term::SemiColon>
@common::Punctuated<@term::Comma, Option<@term::SemiColon>>
@common::PunctuatedNonEmpty<@common::Identifier, @term::Comma>
@common::PunctuatedNonEmpty<@EnumVariant, @term::Comma>
@types::MayBeNull<@types::Type>
@types::MayBeNull<@term::Boolean>
""".strip().split("\n")


def types():
    """Each type, with `@` for the crate."""
    for module, declarations in Package(Declared.of(TOP)).modules.items():
        path = "@" if module == FRONT else f"@{module}::"
        yield from (f"{path}{it.name}" for it in declarations if not it.parameters)
    yield from COMPOSED


def types_text():
    """The module that asks for each type."""
    rows = "".join(
        f'        "{it.replace("@", "")}": {", ".join(it.replace("@", f"{crate}::") for crate in CRATES)};\n'
        for it in types()
    )
    return (
        "pub fn each(text: &str, out: &mut dyn FnMut(&'static str, crate::Answers)) {\n"
        f"    crate::each_type! {{ text, out,\n{rows}    }}\n}}\n"
    )


def copy_of(folder, name, into, changes=()):
    """A copy of weedle2 under another name, in which these changes are made."""
    shutil.copytree(folder / "src", into / name / "src")
    text = (folder / "Cargo.toml").read_text(encoding="utf-8")
    (into / name / "Cargo.toml").write_text(put(text, 'name = "weedle2"', f'name = "{name}"', "Cargo.toml"), encoding="utf-8")
    for file, old, new in changes:
        path = into / name / "src" / file
        path.write_text(put(path.read_text(encoding="utf-8"), old, new, file), encoding="utf-8")


def put(text, old, new, file):
    if text.count(old) != 1:
        raise Unfit(f"{file} of weedle2 has {old} {text.count(old)} times")
    return text.replace(old, new)


def lay(room, weedle2):
    """Lays the program and what it is built over."""
    copy_of(weedle2, "weedle2_itself", room)
    copy_of(weedle2, "weedle2_changed", room, CHANGES)
    (room / "src").mkdir()
    shutil.copyfile(PROGRAM, room / "src/main.rs")
    (room / "src/types.rs").write_text(types_text(), encoding="utf-8")
    (room / "Cargo.toml").write_text(
        '[package]\nname = "compare_types"\nversion = "0.1.0"\nedition = "2021"\n[workspace]\n[dependencies]\n'
        'nom = { version = "7.1", default-features = false, features = ["std"] }\n'
        f'here = {{ package = "weedle2", path = "{TOP / "rust"}" }}\n'
        'weedle2 = { package = "weedle2_itself", path = "weedle2_itself" }\n'
        'changed = { package = "weedle2_changed", path = "weedle2_changed" }\n',
        encoding="utf-8",
    )
    for name in ("weedle2_itself", "weedle2_changed"):
        manifest = room / name / "Cargo.toml"
        manifest.write_text(re.sub(r"^\[workspace\]\n", "", manifest.read_text(encoding="utf-8"), flags=re.M), encoding="utf-8")


def texts_of(seed, count):
    """Random texts, nearly right ones, and ones with a byte changed."""
    maker = Maker(seed)
    for number in range(count):
        text = maker.text()
        yield (str, maker.near, maker.with_a_byte_changed)[number % 3](text)


def main():
    parser = parser_with_weedle2(__doc__)
    parser.add_argument("--seed", type=int, default=1, metavar="N", help="of which the texts are made, 1 if left out")
    parser.add_argument("--texts", type=int, default=500, metavar="N", help="how many texts, 500 if left out")
    arguments = parser.parse_args()
    with tempfile.TemporaryDirectory() as folder:
        room = Path(folder)
        lay(room, arguments.weedle2)
        cargo(["build", "--release"], room, arguments.config, CARGO_TARGET_DIR=str(room / "target"))
        files = in_files([*texts_of(arguments.seed, arguments.texts)], room)
        return subprocess.run([room / "target/release/compare_types", *files], check=False).returncode


if __name__ == "__main__":
    sys.exit(ended(main))
