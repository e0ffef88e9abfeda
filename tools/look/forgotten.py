"""Finds what was forgotten of a new type, field, word or file, where no proof would miss it.

    python3 tools/look/forgotten.py

What follows by hand from the grammar and the declarations is mostly missed by the compiler or the
prover: a field that nothing drops or copies, a variant without its arm or its clause, a function that
reads otherwise than its rule. This looks at the rest.

- Each file of code is named by a line `mod` of the module above it, each file of a folder `written` of the
  logic by a line `pub mod`: else it is compiled by nobody, and proved neither.
- Each type that is read has `Parse`, and where it isn't `Copy` it has `TryClone`.
- Each such type is given by the crate `weedle`, under some path.
- Of definitions kind, parts and mixins are told by the keywords of their rows, and no variant that has a
  docstring, extended attributes, a parent or members is said to have none.
- What a module passes on of its module in a folder `written` has each public function of that.
- Each public function of the crate `weedle` is named in docs/PROVED.md, `type_names_of_return` as `_of_return` too.
- Each public function and method of the crate `weedle` has an `ensures`, or its doc says "It has no contract"
  and why.
- `reserved.rt` has the words of the grammar that may be read behind a word.

It prints a line for each that isn't so. The status is 0 where there is none, or else 1.
"""

import re
import sys
from pathlib import Path

if not __package__:
    sys.path[0] = str(Path(__file__).resolve().parent.parent)

from description.declarations import head_of
from description.following import NAME_BEFORE, read_behind
from description.names import upper
from description.public import public_items
from description.readings import Declared
from description.uses import grouped
from description.webidl import BY_NAME, RULES
from shared.command_line import take_none, told
from shared.crates import TOP, read_lines
from write.calling import Crate, Entry, code_of, methods_of

MOD = re.compile(r"^(?:pub(?:\(crate\))? )?mod (\w+)", re.M)
PASSED_ON = re.compile(r"^pub use written::(\w+)::([^;]+);", re.M)
FUNCTION = re.compile(r"^pub fn (\w+)", re.M)
IMPL = re.compile(r"^impl(?:<[^{;]*?>)? (?:\w+::)*(\w+)(?:<[^{}]*?>)? for (?:\w+::)*(\w+)", re.M)
# Where it is said what a definition has: the function, the field, and the arm of those that lack it.
HAVING = (
    ("weedle_view/src/entries.rt", "docstring_of", "docstring", "None"),
    ("weedle_view/src/definition.rt", "docstring_of", "docstring", "None"),
    ("weedle_view/src/definition.rt", "extended_attributes_of", "attributes", "None"),
    ("weedle_view/src/definition.rt", "inheritance_of", "inheritance", "None"),
    ("weedle_view/src/members.rt", "members_of", "members", "Ok(Vec::new(alloc))"),
)
KINDS, PARTS = "weedle_view/src/titles.rt", "weedle_view/src/parts.rt"
RESERVED = "weedle_print/src/written/reserved.rt"
# What the doc of a public function says that has no `ensures`; the reason stands behind it.
WITHOUT = "It has no contract:"
VARIANT = re.compile(r"Definition::(\w+)\(")
ARM = re.compile(r"((?:\s*\|?\s*Definition::\w+\(\w+\))+) => ([^\n]+),\n")


def text_in(root, path):
    return (root / "crates" / path).read_text(encoding="utf-8")


def unnamed_in(crate):
    """The files of a crate that no module above them names."""
    source = crate / "src"
    roots = ("main.rt", "lib.rt") if (source / "main.rt").is_file() else ("lib.rt",)
    for path in sorted(source.rglob("*.rt")):
        is_top = path.parent == source
        above = [source / it for it in roots] if is_top else [path.parent.with_suffix(".rt")]
        if not (is_top and path.name in roots or any(path.stem in names_in(it) for it in above)):
            yield path, above[0]
    for folder in sorted(crate.rglob("written")):
        for path in sorted(folder.glob("*.antt")):
            if path.stem not in names_in(folder.with_suffix(".antt")):
                yield path, folder.with_suffix(".antt")


def names_in(module):
    return MOD.findall(module.read_text(encoding="utf-8")) if module.is_file() else []


def of_files(root):
    for name in read_lines(root):
        for path, above in unnamed_in(root / "crates" / name):
            shown, above = (it.relative_to(root).as_posix() for it in (path, above))
            yield f"{shown}: no line `mod` of {above} names it"


def of_types(root, declared):
    """The types that lack an implementation, or a path below `weedle`."""
    texts = (path.read_text(encoding="utf-8") for path in (root / "crates").glob("*/src/**/*.rt"))
    found = grouped((type_, trait) for text in texts for trait, type_ in IMPL.findall(text))
    given = {name for names in public_items(root, "weedle").values() for name in names}
    for name, it in declared.types.items():
        wanted = {"Parse"} if it.is_copied or "TryClone" in it.derived else {"Parse", "TryClone"}
        for trait in sorted(wanted - found.get(name, set())):
            yield f"{it.crate}: {name} has no `{trait}`"
    for name, it in [*declared.types.items(), *declared.aliases.items()]:
        if name not in given and it.module != "formers":
            yield f"{it.crate}: {name} has no path below `weedle`"


def of_laws(root):
    """The public functions of written modules that the module above leaves out of those that it passes on."""
    for path in (root / "crates").glob("*/src/**/*.rt"):
        for module, names in PASSED_ON.findall(path.read_text(encoding="utf-8")):
            below = path.with_suffix("") / f"written/{module}.rt"
            functions = FUNCTION.findall(below.read_text(encoding="utf-8")) if below.is_file() else []
            for name in sorted({*functions} - {*re.findall(r"\w+", names)}):
                yield f"{path.relative_to(root).as_posix()}: its `pub use written::{module}` lacks {name}"


def of_contracts(root):
    """The functions and methods below `weedle` whose contracts say nothing of what they answer, or PROVED doesn't."""
    crates, page = {}, (root / "docs/PROVED.md").read_text(encoding="utf-8")
    for path, items in public_items(root, "weedle").items():
        for name, item in items.items():
            crate, entry = item.module.crate, Entry(f"{path}::{name}", item)
            crates.setdefault(crate, Crate(root, crate))
            own = [(entry.path, entry.text, entry.begin)] if item.kind == "fn" else [
                (f"{entry.path}::{method}", *place) for method, *place in methods_of(entry, crates[crate])
            ]
            if item.kind == "fn" and not re.search(rf"`(\w+::)*({name}|{name[max(name.find('_of'), 0):]})\b", page):
                yield f"{crate}: docs/PROVED.md doesn't name {entry.path}"
            for called, text, begin in own:
                said = " ".join(head_of(text, text.rindex("\n", 0, begin) + 1).replace("///", "").split())
                if "ensures" not in code_of(text, begin) and WITHOUT not in said:
                    yield f"{crate}: {called} has no `ensures`, and its doc doesn't say \"{WITHOUT} ..\""


def function_in(text, name):
    found = re.search(rf"fn {name}\b.*?^\}}\n", text, re.M | re.S)
    return found[0] if found else ""


def arms_in(text, name):
    """The arms of a function's `match`, by the variants."""
    arms = ARM.findall(function_in(text, name))
    return {variant: value for patterns, value in arms for variant in VARIANT.findall(patterns)}


def kind_of(declared, variant):
    """The keywords of a definition's row, and whether one stands in front of its name."""
    held = [it.type.name for it in declared.types[variant.type.name].parts]
    rules = [(name, BY_NAME.get(upper(name))) for name in held]
    words = {name: rule for name, rule in rules if rule and rule.shape == "Marked" and len(rule.row[1]) == 4}
    kind = " ".join(BY_NAME[rule.row[1][1]].row[1] for rule in words.values())
    return kind, held.index(next(iter(words))) < held.index("Identifier")


def of_definitions(root, declared):
    """What is said of definitions otherwise than their declarations have it."""
    variants = declared.types["Definition"].parts
    for path, function, field, lacking in HAVING:
        arms = arms_in(text_in(root, path), function)
        for it in variants:
            has = field in [part.name for part in declared.types[it.type.name].parts]
            if arms.get(it.name) == lacking and has:
                yield f"crates/{path}: {function} says that {it.name} has no {field}"
    kinds, parts = text_in(root, KINDS), text_in(root, PARTS)
    told = {name: set(VARIANT.findall(function_in(parts, name))) for name in ("is_whole", "is_part", "is_mixin")}
    for it in variants:
        kind, is_front = kind_of(declared, it)
        is_part = "partial" in kind.split()
        if arms_in(kinds, "kind_of").get(it.name) != f'"{kind}"':
            yield f"crates/{KINDS}: kind_of says otherwise of {it.name} than `{kind}`"
        wanted = {"is_part": is_part, "is_mixin": "mixin" in kind.split(), "is_whole": is_front and not is_part}
        for name, is_so in wanted.items():
            if (it.name in told[name]) != is_so:
                yield f"crates/{PARTS}: {name} says otherwise of {it.name} than its keywords `{kind}`"


def reserved_in(text):
    """By the word before, the words that the lists of the file have."""
    lists = {name: value.replace("\\\n", " ").split() for name, value in re.findall(r'const (\w+): &str =\s+"(.*?)";', text, re.S)}
    found = {}
    for before, one, behind in re.findall(r'is_among\(before, (?:"([^"]*)"|(\w+))\) && is_among\(name, (\w+)\)', text):
        for word in [before] if before else lists[one]:
            found[word] = lists[behind]
    return found


def of_reserved(root):
    told, wanted = reserved_in(text_in(root, RESERVED)), read_behind(RULES)
    for before in sorted(told.keys() | wanted.keys()):
        here, there = set(told.get(before, ())), set(wanted.get(before, ()))
        shown = "a name" if before == NAME_BEFORE else f"`{before}`"
        for words, how in ((there - here, "may be read, and isn't listed"), (here - there, "is listed, and isn't read")):
            yield from (f"crates/{RESERVED}: behind {shown} `{word}` {how}" for word in sorted(words))


def found(root):
    declared = Declared.of(root)
    yield from of_files(root)
    yield from of_types(root, declared)
    yield from of_laws(root)
    yield from of_contracts(root)
    yield from of_definitions(root, declared)
    yield from of_reserved(root)


if __name__ == "__main__":
    take_none(__doc__)
    sys.exit(told(found(TOP)))
