"""Where the files stand that scripts write, and the names by which other files know them.

A written file stands in a folder `written`, beside others that were written once and are by hand now: a head
says of a file which script writes it. A script calls it by its path below
crates/ without this folder, as weedle_members/specs/Trees.antt, and its module as weedle_members.specs.Trees.
`place` gives where it stands: crates/weedle_members/specs/written/Trees.antt. `in_logic` gives its name in the
logic: Rattle.weedle_members.specs.written.Trees.

The folder `written` stands in the first of these in which the file is:

- the folder of the file itself, where its name begins as BELOW has it;
- a folder of FOLDERS;
- src, specs or proofs of the crate.

Two kinds of written files stand in no such folder: one that is called written.rt, and the proofs of FIXED.

A module of Rust keeps the names by which others know it: the module by hand above it passes it on.
"""

from pathlib import Path

from description.layout import clauses_in_lines

FOLDER = "written"
# Folders further down. Each has a module by hand above it, and others by hand may stand in it.
FOLDERS = """
    weedle_base/src/term
    weedle_comparisons/proofs/orders
    weedle_comparisons/src/orders
    weedle_rules/src/fill
    weedle_spell/src/laws
    weedle_spell_idl/src/laws
""".split()
# How the names of files begin that stand below the module whose types they are of, whatever it is.
BELOW = "from_"
# Proofs that stand without the folder: only their heads say that they are written. Those of functions by hand stand
# where the prover looks for them. Takes and Words stand so since a crate whose code has a folder `written` right in src
# can't have one right in proofs.
FIXED = """
    weedle_grammar/proofs/Takes
    weedle_idl/proofs/definition
    weedle_interfaces/proofs/member
    weedle_starts/proofs/Words
""".split()


def is_below(path, folders):
    return any(path.startswith(f"{folder}/") for folder in folders)


def folder_above(path):
    """The folder in which the folder `written` of a written file stands."""
    crate, part, *_ = path.split("/")
    if Path(path).name.startswith(BELOW):
        return str(Path(path).parent)
    return next((it for it in FOLDERS if is_below(path, [it])), f"{crate}/{part}")


def apart(path):
    """A file's path below crates/, with the folder `written` where the file stands in one."""
    if Path(path).with_suffix("").as_posix() in FIXED or is_below(path, FIXED) or Path(path).stem == FOLDER:
        return path
    folder = folder_above(path)
    return f"{folder}/{FOLDER}/{path[len(folder) + 1:]}"


def place(path):
    """Where the file stands that scripts call by this path, from the top of the repository on."""
    return Path("crates") / apart(path)


def put(root, path, text):
    """Writes a file at its place in the repository with this top. `rt fmt` leaves clauses as they are, so they are cut."""
    file = Path(root) / place(path)
    file.parent.mkdir(parents=True, exist_ok=True)
    file.write_text(clauses_in_lines(text) if file.suffix == ".rt" else text, encoding="utf-8")


def in_logic(module):
    """The name by which the logic brings a written module in."""
    return f"Rattle.{apart(module.replace('.', '/')).replace('/', '.')}"


def in_crate(module):
    """The name that the code of its own crate has for it."""
    return "::".join(["crate", *in_logic(module).split(".")[2:]])


def files_in(folder, suffix):
    """The files right in a folder, and in those of written ones there and of the grammar's sections."""
    for inner in ("", "Table/", f"{FOLDER}/", f"{FOLDER}/Table/"):
        yield from sorted(Path(folder).glob(f"{inner}*{suffix}"))


def module_in(folder, path):
    """The parts of the name that the module of a file has below a folder."""
    return path.relative_to(folder).with_suffix("").parts
