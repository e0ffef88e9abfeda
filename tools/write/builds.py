"""Writes how members, definitions and what they hold are built in the second pass, from their declarations.

tools/write/write_all.py runs it.

FILES says which files it writes, each with the crates or modules whose types are built there. Of
each of those types it writes the `impl Build`, in the order of the grammar's rules: a struct is
built by one call of `two_fields` or its like over its fields, an enum by `choice` and
`alternative` among its variants. How a field is built follows from the crate that names its type:
see `Parts`. A type whose rule keeps the text that it reads has its `impl` by hand.

It refuses, and says why, where a crate or a module declares no such type, where a type has no tree or
more fields than one call builds, or where something that a file names is brought in by nothing.
"""

import re
import sys
from pathlib import Path

if not __package__:
    sys.path[0] = str(Path(__file__).resolve().parent.parent)

from description.declarations import declared_by, declared_in, split, type_of
from description.layout import use_line
from description.names import upper
from description.readings import CRATES, TERMINALS, lacking
from description.uses import ghost_line
from description.webidl import BY_NAME, KEYWORDS, NUMBER, SECTIONS
from shared.command_line import refuse_writer
from shared.crates import TOP, Unfit, read_lines
from shared.written_places import files_in, in_logic, module_in, put
from write.declared import public_part
from write.written.imports import imported

# Each file, below src of its crate: what it is about, and the crates or modules whose types are built there.
FILES = {
    "weedle_build_base/literals": ("Literals, and the values of defaults and constants.", "weedle_parts::literal"),
    "weedle_build_base/modifiers": (
        "What is inherited from, and the words before a member.",
        "weedle_parts::inheritance", "weedle_parts::modifier",
    ),
    "weedle_build_base/simple_types": ("Types that hold no other type.", "weedle_parts::types"),
    "weedle_build/members": (
        "The members of interfaces: constants, attributes, operations, constructors and stringifiers.",
        "weedle_members",
    ),
    "weedle_build/iterables": ("Iterations, maps and sets.", "weedle_iterables"),
    "weedle_build/interfaces": ("Interfaces and their members.", "weedle_interfaces"),
    "weedle_build/mixins": ("Mixins and their members.", "weedle_mixins"),
    "weedle_build/namespaces": (
        "Namespaces and their members.",
        "weedle_namespaces::namespace", "weedle_namespaces::namespace_definition",
    ),
    "weedle_build/dictionaries": (
        "Dictionaries and their members.",
        "weedle_namespaces::dictionary", "weedle_namespaces::dictionary_definition",
    ),
    "weedle_build/statements": ("The definitions without members.", "weedle_statements"),
    "weedle_build/definition": ("A definition of any kind.", "weedle_idl"),
}
BASE = "weedle_build_base"
# The types that lead back to themselves, and the crate that builds them.
TYPES, TYPES_BUILT = "weedle_types", "weedle_build_types"
# The types of these are built by what terminals.py writes, and by hand in weedle_build_types.
BY_OTHERS = (TERMINALS, TYPES)
# How many fields one call builds, by the word in the name of its function in STRUCTS.
COUNTS = dict(enumerate("two three four five six seven eight".split(), start=2))
STRUCTS = f"crates/{BASE}/src/structs.rt"
STEPS = "proofs::Finding::own_steps"
TABLE = in_logic("weedle_grammar.specs.Table")
HEAD = """//! {about}
//!
//! Written by tools/builds.py, and not edited by hand.
#![tactic(auto, using({steps}))]

"""
# The tree of a type, as the specs state it.
TREE = re.compile(r"^abbrev pub (\w+) : (\w+) → Tree$", re.M)
TYPE_NAME = re.compile(r"\b[A-Z]\w*")
PRELUDE = {"Box", "Option", "Vec"}


def fields_function(name, count):
    """The function of weedle_build_base that builds the fields of a struct, as many as it has."""
    if count not in COUNTS:
        raise Unfit(
            f"{name} has {count} fields, and {STRUCTS} builds {min(COUNTS)} to {max(COUNTS)} by one call: "
            f"add a function for {count} there, behind `{COUNTS[max(COUNTS)]}_fields`, give it in lib.rt, "
            "and put its word into COUNTS of tools/write/builds.py"
        )
    return f"{COUNTS[count]}_fields"


def source_of(root, crate):
    return Path(root) / "crates" / crate / "src"


def public_names(root, crate):
    """What the lib.rt of a crate gives its callers, by the names, with the modules that have it."""
    text = (source_of(root, crate) / "lib.rt").read_text(encoding="utf-8")
    return imported(re.sub(r"^pub use", "use", text, flags=re.M))


def crates_built():
    """The crates of the second pass over members and definitions, each with those whose types it builds."""
    found = {TYPES_BUILT: {TYPES}}
    for place, (_, *sources) in FILES.items():
        found.setdefault(place.split("/")[0], set()).update(it.split("::")[0] for it in sources)
    return {crate: built for crate, built in found.items() if crate != BASE}


def parts_declared(root, crate):
    """The declarations of a crate of the second pass; what is for itself alone is marked as inner."""
    source = source_of(root, crate)
    for path in files_in(source, ".rt"):
        text = path.read_text(encoding="utf-8")
        public = {it.name for it in declared_in(text)}
        for it in declared_in(text.replace("pub(crate) ", "pub ")):
            it.crate, it.is_inner = crate, it.name not in public
            it.module = ".".join(module_in(source, path))
            yield it


class Parts:
    """How a field of a type is built: what stands for it in code.

    A crate of the second pass with a struct as `IdlPart<T>` builds by it each type of the crates
    that it serves; a type of another crate is built by itself. Where there is a `type` for what
    comes of that, it has this name. What weedle_types has by a `type` leads back to itself, and is
    built as it stands; a `type` of another crate as what it stands for.
    """

    def __init__(self, root):
        declared = [it for crate in CRATES for it in declared_by(root, crate)]
        # A `type` may have the name of what it stands for in a module that is not public.
        self.declared = {it.name: it for it in sorted(declared, key=lambda it: it.kind == "type")}
        self.over, self.aliases, self.homes = {}, [], dict(self.declared)
        for crate, built in crates_built().items():
            for it in parts_declared(root, crate):
                self.homes[it.name] = it
                if it.kind == "type":
                    self.aliases.append(it)
                elif it.parameters and it.parameters == [part.text for part in it.parts]:
                    self.over.update(dict.fromkeys(built, it.name))

    def named(self, text, crate):
        """A type in code, by the name that a crate knows for it."""
        for it in self.aliases:
            if it.parts[0].type == type_of(text) and not (it.is_inner and it.crate != crate):
                return f"{it.name}<'a>"
        return text

    def of(self, text, crate):
        """How a crate builds a field of this type."""
        if text.startswith("("):
            return f"({', '.join(self.of(it, crate) for it in split(text[1:-1]))})"
        name, _, rest = text.partition("<")
        it = self.declared.get(name)
        if it and it.kind == "type" and it.crate != TYPES:
            return self.of(it.parts[0].text, crate)
        if it and it.crate in self.over:
            return self.named(f"{self.over[it.crate]}<{text}>", crate)
        words = [it if it.startswith("'") else self.of(it, crate) for it in split(rest[:-1])]
        return self.named(f"{name}<{', '.join(words)}>" if rest else name, crate)


class Built:
    """A type that is built: its name and rule, and what stands in its `impl`."""

    def __init__(self, item, parts, crate, tree):
        self.item, self.name, self.rule, self.tree = item, item.name, upper(item.name), tree
        self.text = f"{item.name}<'a>" if item.is_borrowing else item.name
        self.is_own = crate == BASE
        self.over = parts.over.get(item.crate)
        if not self.is_own and not self.over:
            raise Unfit(f"{crate} has no part for what {item.crate} declares")
        self.fields = [(part.name, parts.of(part.text, crate)) for part in item.parts]
        if self.is_own:
            self.fields = [(name, text.replace("<'a>", "")) for name, text in self.fields]

    @property
    def is_flag(self):
        """Whether it is a struct that says by a bool which of two words stands there."""
        return self.item.parts[0].text == "bool"

    @property
    def part(self):
        if self.is_own:
            return self.text
        return f"{self.over}<{self.text}>"

    def alternatives(self):
        """What its alternatives are built by, each with the pattern of a value and what is made of it."""
        if self.is_flag:
            words = {upper(word): word for word in KEYWORDS}
            return [(words[it], "_", f"{self.name}({it.lower()})") for it in BY_NAME[self.rule].row[1]]
        return [(text, "member", f"{self.name}::{name}(member)") for name, text in self.fields]

    def calls(self):
        """The functions of weedle_build_base by which it is built."""
        if self.item.is_enum or self.is_flag:
            return {"alternative", "choice"}
        return {fields_function(self.name, len(self.fields))}

    def names(self):
        """The types that its `impl` names."""
        texts = [self.over or "", self.name]
        if self.is_flag:
            texts += [word for word, _, _ in self.alternatives()]
        else:
            texts += [text for _, text in self.fields]
        return set(TYPE_NAME.findall(" ".join(texts))) - PRELUDE


def body_of_struct(it):
    """The call that builds the fields, with its answer taken apart."""
    names = ", ".join(name for name, _ in it.fields)
    [function] = it.calls()
    call = f"{function}::<{', '.join(text for _, text in it.fields)}>(alloc, table, Rule::{it.rule}, at)"
    value = f"({it.name} {{ {names} }}, at)"
    # The prover takes a little less for a `match` than for `?`; with two fields that doesn't count.
    if len(it.fields) == 2:
        return f"let (({names}), at) = {call}?;\nOk({value})"
    return f"match {call} {{\nOk((({names}), at)) => Ok({value}),\nErr(error) => Err(error),\n}}"


def body_of_choice(it):
    """The choice among the alternatives, each built by one call."""
    rows = ""
    for k, (text, found, value) in enumerate(it.alternatives()):
        call = f"alternative::<{text}>(alloc, table, rule, {k}, at)?"
        rows += f"{k} => {{\nlet ({found}, at) = {call};\nOk(({value}, at))\n}}\n"
    choice = f"match choice(table, rule, at.place) {{\n{rows}_ => unreachable!(),\n}}"
    return f"let rule = Rule::{it.rule};\n{choice}"


def impl(it):
    """The `impl Build` of a type."""
    is_choice = it.item.is_enum or it.is_flag
    value = "Self" if it.is_own else it.text
    return f"""impl<'a> Build<'a> for {it.part} {{
    type Value = {value};

    ghost fits = {{ λ r. r ≡ {it.rule} }};

    ghost tree = {{ {it.tree} }};

    fn build(alloc: Global, table: Table<'_, 'a>, _rule: Rule, at: At) -> BuildResult<{value}> {{
        {body_of_choice(it) if is_choice else body_of_struct(it)}
    }}
}}
"""


def add(paths, path, *names):
    paths.setdefault(path, set()).update(names)


class File:
    """A file of impls: its crate, what it is about, and what is built there."""

    def __init__(self, root, parts, place, about, *sources):
        self.root, self.parts, self.about = root, parts, about
        self.crate, _, module = place.partition("/")
        self.path = f"{self.crate}/src/{module}.rt"
        self.uses = read_lines(root)[self.crate].uses
        self.built, self.trees, self.sources = [], {}, sources
        for source in sources:
            found = list(self.built_of(*source.partition("::")[::2]))
            if not found:
                raise Unfit(f"{place} is to build what {source} declares, which is nothing")
            self.built += found
        self.built.sort(key=lambda it: NUMBER[it.rule])

    def built_of(self, crate, module=""):
        """The types of a crate, or of one of its modules, that have a rule of their own and keep no text."""
        specs = self.root / "crates" / crate / "specs"
        for path in files_in(specs, ".antt"):
            home = ".".join([f"Rattle.{crate}.specs", *module_in(specs, path)])
            trees = TREE.findall(path.read_text(encoding="utf-8"))
            self.trees.update({type_: (tree, home) for tree, type_ in trees})
        for it in declared_by(self.root, crate):
            rule = BY_NAME.get(upper(it.name))
            is_here = it.kind != "type" and not it.parameters and f"{it.module}.".startswith(module + "." * bool(module))
            if is_here and rule and rule.shape == "Plain":
                if it.name not in self.trees:
                    raise Unfit(f"no file of crates/{crate}/specs states the tree of {it.name}")
                yield Built(it, self.parts, self.crate, self.trees[it.name][0])

    def ghost_lines(self):
        """What the contracts name, brought in."""
        paths, rules = {}, {it.rule for it in self.built}
        add(paths, "Rattle.std.specs.Prelude", "◌≡◌")
        for section in sorted(SECTIONS, key=lambda it: it.name):
            if found := rules & {it.name for it in section.rules}:
                add(paths, f"{TABLE}.{section.name}", *found)
        for tree, home in sorted((self.trees[it.name] for it in self.built), key=lambda it: it[::-1]):
            add(paths, home, tree)
        return "".join(ghost_line(path, sorted(names)) for path, names in paths.items())

    def use_lines(self):
        """What the code names, brought in."""
        paths = {"std::alloc": {"Global"}, "weedle_rules": {"Rule"}}
        given = public_names(self.root, BASE)
        for name in {"At", "Build", "BuildResult", "Table"}.union(*(it.calls() for it in self.built)):
            add(paths, f"crate::{given[name]}" if self.crate == BASE else BASE, name)
        for name in set().union(*(it.names() for it in self.built)):
            add(paths, self.path_of(name), name)
        order = sorted(paths, key=lambda path: (not path.startswith("crate"), path))
        return "".join(use_line(path, paths[path]) for path in order)

    def path_of(self, name):
        """The path by which this file names a type or a part."""
        it = self.parts.homes.get(name)
        if it and it.crate == self.crate:
            return f"crate::{it.module.replace('.', '::')}"
        if it and it.crate in self.uses:
            public = public_part(source_of(self.root, it.crate), it.module.split("."))
            return "::".join([it.crate, *public])
        for crate in self.uses:
            if source_of(self.root, crate).is_dir() and name in public_names(self.root, crate):
                return crate
        raise Unfit(f"nothing that {self.crate} stands on brings {name} in")

    def text(self):
        steps = f"{'crate' if self.crate == BASE else BASE}::{STEPS}"
        head = HEAD.format(about=self.about, steps=steps)
        lines = [self.ghost_lines(), self.use_lines(), *map(impl, self.built)]
        return head + "\n".join(lines)


def unbuilt(files):
    """The types, in crates that FILES names, that none of its files builds."""
    crates = {source.split("::")[0]: file for file in files for source in file.sources}
    built = {it.name for file in files for it in file.built}
    return [it.name for crate, file in crates.items() for it in file.built_of(crate) if it.name not in built]


def main(root=TOP):
    if said := lacking(CRATES, [*BY_OTHERS, *(it for _, *sources in FILES.values() for it in sources)]):
        raise Unfit(f"{said}: FILES says where it is built")
    parts = Parts(root)
    files = [File(root, parts, place, *more) for place, more in FILES.items()]
    if names := unbuilt(files):
        raise Unfit(f"no file of FILES has {', '.join(names)}")
    for file in files:
        put(root, file.path, file.text())


if __name__ == "__main__":
    sys.exit(refuse_writer(__doc__))
