"""The lines `use` of a file that is written: what it names is looked up where it is stated.

Stated are the public names of the files of specs/ and proofs/ that are written by hand, or by
tools/write/grammar.py, and the declared types.
"""

import re
from pathlib import Path

from description.declarations import crate_of, declared_by
from description.names import logic
from shared.written_places import files_in, module_in

STATED = re.compile(r"^ *(?:abbrev |unfoldable )?pub (?:ruleset |record )?([\w-]+)", re.M)
# What a file that is written states itself.
OWN = re.compile(r"^(?:abbrev )?pub (?:ruleset )?([\w-]+)|^(?:abbrev )?([\w-]+) :", re.M)
WORD = re.compile(r"(?<![.\w-])[\w«»'-]+")
WRITTEN = re.compile(r"[Ww]ritten by tools/(?!grammar\.py)")
HEAD_LINES = 3
# What a name of a module stands for where another has it too: the keyword `Error`, beside that of a fault.
KEYWORDS = {("term", "Error"): "ErrorKeyword"}
GRAMMAR = "weedle_grammar"
FAULTS = "Rattle.weedle_base.specs.declared.fault.Err"
OUTCOMES = {"Recoverable": "Error as Recoverable", "Failure": "Failure"}


def home_of(declaration):
    """The module of the logic that has a declared type."""
    place = f"{declaration.module}.{logic(declaration.name)}"
    return f"Rattle.{declaration.crate}.specs.declared.{place}"


def stated_in(root, crate, folders):
    """The names that a crate's folders state, each with its module, file by file."""
    for folder in folders:
        top = Path(root) / "crates" / crate / folder
        for path in files_in(top, ".antt"):
            text = path.read_text(encoding="utf-8")
            is_written = WRITTEN.search("\n".join(text.split("\n")[:HEAD_LINES]))
            if path.name != "Lib.antt" and not is_written:
                module = ".".join(["Rattle", crate, folder, *module_in(top, path)])
                yield from ((name, module) for name in STATED.findall(text))


def use(module, names):
    return f"use {module}.{{{', '.join(names)}}}"


class Names:
    """Where names stand. `standard` has those of the standard library, module by module, in the
    order in which they are written; `bound` has variables, which no file states."""

    def __init__(self, root, crates, standard, bound=(), word=WORD):
        self.standard, self.bound, self.word = standard, set(bound), word
        self.types, self.stated = {}, {}
        for crate in crates:
            # Of the grammar's own crate only its table is named, and none of its types or proofs.
            folders = ["specs"] if crate == GRAMMAR else ["specs", "proofs"]
            for name, module in stated_in(root, crate_of(crate), folders):
                self.stated.setdefault(name, module)
            for it in declared_by(root, crate) if crate != GRAMMAR else ():
                if it.kind != "type":
                    said = KEYWORDS.get((it.module.partition(".")[0], it.name), logic(it.name))
                    self.types[said] = it

    def standard_names(self, text, words):
        """The names of the standard library in a text, by their modules."""
        for module, names in self.standard.items():
            # A `Vec` whose allocator is named is that of proofs.
            is_other = (module == "Rattle.std.proofs.Common") != ("Global" in words)
            found = []
            for name in names:
                sign = name.strip("◌")
                is_there = sign in text if sign != name or name == "[]" else name in words
                if is_there and not (name == "Vec" and is_other):
                    found.append(name)
            if found:
                yield module, found

    def uses(self, text, more=()):
        """The lines for the names of a text, with `more` lines."""
        words = set(self.word.findall(re.sub(r"--.*", "", text))) - self.bound
        wanted = dict(self.standard_names(text, words))
        for module, name in self.other_names(text, words):
            wanted[module] = sorted({*wanted.get(module, ()), name})
        return sorted([*(use(*it) for it in wanted.items()), *more])

    def other_names(self, text, words):
        """The names of declared types and of what is stated in a text, each behind its module."""
        for name, it in self.types.items():
            if name in words and name != "Err":
                said = logic(it.name)
                yield home_of(it), said if said == name else f"{said} as {name}"
        if "Fault" in words:
            yield FAULTS, "Err as Fault"
        for name in OUTCOMES.keys() & words:
            yield f"{FAULTS}.TheVariants", OUTCOMES[name]
        own = {name for pair in OWN.findall(text) for name in pair}
        known = {name for names in self.standard.values() for name in names} | set(self.types) | own
        yield from ((self.stated[name], name) for name in words - known if name in self.stated)
