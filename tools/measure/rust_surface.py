"""Compares the public items of the Rust package with those of weedle2 itself, by hand.

    python3 tools/measure/rust_surface.py WEEDLE2 [--config FILE]

WEEDLE2 is the folder of weedle2's package. Cargo documents both as JSON, which wants a `cargo` whose rustdoc has that form
(RUSTC_BOOTSTRAP=1 asks for it); FILE is given to Cargo, as one that says where nom is without a network.

An item is a module's struct, enum, type, trait, function or macro. Of a struct and an enum its parameters, its fields or
variants in their order with their types, and its traits are compared, `From` of each variant among them; of a function its
arguments, of a trait the names of what isn't hidden, of a `type` what it stands for. It prints a line for each item that is
in one alone or that differs, but for those of ADDED, and the counts last.

The status is 0 where none differs, 1 where one does, 2 where a package can't be documented.
"""

import json
import os
import subprocess
import sys
import tempfile
from pathlib import Path

if not __package__:
    sys.path[0] = str(Path(__file__).resolve().parent.parent)

from shared.command_line import ended, parser_of
from shared.crates import TOP, Unfit

PACKAGE = TOP / "rust"
NAME = "weedle"
# What weedle2 hasn't: the nodes.
ADDED = ("weedle::syntax",)
JSON = ["--", "-Z", "unstable-options", "--output-format", "json"]


# Types as they are written.
def type_text(it):
    """A type of rustdoc's JSON, by the last words of its paths."""
    if it is None:
        return "()"
    ((kind, value),) = it.items()
    if kind in ("primitive", "generic"):
        return value
    if kind == "tuple":
        return f"({', '.join(map(type_text, value))})"
    if kind == "borrowed_ref":
        return f"&{value['lifetime'] or ''} {type_text(value['type'])}"
    if kind == "resolved_path":
        return path_text(value)
    return json.dumps(it, sort_keys=True)


def path_text(path):
    """A type or a trait with its arguments."""
    name = (path.get("path") or path["name"]).rpartition("::")[2]
    arguments = ((path.get("args") or {}).get("angle_bracketed") or {}).get("args", [])
    texts = [
        type_text(it["type"]) if "type" in it else str(it.get("lifetime", it)) for it in arguments
    ]
    return f"{name}<{', '.join(texts)}>" if texts else name


def parameters(generics):
    """The names of type parameters and lifetimes."""
    return [it["name"] for it in generics["params"]]


class Surface:
    """The public items of a crate, by their paths."""

    def __init__(self, crate):
        self.index = crate["index"]
        self.items = {}
        self.add_module(NAME, self.item(crate["root"])["inner"]["module"])

    def item(self, number):
        return self.index.get(str(number))

    def add_module(self, path, module):
        for number in module["items"]:
            it = self.item(number)
            if it is not None:
                self.add(path, it)

    def add(self, path, it):
        """Adds an item of a module, or what is brought to it from another one."""
        ((kind, value),) = it["inner"].items()
        if kind == "use":
            self.add_use(path, value)
        elif kind == "module" and is_shown(it):
            self.add_module(f"{path}::{it['name']}", value)
        elif kind == "macro" or kind != "impl" and is_shown(it):
            self.items[f"{path}::{it['name']}"] = self.said(kind, value)

    def add_use(self, path, use):
        target = self.item(use["id"])
        if use["is_glob"] and target:
            self.add_module(path, target["inner"]["module"])
        else:
            self.items[f"{path}::{use['name']}"] = ("use", use["source"].rpartition("::")[2])

    def said(self, kind, value):
        """What is compared of an item."""
        say = getattr(self, f"said_of_{kind}", None)
        return (kind, *say(value)) if say else (kind,)

    def said_of_struct(self, value):
        return parameters(value["generics"]), self.fields(value["kind"]), self.traits(value["impls"])

    def said_of_enum(self, value):
        variants = [(it["name"], self.fields(it["inner"]["variant"]["kind"])) for it in map(self.item, value["variants"])]
        return parameters(value["generics"]), variants, self.traits(value["impls"])

    def said_of_type_alias(self, value):
        return parameters(value["generics"]), type_text(value["type"])

    def said_of_function(self, value):
        sig = value["sig"]
        return [(name, type_text(it)) for name, it in sig["inputs"]], type_text(sig["output"])

    def said_of_trait(self, value):
        return (sorted(it["name"] for it in map(self.item, value["items"]) if not is_hidden(it)),)

    def fields(self, kind):
        """The fields of a struct or a variant: none, types alone, or names with types."""
        if not isinstance(kind, dict):
            return kind
        if "tuple" in kind:
            return [type_text(self.item(it)["inner"]["struct_field"]) for it in kind["tuple"]]
        fields = map(self.item, next(iter(kind.values()))["fields"])
        return [(it["name"], type_text(it["inner"]["struct_field"])) for it in fields]

    def traits(self, numbers):
        """The traits that are implemented, but for those that follow by themselves."""
        impls = [it["inner"]["impl"] for it in map(self.item, numbers) if it]
        own = [it for it in impls if not it["is_synthetic"] and not it["blanket_impl"]]
        return sorted(path_text(it["trait"]) if it["trait"] else "methods" for it in own)


def is_hidden(it):
    return any("hidden" in str(attribute) for attribute in it["attrs"])


def is_shown(it):
    return it["visibility"] == "public" and not is_hidden(it)


def differing(theirs, ours):
    """A line for each item that differs, those of ADDED left out."""
    for path in sorted({*theirs, *ours}):
        if theirs.get(path) != ours.get(path) and not (path not in theirs and path.startswith(ADDED)):
            yield f"{path}\n  weedle2: {theirs.get(path, 'none')}\n  here:    {ours.get(path, 'none')}"


def cargo(words, folder, config, more=(), **env):
    """Runs Cargo on a package, with what --config names."""
    words = ["cargo", *words, "--quiet", *(["--config", str(config.resolve())] if config else []), *more]
    ran = subprocess.run(words, cwd=folder, env=os.environ | env, capture_output=True, text=True, check=False)
    if ran.returncode:
        raise Unfit(f"{folder}: {ran.stderr.strip()}")


def documented(folder, config):
    """The JSON that rustdoc makes of a package."""
    with tempfile.TemporaryDirectory() as room:
        cargo(["rustdoc", "--lib"], folder, config, JSON, RUSTC_BOOTSTRAP="1", CARGO_TARGET_DIR=room)
        return json.loads(Path(room, "doc", f"{NAME}.json").read_text(encoding="utf-8"))


def parser_with_weedle2(doc):
    """A parser of arguments that takes weedle2's package, and what Cargo is given."""
    parser = parser_of(doc)
    parser.add_argument("weedle2", type=Path, metavar="WEEDLE2", help="the folder of weedle2's package")
    parser.add_argument("--config", type=Path, metavar="FILE", help="what Cargo is given")
    return parser


def main():
    arguments = parser_with_weedle2(__doc__).parse_args()
    theirs, ours = (Surface(documented(folder, arguments.config)).items for folder in (arguments.weedle2, PACKAGE))
    rows = list(differing(theirs, ours))
    print(*rows, sep="\n", end="\n" * bool(rows))
    same = sum(ours.get(path) == it for path, it in theirs.items())
    print(f"{len(theirs)} items of weedle2, {same} the same here; {len(ours.keys() - theirs.keys())} more")
    return 1 if rows else 0


if __name__ == "__main__":
    sys.exit(ended(main))
