"""Writes the terminals of `weedle_base`, and how each is built, from the lists in description/webidl.py.

tools/write/write_all.py runs it.

It writes the files of src/term that declare the terminals, and those below src/term/display, which say their words;
in crates/weedle_leaf_rows the tests src/terminals.rt, which read each terminal with and without blanks round it; in
crates/weedle_build_base the files below src/terminals;
in crates/weedle_print those below src/terminals, which write them, and below src/terminal_words, which say their
words; and in crates/weedle_comparisons src/terminals.rt, the laws of defaults and orders.
"""

import sys
from pathlib import Path

if not __package__:
    sys.path[0] = str(Path(__file__).resolve().parent.parent)

from description.docs import law as law_doc
from description.names import upper
from description.uses import ghost_line
from description.webidl import CAPITALIZED, KEYWORDS, SECTIONS, SYMBOLS, parts_of
from shared.command_line import refuse_writer
from shared.crates import TOP
from shared.written_places import in_logic, put

TERMS = "weedle_base/src/term"
TESTS, BUILT, LAWS, PRINTED = (
    f"weedle_{crate}/src" for crate in ("leaf_rows", "build_base", "comparisons", "print")
)
TABLE = in_logic("weedle_grammar.specs.Table")
# The sections whose rules read the keywords of types; others are those of definitions.
OF_TYPES = ("Literals", "SimpleTypes", "Types")
ROWS = [rule.row for section in SECTIONS if section.name in OF_TYPES for rule in section.rules]
READ = {part for row in ROWS for part in parts_of(row)}
TYPE_KEYWORDS = [name for name in KEYWORDS if upper(name) in READ]
HEAD = "//! Written by tools/terminals.py, and not edited by hand."
# Words of the language that are names of terminals or of variants in lower case.
RESERVED = "async const enum false static true type".split()


class File:
    def __init__(self, module, section, about, terminals):
        self.module, self.section, self.about, self.terminals = module, section, about, terminals


FILES = [
    File("symbols", "Symbols", "Symbols.", [(n, t, "symbol") for n, t in SYMBOLS]),
    File("definition_keywords", "Keywords", "Keywords of definitions and their members.",
         [(n, text, "keyword") for n, text in KEYWORDS.items() if n not in TYPE_KEYWORDS]),
    File("type_keywords", "Keywords", "Keywords of types, arguments and values.",
         [(n, KEYWORDS[n], "keyword") for n in TYPE_KEYWORDS]),
    File("capitalized_keywords", "CapitalizedKeywords", "Keywords with capitals.",
         [(n, n, "keyword") for n in CAPITALIZED] + [("NegInfinity", "-Infinity", "keyword")]),
]


def names_of(file):
    return ", ".join(sorted(name for name, _, _ in file.terminals))


def rules_of(file):
    """The line that brings the rules of a file's terminals in."""
    return ghost_line(f"{TABLE}.{file.section}", [upper(name) for name, _, _ in file.terminals])


def text_of(file, ghost, uses, one):
    """A file that has something of each terminal: `one` of a name, a text and a kind."""
    ghost = "".join(it if it.endswith("\n") else f"ghost use Rattle.{it};\n" for it in ghost)
    head = f"//! {file.about}\n//!\n{HEAD}\n\n{ghost}\n"
    return head + "".join(f"use {it};\n" for it in uses) + "\n" + "\n".join(one(*it) for it in file.terminals)


def terminal(name, text, kind):
    rule = upper(name)
    return f"""/// The {kind} `{text}`, with the trivia around it.
#[derive(Clone, Copy, Debug, Default, PartialEq, Eq, PartialOrd, Ord, Hash)]
pub struct {name};

impl<'a> Parse<'a> for {name} {{
    ghost reading = {{ own {rule} (λ v. Mark) ⊥ }};

    fn parse(_alloc: Global, input: &'a str) -> IResult<&'a str, Self> {{
        {kind}(Rule::{rule}, "{text}", {name}, input)
    }}

    ghost lawful = {{ own_lawful {rule} (λ v. Mark) ⊥ }};
}}
"""


def terminals(file):
    ghost = ["weedle_grammar.specs.Trees.{Mark}", rules_of(file), "weedle_base.specs.Own.{own}",
             "weedle_base.specs.OwnLaws.{own_lawful}"]
    uses = [f"crate::{{IResult, Parse, {file.terminals[0][2]}}}", "std::alloc::Global", "weedle_grammar::Rule"]
    return text_of(file, ghost, uses, terminal)


def displayed_terminal(name, text, _):
    return f"""impl Display for {name} {{
    ghost output = {{ λ v. Some (codes "{text}") }};

    fn fmt<W: Write>(&self, f: &mut Formatter<W>) -> fmt::Result {{
        f.write_str("{text}")
    }}
}}
"""


def displayed_terminals(file):
    uses = [f"crate::term::{{{names_of(file)}}}", "std::fmt::{self, Display, Formatter, Write}"]
    return text_of(file, ["std.specs.Prelude.{Some, codes}"], uses, displayed_terminal)


def tests():
    out = [f"""//! Each terminal, with and without whitespace around it.
//!
{HEAD}

use std::alloc::Global;
use std::process::Abort;
use weedle_testing::Wanted;
use weedle_base::Parse;
use weedle_base::term::*;

/// Reads a terminal between whitespace and before `anything`: with all of it, and alone, with the
/// whitespace before it, with that behind it, and with both.
fn reads<'a, T: Parse<'a>>(rt: &impl Abort, alloc: Global, text: &'a str) {{
    let padded = text.strip_suffix("anything").unwrap_or("");
    for (text, rest) in [
        (padded.trim(), ""), (padded.trim_end(), ""), (padded.trim_start(), ""), (padded, ""),
        (text.trim_start(), "anything"),
    ] {{
        match T::parse(alloc, text) {{
            Ok((left, _)) => assert!(rt; left == rest, "in {{text}}"),
            Err(_) => assert!(rt; false, "{{text}} is not read"),
        }}
    }}
}}"""]
    for f in FILES:
        out += ["", "#[test]", f"fn no_reading_of_{f.module}_takes_memory(rt: HostRuntime) {{", "    let alloc = rt.alloc();"]
        out += [f'    reads::<{name}>(&rt, alloc, "  {text}  anything");' for name, text, _ in f.terminals]
        out += ["    assert!(rt; Wanted::new().tell(&rt, alloc));", "}"]
    return "\n".join(out) + "\n"


def built_terminal(name, *_):
    return f"""impl<'a> Build<'a> for {name} {{
    type Value = Self;

    ghost fits = {{ λ r. r ≡ {upper(name)} }};

    ghost tree = {{ mark_tree }};

    fn build(_alloc: Global, table: Table<'_, 'a>, rule: Rule, at: At) -> BuildResult<Self> {{
        Ok(({name}, mark(table, rule, at)))
    }}
}}
"""


def built_terminals(file):
    uses = ["crate::at::At", "crate::build::{Build, BuildResult, mark}", "crate::table::Table", "std::alloc::Global",
            "weedle_rules::Rule", f"weedle_base::term::{{{names_of(file)}}}"]
    ghost = ["std.specs.Prelude.{◌≡◌}", rules_of(file), "weedle_base.specs.Rules.{mark_tree}"]
    return text_of(file, ghost, uses, built_terminal)


def module_of_terminals():
    symbols, keywords = len(FILES[0].terminals), sum(len(file.terminals) for file in FILES[1:])
    out = [f"//! The terminals: {symbols} symbols and {keywords} keywords.", "//!", HEAD, ""]
    return "\n".join(out + [f"mod {f.module};" for f in sorted(FILES, key=lambda f: f.module)]) + "\n"


def worded_terminal(name, text, _):
    return f"""impl Words for {name} {{
    ghost words = {{ λ v. codes "{text}" }};

    fn as_str(&self) -> &'static str {{
        "{text}"
    }}
}}
"""


def worded_terminals(file):
    uses = ["crate::words::Words", f"weedle_base::term::{{{names_of(file)}}}"]
    return text_of(file, ["std.specs.Prelude.{codes}"], uses, worded_terminal)


def printed_terminal(name, text, _):
    call = "last_word" if text == ";" else "word"
    return f"""impl Print for {name} {{
    type Value = Self;

    ghost spelling = {{ λ v. terminal (codes "{text}") v }};

    fn print(_value: &{name}, out: &mut String, layout: &mut Layout) -> Result<(), PrintError> {{
        {call}(out, layout, "{text}")
    }}
}}
"""


def printed_terminals(file):
    calls = "{last_word, word}" if file.module == "symbols" else "word"
    uses = ["crate::error::PrintError", "crate::layout::Layout", "crate::print::Print", f"crate::texts::{calls}",
            f"weedle_base::term::{{{names_of(file)}}}"]
    ghost = ["std.specs.Prelude.{codes}", "weedle_spell.specs.Leaves.{terminal}"]
    return text_of(file, ghost, uses, printed_terminal)


def label(name):
    """A clause's name, of which no word of the language is one."""
    name = upper(name).strip("_").lower()
    return name + "_" * (name in RESERVED)


def law(file, name, doc, variables, says):
    """A law of each terminal of a file, by what it says of the terminal's name."""
    clauses = [f"    ensures {label(it)} {{ ({variables} : {it}) → {says.format(it)} }}" for it, _, _ in file.terminals]
    return ["", law_doc(doc), f"pub fn {name}_of_{file.module}()", *clauses, "{}"]


def laws():
    names = ", ".join(sorted(name for file in FILES for name, _, _ in file.terminals))
    out = ["//! The defaults and the orders of the terminals: each has one value.", "//!", HEAD, "",
           "ghost use Rattle.std.specs.Prelude.{◌≡◌, ◌↔◌};", "",
           "use std::cmp::Ordering;", f"use weedle_base::term::{{{names}}};"]
    for file in FILES:
        about = file.about.rstrip(".").lower()
        out += law(file, "defaults", f"the default of each of the {about} is its one value.", "v",
                   "⟦<{0} as Default>⟧.is_default v ↔ v ≡ record {{}}")
        out += law(file, "orders", f"of two values of one of the {about} neither comes before the other.", "a b",
                   "⟦<{0} as Ord>⟧.cmp a b ≡ Ordering.Equal")
    return "\n".join(out) + "\n"


def main():
    for folder, one in (
        (TERMS, terminals), (f"{TERMS}/display", displayed_terminals), (f"{BUILT}/terminals", built_terminals),
        (f"{PRINTED}/terminals", printed_terminals), (f"{PRINTED}/terminal_words", worded_terminals),
    ):
        for file in FILES:
            put(TOP, f"{folder}/{file.module}.rt", one(file))
        if folder != TERMS:
            put(TOP, f"{folder}.rt", module_of_terminals())
    put(TOP, f"{TESTS}/terminals.rt", tests())
    put(TOP, f"{LAWS}/terminals.rt", laws())


if __name__ == "__main__":
    sys.exit(refuse_writer(__doc__))
