"""Writes the tables of `weedle_grammar`, and the filling of those of `weedle_rules`, from the grammar.

tools/write/write_all.py runs it.

The grammar stands in tools/description/webidl.py, and today's behind it in today.py. The script
writes, for each section S of them, in crates/weedle_grammar
    specs/Table/S.antt      the numbers of its rules, and their rows and shapes
    src/grammar/s.rt        the same for the program: numbers, constants of `Rule`, rows, names
    proofs/Takes/S.antt     which of its rules always take a byte
for each section of the first, in crates/weedle_rules
    src/fill/place/s.rt     the filling of the cells of its rules at a place
and over all sections, in the first specs/Table.antt, specs/Names.antt, specs/Bound.antt,
src/grammar.rt, proofs/Takes.antt and the numbers RULES and TABLE_RULES in src/lib.rt, in the second
specs/Bound.antt, src/fill/place.rt and the number READS in src/lib.rt.

A rule has a constant of `Rule` where it has a doc line, or where a scanner names it. Its name in a
syntax tree is that of its constant in small letters.
"""

import re
import sys
from pathlib import Path

if not __package__:
    sys.path[0] = str(Path(__file__).resolve().parent.parent)

from description import webidl
from description.docs import comment
from description.today import NUMBER, RULES, SECTIONS
from description.webidl import SCANNED, parts_of
from shared.command_line import refuse_writer
from shared.crates import TOP
from shared.written_places import in_logic, put

GRAMMAR, ENDS = "weedle_grammar", "weedle_rules"
TABLE, BOUND = in_logic(f"{GRAMMAR}.specs.Table"), in_logic(f"{GRAMMAR}.specs.Bound")
NAMES = in_logic(f"{GRAMMAR}.specs.Names")
FLAGS = in_logic(f"{GRAMMAR}.proofs.Takes")
HEAD = "Written by tools/grammar.py, and not edited by hand."


# What the proofs want to know of the rules.
def row_takes(row, takes):
    """Whether the row takes a byte wherever it doesn't fail."""
    kind = row[0]
    if kind in ("Bytes", "Past"):
        return len(row[1]) > 0
    if kind == "OneOf":
        return True
    if kind in ("Seq", "If"):
        return any(takes[x] for x in row[1])
    if kind == "First":
        return all(takes[x] for x in row[1])
    if kind == "List1":
        return takes[row[1]] or takes[row[2]]
    return False


def find_takes():
    takes = dict.fromkeys(NUMBER, False)
    while (found := {r.name: row_takes(r.row, takes) for r in RULES}) != takes:
        takes = found
    return takes


TAKES = find_takes()


def read_first(row):
    """The rules that the row may read before a byte is taken."""
    kind = row[0]
    if kind in ("Seq", "If"):
        out = []
        for x in row[1]:
            out.append(x)
            if TAKES[x]:
                return out
        return out + ([row[3]] if kind == "If" else [])
    if kind in ("List", "List1"):
        return [row[1]] + ([] if TAKES[row[1]] else [row[2]])
    if kind == "Tail":
        return [row[2]]
    return parts_of(row)


def reads_of(row):
    """How often a byte or a cell is looked at, at most, to work a cell of the row out."""
    kind = row[0]
    if kind in ("Bytes", "Past", "Seq", "First", "If"):
        return len(row[1]) + (kind in ("Past", "If"))
    return {"OneOf": 1, "NotNext": 1, "Run": 2, "Opt": 1, "Many": 2, "List": 2, "List1": 2, "Tail": 3}[kind]


# Where all alternatives of a choice fail, each is looked at: so no smaller number holds, if the greatest is a choice's.
MOST_READS = max(reads_of(r.row) for r in webidl.RULES)
assert MOST_READS <= 100 and any(r.row[0] == "First" and reads_of(r.row) == MOST_READS for r in webidl.RULES)


for r in RULES:
    for x in parts_of(r.row):
        if x not in NUMBER:
            sys.exit(f"{r.name} reads {x}, which no section has")
    for x in read_first(r.row):
        if NUMBER[x] >= NUMBER[r.name]:
            sys.exit(f"{r.name} reads {x} before a byte is taken: write {x} above it")

def quoted(text):
    return '"' + text.replace('"', '\\"').replace("\n", "\\n") + '"'


def spec_bytes(text):
    return "codes " + quoted(text) if "\n" not in text and '"' not in text else " ∷ ".join(str(b) for b in text.encode()) + " ∷ []"


def spec_list(names):
    return "(" + " ∷ ".join(names) + " ∷ [])"


SPEC_KIND = {"List": "ListOf"}


def spec_row(row):
    kind = row[0]
    if kind in ("Bytes", "Past"):
        return f"{kind} ({spec_bytes(row[1])})"
    if kind in ("Seq", "First"):
        return f"{kind} {spec_list(row[1])}"
    if kind == "If":
        return f"If {spec_list(row[1])} {row[2]} {row[3]}"
    return " ".join([SPEC_KIND.get(kind, kind)] + list(row[1:]))


def spec_section(s):
    rows = [r.row for r in s.rules]
    kinds = sorted({SPEC_KIND.get(row[0], row[0]) for row in rows})
    classes = sorted({row[1] for row in rows if row[0] in ("OneOf", "NotNext", "Run")})
    shapes = sorted({r.shape.split()[0] for r in s.rules})
    own = {r.name for r in s.rules}
    used = {}
    for row in rows:
        for x in parts_of(row):
            if x not in own:
                home = next(t for t in SECTIONS if any(r.name == x for r in t.rules))
                used.setdefault(home.name, set()).add(x)
    numerals = any(row[0] in ("Bytes", "Past") and "codes" in spec_bytes(row[1]) for row in rows)
    out = [f"-- {s.about}", "-- The number of each rule, and its row and shape, in the order of the numbers.", f"-- {HEAD}"]
    out.append("use Rattle.std.specs.Prelude.{ℕ, List, [], ◌∷◌" + (", codes" if numerals else "") + "}")
    if classes:
        out.append("use Rattle.weedle_grammar.specs.declared.class.Class.TheVariants.{" + ", ".join(classes) + "}")
    out.append("use Rattle.weedle_grammar.specs.Rows.{" + ", ".join(kinds) + "}")
    out.append("use Rattle.weedle_grammar.specs.Meaning.{" + ", ".join(shapes) + "}")
    out.append("use Rattle.weedle_grammar.specs.Entry.{Entry, rule}")
    for home in SECTIONS:
        if home.name in used:
            out.append(f"use {TABLE}.{home.name}.{{" + ", ".join(sorted(used[home.name], key=NUMBER.get)) + "}")
    out.append("")
    for r in s.rules:
        out += [f"abbrev pub {r.name} : ℕ", f"{r.name} = {NUMBER[r.name]}", ""]
    out += [f"abbrev pub {s.module} : List Entry", f"{s.module} ="]
    for r in s.rules:
        shape = r.shape if " " not in r.shape else f"({r.shape})"
        out.append(f"    rule {r.name} {shape} ({spec_row(r.row)}) ∷")
    out.append("    []")
    put(TOP, f"{GRAMMAR}/specs/Table/{s.name}.antt", "\n".join(out) + "\n")


def joined_sections():
    """The lists of all sections, one behind the other."""
    *front, last = (s.module for s in SECTIONS)
    return f"{' ++ ('.join(front)} ++ {last}{')' * (len(front) - 1)}"


def spec_table():
    out = ["-- The grammar: the rows and shapes of all rules, section by section. " + HEAD]
    out += ["use Rattle.std.specs.Prelude.{ℕ, zero, suc, List, [], ◌∷◌, ◌++◌}",
            "use Rattle.weedle_grammar.specs.Rows.{Row, First}",
            "use Rattle.weedle_grammar.specs.Trees.{Outcome}",
            "use Rattle.weedle_grammar.specs.Meaning.{Shape, Silent, Grammar, ReadsBy}",
            "use Rattle.weedle_grammar.specs.Entry.{Entry, entry_at}"]
    out += [f"use {TABLE}.{s.name}.{{{s.module}}}" for s in SECTIONS]
    out.append("")
    out += [f"pub mod {s.name}" for s in SECTIONS]
    out.append("")
    out += ["-- all rules, in the order of their numbers", "abbrev pub table : List Entry", f"table = {joined_sections()}", "",
            "-- the row of a rule", "abbrev pub row_of : ℕ → Row", "row_of r = (entry_at table r).row", "",
            "-- its shape", "abbrev pub shape_of : ℕ → Shape", "shape_of r = (entry_at table r).shape", "",
            "-- the grammar", "abbrev pub webidl : Grammar", "webidl = record { row = row_of; shape = shape_of }", "",
            "-- rule r at place p of the text has the outcome o",
            "abbrev pub Reads : List ℕ → ℕ → ℕ → Outcome → Type 0", "Reads text r p o = ReadsBy webidl text r p o"]
    put(TOP, f"{GRAMMAR}/specs/Table.antt", "\n".join(out) + "\n")


def spec_names():
    """The names of all rules, section by section."""
    out = ["-- The names of the rules, as a syntax tree has them. " + HEAD,
           "use Rattle.std.specs.Prelude.{ℕ, zero, suc, List, [], ◌∷◌, ◌++◌, codes}", ""]
    for s in SECTIONS:
        out += [f"-- {s.about}", f"abbrev pub {s.module} : List (List ℕ)", f"{s.module} ="]
        out += [f'    codes "{r.name.lower()}" ∷' for r in s.rules] + ["    []", ""]
    out += ["-- all names, in the order of the rules' numbers", "abbrev pub names : List (List ℕ)",
            f"names = {joined_sections()}", "",
            "-- the name at a place of a list; past its end an empty one", "abbrev pub name_at : List (List ℕ) → ℕ → List ℕ",
            "name_at [] r = []", "name_at (n ∷ ns) zero = n", "name_at (n ∷ ns) (suc r) = name_at ns r", "",
            "-- the name of a rule", "abbrev pub name_of : ℕ → List ℕ", "name_of r = name_at names r"]
    put(TOP, f"{GRAMMAR}/specs/Names.antt", "\n".join(out) + "\n")


PLAIN = {
    "Bytes": "the bytes `{}`", "Past": "everything past `{}`", "OneOf": "one byte of the class `{}`",
    "NotNext": "no byte of the class `{}` next", "Run": "all bytes of the class `{}`", "Opt": "`{}` or nothing",
    "Many": "`{}` again and again", **dict.fromkeys(("List", "List1", "Tail"), "items `{}`"),
}


def plain_text(row):
    """The row in words, for the doc line of a part."""
    if row[0] in PLAIN:
        return PLAIN[row[0]].format(row[1].replace("\n", "LF"))
    return "the first of " * (row[0] != "Seq") + ", ".join(f"`{x}`" for x in row[1])


def code_row(row):
    kind = row[0]
    if kind in ("Bytes", "Past"):
        return f"Row::{kind}(b{quoted(row[1])})"
    if kind in ("OneOf", "NotNext", "Run"):
        return f"Row::{kind}(Class::{row[1]})"
    if kind in ("Seq", "First"):
        return f"Row::{kind}(parts_of(&[{', '.join(row[1])}]))"
    if kind == "If":
        return f"Row::If(parts_of(&[{', '.join(row[1])}]), {row[2]}, Rule({row[3]}))"
    return f"Row::{kind}({', '.join(f'Rule({x})' for x in row[1:])})"


def doc_of(r):
    """The doc line of a rule's constant, or None where it has no constant."""
    return r.doc or (f"A part: {plain_text(r.row)}." if r.name in SCANNED else None)


def patterns(s):
    """What stands for each rule of a section in a match over their numbers."""
    for r in s.rules:
        yield (r.name if r is not s.rules[-1] else "_"), r


def code_section(s):
    low, high = NUMBER[s.rules[0].name], NUMBER[s.rules[-1].name] + 1
    text = "".join(code_row(r.row) for r in s.rules)
    out = [f"//! {s.about}", "//!", f"//! {HEAD}", "",
           "ghost use Rattle.std.specs.Prelude.{◌≡◌, ◌<◌, ◌≤◌};",
           f"ghost use {NAMES}.{{name_of}};",
           f"ghost use {TABLE}.{{row_of}};",
           "ghost use Rattle.weedle_grammar.specs.View.{row_view};", ""]
    if "Class::" in text:
        out.append("use crate::class::Class;")
    own = {r.name for r in s.rules}
    read = {x for r in s.rules for x in parts_of(r.row)} - own
    for home in SECTIONS:
        names = sorted((r.name for r in home.rules if r.name in read))
        if names:
            out.append(f"use crate::grammar::{home.module}::{{{', '.join(names)}}};")
    out.append("use crate::row::{" + ("Row, parts_of" if "parts_of(" in text else "Row") + "};")
    out += ["use crate::rule::Rule;", ""]
    out += [f"pub const {r.name}: u16 = {NUMBER[r.name]};" for r in s.rules]
    constants = [(r.name, doc_of(r)) for r in s.rules if doc_of(r)]
    out += ["", "impl Rule {"] + [line for name, doc in constants for line in (f"    /// {doc}", f"    pub const {name}: Rule = Rule({name});")] + ["}"]
    requires = [f"    requires low {{ {low} ≤ number }}", f"    requires high {{ number < {high} }}"]
    within = requires if low else [requires[1].replace("requires high", "requires")]
    out += ["", f"/// The row of a rule from {low} to {high - 1}.", "#[inline(always)]", "pub(super) fn row(number: u16) -> Row"]
    out += within + ["    ensures { row_view result ≡ row_of number }", "{", "    match number {"]
    out += [f"        {pattern} => {code_row(r.row)}," for pattern, r in patterns(s)] + ["    }", "}"]
    out += ["", f"/// The name of a rule from {low} to {high - 1}.", "pub(super) fn name(number: u16) -> &'static str"]
    out += within + ["    ensures { result.now ≡ name_of number }", "{", "    match number {"]
    out += [f'        {pattern} => "{r.name.lower()}",' for pattern, r in patterns(s)] + ["    }", "}"]
    put(TOP, f"{GRAMMAR}/src/grammar/{s.module}.rt", "\n".join(out) + "\n")


def by_section(call):
    """Calls the function of this name of the section in which a rule's number lies."""
    yield "    let number = rule.number();"
    for i, s in enumerate(SECTIONS):
        high = NUMBER[s.rules[-1].name] + 1
        lead = "    if" if i == 0 else "    } else if"
        yield f"{lead} number < {high} {{" if i + 1 < len(SECTIONS) else "    } else {"
        yield f"        {s.module}::{call}(number)"
    yield "    }"


def code_grammar():
    out = ["//! The rules of each section, by name: for the packrat table.", "//!",
           "//! A constant is a rule's number. The rows of a section are beside its constants.", "//!",
           f"//! {HEAD}", "",
           "ghost use Rattle.std.specs.Prelude.{◌≡◌};",
           f"ghost use {NAMES}.{{name_of as the_name_of}};",
           f"ghost use {TABLE}.{{row_of as the_row_of}};",
           "ghost use Rattle.weedle_grammar.specs.View.{row_view};", "",
           "use crate::row::Row;", "use crate::rule::Rule;", ""]
    out += [f"pub mod {s.module};" for s in SECTIONS]
    out += ["", "/// What a rule reads. It takes no memory.", "#[inline(always)]", "pub fn row_of(rule: Rule) -> Row",
            "    ensures { row_view result ≡ the_row_of rule }", "{", *by_section("row"), "}"]
    out += ["", "/// What a rule is called. It takes no memory.", "pub(crate) fn name_of(rule: Rule) -> &'static str",
            "    ensures { result.now ≡ the_name_of rule }", "{", *by_section("name"), "}"]
    put(TOP, f"{GRAMMAR}/src/grammar.rt", "\n".join(out) + "\n")


def set_number(crate, name, value):
    path = TOP / "crates" / crate / "src/lib.rt"
    if path.exists():
        path.write_text(re.sub(rf"pub const {name}: usize = \d+;", f"pub const {name}: usize = {value};", path.read_text()))


def spec_counts():
    """How many rules there are, and how many of them are weedle2's."""
    put(TOP, f"{GRAMMAR}/specs/Bound.antt", f"""-- How many rules there are. {HEAD}
use Rattle.std.specs.Prelude.{{ℕ}}

-- one more than the greatest number
abbrev pub rule_count : ℕ
rule_count = {len(RULES)}

-- the rules below it are weedle2's: a table of ends has these alone
abbrev pub table_count : ℕ
table_count = {len(webidl.RULES)}
""")
    set_number(GRAMMAR, "RULES", len(RULES))
    set_number(GRAMMAR, "TABLE_RULES", len(webidl.RULES))


def spec_number(crate, about, doc, name, value, constant):
    """A number in the specs of a crate, which its code has as a constant."""
    put(TOP, f"{crate}/specs/Bound.antt", f"""-- {about} {HEAD}
use Rattle.std.specs.Prelude.{{ℕ}}

-- {doc}
abbrev pub {name} : ℕ
{name} = {value}
""")
    set_number(crate, constant, value)


FILL_GHOSTS = ["ghost use Rattle.std.specs.Prelude.{◌≤◌, length};", "ghost use Rattle.weedle_rules.specs.Filling.{IsFilling};", ""]
CALLS = 8  # in one function: of four the compiler makes slower code, of more the check takes longer


def fill_head(visibility, name, low, high):
    return ["#[inline(always)]", f"{visibility}fn {name}<C: Cell>(reader: &mut Reader<'_, C>, place: usize)",
            "    requires within { place ≤ length reader.old.text }",
            f"    requires next {{ IsFilling reader.old reader.old.text place {low} }}",
            f"    ensures {{ IsFilling reader.new reader.old.text place {high} }}", "{"]


def code_fill_section(s):
    names = [r.name for r in s.rules]
    low, high = NUMBER[names[0]], NUMBER[names[-1]] + 1
    out = [comment(f"Works out the cells of a place, section: {s.about}", "//! "), "//!", f"//! {HEAD}", ""]
    out += FILL_GHOSTS
    out += ["use crate::cell::Cell;", "use crate::fill::fill_cell;", "use crate::reader::Reader;",
            f"use weedle_grammar::grammar::{s.module};", ""]
    starts = range(low, high, CALLS)
    out += [f"/// Works out the cells of the rules from {low} to {high - 1}."] + fill_head("pub(super) ", "fill", low, high)
    out += [f"    fill_from_{start}(reader, place);" for start in starts] + ["}"]
    for start in starts:
        stop = min(start + CALLS, high)
        out += [""] + fill_head("", f"fill_from_{start}", start, stop)
        out += [f"    fill_cell(reader, {s.module}::{RULES[n].name}, place);" for n in range(start, stop)] + ["}"]
    put(TOP, f"{ENDS}/src/fill/place/{s.module}.rt", "\n".join(out) + "\n")


def code_fill_place():
    out = ["//! Works out the cells of one place, section by section.", "//!", f"//! {HEAD}", "",
           "ghost use Rattle.std.specs.Prelude.{◌≤◌, ◌+◌, ◌-◌, ◌*◌, length};",
           f"ghost use {BOUND}.{{table_count}};",
           "ghost use Rattle.weedle_rules.specs.Filling.{IsFilled};", "",
           "use crate::cell::Cell;", "use crate::reader::Reader;", ""]
    out += [f"mod {s.module};" for s in webidl.SECTIONS]
    out += ["", "/// Works out the cells of weedle2's rules at a place, where all behind it are known.",
            "#[inline(always)]", "pub(crate) fn fill_place<C: Cell>(reader: &mut Reader<'_, C>, place: usize)",
            "    requires within { place ≤ length reader.old.text }",
            "    requires next { IsFilled reader.old reader.old.text ((length reader.old.text - place) * table_count) }",
            "    ensures { IsFilled reader.new reader.old.text ((length reader.old.text - place) * table_count + table_count) }",
            "{", "    reader.lay();"]
    out += [f"    {s.module}::fill(reader, place);" for s in webidl.SECTIONS] + ["}"]
    put(TOP, f"{ENDS}/src/fill/place.rt", "\n".join(out) + "\n")


def proof_takes():
    for s in SECTIONS:
        flags = [("true" if TAKES[r.name] else "false") for r in s.rules]
        used = ", ".join(flag for flag in ("true", "false") if flag in flags)
        out = [f"-- Which rules of this section always take a byte. {HEAD}",
               f"use Rattle.std.proofs.Common.{{List, [], ◌∷◌, Bool, {used}}}", "",
               f"abbrev pub {s.module} : List Bool", f"{s.module} ="]
        for i in range(0, len(flags), 12):
            out.append("    " + " ∷ ".join(flags[i:i + 12]) + " ∷")
        out.append("    []")
        put(TOP, f"{GRAMMAR}/proofs/Takes/{s.name}.antt", "\n".join(out) + "\n")
    out = [f"-- Which rules always take a byte. {HEAD}",
           "use Rattle.std.proofs.Common.{ℕ, zero, suc, List, [], ◌∷◌, ◌++◌, Bool, false}"]
    out += [f"use {FLAGS}.{s.name}.{{{s.module}}}" for s in SECTIONS]
    out.append("")
    out += [f"pub mod {s.name}" for s in SECTIONS]
    out += ["", "-- whether each rule does, in the order of their numbers", "abbrev pub flags : List Bool", f"flags = {joined_sections()}", "",
            "-- the flag at a place; past the end none is set",
            "abbrev pub flag_at : List Bool → ℕ → Bool", "flag_at [] r = false", "flag_at (b ∷ bs) zero = b",
            "flag_at (b ∷ bs) (suc r) = flag_at bs r", "", "-- the rule takes a byte wherever it doesn't fail",
            "abbrev pub takes : ℕ → Bool", "takes r = flag_at flags r"]
    put(TOP, f"{GRAMMAR}/proofs/Takes.antt", "\n".join(out) + "\n")


def main():
    for s in SECTIONS:
        spec_section(s)
        code_section(s)
    for s in webidl.SECTIONS:
        code_fill_section(s)
    spec_table()
    spec_names()
    spec_counts()
    often = "how often a byte or a cell is looked at, at most, to work a rule out at a place"
    spec_number(ENDS, "How much is looked at for one cell.", often, "most_reads", MOST_READS, "READS")
    code_grammar()
    code_fill_place()
    proof_takes()


if __name__ == "__main__":
    sys.exit(refuse_writer(__doc__))
