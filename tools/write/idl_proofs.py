"""Writes the proofs that members and definitions read what their rules read.

tools/write/write_all.py runs it.

The fields of a struct and the variants of an enum are those of its declaration, in their order. The
types of a module have their proofs in a file of its name; tools/write/proofs/idl_parts.py says what it says
of them. For each type it writes the parts that are read, that they read what the rule reads, what the
parts give and refuse as what the rule does, and the lemmas that the search for the proof of `parse` uses.
"""

import re
import sys
from pathlib import Path

if not __package__:
    sys.path[0] = str(Path(__file__).resolve().parent.parent)

from description.imports import Names, use
from description.names import snake, upper
from description.readings import CRATES
from shared.command_line import refuse_writer
from shared.crates import TOP
from shared.written_places import in_logic, put
from write.proofs.idl_parts import files, tree_name

HEAD = "Written by tools/idl_proofs.py, and not edited by hand."
# Names of the standard library, and those that no `pub` states, in the order in which they are written.
STANDARD = {
    "Rattle.std.proofs.Common": ["inl", "inr", "refl"],
    "Rattle.std.specs.Borrow": ["Bor"],
    "Rattle.std.specs.Global": ["Vec"],
    "Rattle.std.specs.Prelude": ["ℕ", "List", "[]", "◌∷◌", "◌⊎◌", "Option"],
    "Rattle.weedle_base.specs.declared.choice.Choice.TheVariants": ["First", "Second"],
    "Rattle.weedle_grammar.specs.Trees": ["Alt", "Mark", "Node"],
}
# The name of a field counts as one too: `members` is brought in where only a field has this name.
WORD = re.compile(r"(?<![\w-])[\w«»'-]+")
NAMES = Names(TOP, ["weedle_grammar", "weedle_base", *CRATES], STANDARD, word=WORD)
BASE = "Rattle.weedle_base"


def nested(items, join):
    out = items[-1]
    for item in reversed(items[:-1]):
        out = join(item, out)
    return out


def place(k, n):
    """Field k of n, of values paired to the right."""
    return "x" + ".1" * k + ("" if k == n - 1 else ".0")


def chosen(k, last, first="inl", second="inr"):
    """Alternative k of those up to the last, as a value of a nested sum."""
    depth, end = (k, f"{first} v") if k < last else (k - 1, f"{second} v")
    return f"{second} (" * depth + end + ")" * depth


def choices(types):
    """The type of a value of one of these types."""
    return nested(types, lambda a, b: f"Choice {a} ({b})" if " " in b else f"Choice {a} {b}")


def first_reading(readings):
    """The reading of the first of the alternatives that fits."""
    return nested(readings, lambda a, b: f"(seen_reading choice_view (choice_reading {a} {b}))")


def first_tree(trees):
    return nested(trees, lambda a, b: f"(λ x. choice_tree {a} {b} (choice_view x))")


def first_fact(parts, first):
    """That they are read as the first that fits, counted from `first`."""
    last = len(parts) - 1
    facts = [f"(first_last {first + k} {p.rule})" if k == last else f"(first_seen choice_view (first_more {first + k} {p.rule}" for k, p in enumerate(parts)]
    return nested(facts, lambda a, b: f"{a} {b}))")


def lemmas(t, view, cases):
    """What the parts give or refuse, the rule gives or refuses."""
    name, rule, tree = snake(t.name), upper(t.name), tree_name(t.name)
    whole = f"(own {rule} {tree} {t.grows})"
    return f"""-- the parts give what the rule gives
pub {name}_got : {{s rest : List ℕ}} (x : {t.name}) → Got {name}_parts s {view} rest → Got {whole} s x rest
{cases}

-- a fault of the parts is one of the rule
pub {name}_fault : {{s : List ℕ}} {{e : Fault (Error (Bor (List ℕ)))}} → Faults {name}_parts s e → Faults {whole} s e
{name}_fault h = fault_rule {name}_rule {tree} h
"""


def struct(t):
    name, rule, tree = snake(t.name), upper(t.name), tree_name(t.name)
    parts = [p for _, p in t.parts]
    n = len(parts)
    types = nested([p.type.strip("()") if n == 1 else p.type for p in parts], lambda a, b: f"{a} × ({b})" if "×" in b else f"{a} × {b}")
    reading = nested([p.reading for p in parts], lambda a, b: f"(pair_reading {a} {b})").strip()
    fact = nested([f"(seq_last {parts[-1].rule})" if k == n - 1 else p.rule for k, p in enumerate(parts)], lambda a, b: f"(seq_next {a} {b})")
    trees = " ∷ ".join(p.tree_of(place(k, n)) for k, p in enumerate(parts))
    view = nested([f"x.{f}" for f, _ in t.parts], lambda a, b: f"({a}, {b})")
    cases = f"{name}_got x h = got_rule {name}_rule {tree} x h refl"
    return f"""-- {t.about}
abbrev {name}_parts : Reading ({types})
{name}_parts = {reading[1:-1]}

{name}_rule : IsRule {name}_parts {rule} (λ x. Node (trees ({trees} ∷ []))) {t.grows}
{name}_rule = seq_rule {fact} {rule} refl refl

""" + lemmas(t, view, cases)


def enum(t):
    name, rule, tree = snake(t.name), upper(t.name), tree_name(t.name)
    parts = [p for _, p in t.parts]
    last = len(parts) - 1
    types = choices([p.type for p in parts])
    reading = first_reading([p.reading for p in parts])
    trees = first_tree([f"(λ v. Alt {k} {('(' + p.tree_of('v') + ')') if p.tree != 'mark_tree' else 'Mark'})" for k, p in enumerate(parts)])
    fact = first_fact(parts, 0)
    view = "\n".join(f"{name}_view (Is{variant} v) = {chosen(k, last, 'First', 'Second')}" for k, (variant, _) in enumerate(t.parts))
    cases = "\n".join(f"{name}_got (Is{variant} v) h = got_rule {name}_rule {tree} _ h refl" for variant, _ in t.parts)
    return f"""-- {t.about}
abbrev {name}_parts : Reading ({types})
{name}_parts = {reading[1:-1]}

-- which of the alternatives a value is
abbrev {name}_view : {t.name} → {types}
{view}

{name}_rule : IsRule {name}_parts {rule} {trees} {t.grows}
{name}_rule = first_rule {fact} {rule} refl refl

""" + lemmas(t, f"({name}_view x)", cases)


def steps(t):
    name = snake(t.name)
    parts = "part_steps, " if not t.is_enum and t.has_calls() else ""
    return f"""-- what the search for the proof of its `parse` uses
pub ruleset {name}_steps = ({parts}{name}_got, {name}_fault)
"""


def piece(t, name, first, variants):
    """The proofs of a function that reads a few alternatives, counted from `first`."""
    tree = tree_name(t.name)
    last = len(variants) - 1
    parts = [p for _, p in variants]
    types = choices([p.type for p in parts])
    reading = first_reading([p.reading for p in parts])
    trees = first_tree([f"(λ v. Alt {first + k} ({p.tree_of('v')}))" for k, p in enumerate(parts)])
    fact = first_fact(parts, first)
    whole = f"(members {name}_rules {first} {tree} {t.grows})"
    out = f"""-- `{name}`
abbrev {name}_parts : Reading ({types})
{name}_parts = {reading[1:-1]}

{name}_first : IsFirst {name}_parts {name}_rules {first} {trees} {t.grows}
{name}_first = {fact[1:-1]}

"""
    for k, (variant, p) in enumerate(variants):
        out += f"""pub {name}_got_{k} : {{s rest : List ℕ}} {{v : {p.type}}} → Got {name}_parts s ({chosen(k, last, 'First', 'Second')}) rest → Got {whole} s (Is{variant} v) rest
{name}_got_{k} {{v = v}} h = got_members {name}_first {tree} (Is{variant} v) h refl

"""
    got = ", ".join(f"{name}_got_{k}" for k in range(last + 1))
    return out + f"""pub {name}_fault : {{s : List ℕ}} {{e : Fault (Error (Bor (List ℕ)))}} → Faults {name}_parts s e → Faults {whole} s e
{name}_fault h = fault_members {name}_first {tree} h

-- what the search for the proof of `{name}` uses
pub ruleset {name}_steps = ({got}, {name}_fault)
"""


def joined(t):
    """The proofs of an enum whose pieces are read one where those before it were a mismatch."""
    name, rule, tree = snake(t.name), upper(t.name), tree_name(t.name)
    out, first, firsts, readings = "", 0, [], []
    for piece_name, count in t.pieces:
        out += piece(t, piece_name, first, t.parts[first:first + count]) + "\n"
        firsts.append((piece_name, first))
        first += count
    readings = [f"(members {p}_rules {i} {tree} {t.grows})" for p, i in firsts]
    last = len(firsts) - 1
    types = nested([t.name for _ in firsts], lambda a, b: f"{a} ⊎ ({b})" if "⊎" in b else f"{a} ⊎ {b}")
    fact = [f"(members_first {p}_rules {i} {tree} {t.grows})" for p, i in firsts]
    whole = fact[last]
    for k in reversed(range(last)):
        whole = f"(first_piece {firsts[k + 1][1]} {fact[k]} {whole} refl)"
    trees = nested([tree for _ in firsts], lambda a, b: f"(choice_tree {a} {b})")
    own_reading = f"(own {rule} {tree} {t.grows})"
    out += f"""-- all of them
abbrev {name}_parts : Reading ({types})
{name}_parts = {nested(readings, lambda a, b: f"(choice_reading {a} {b})")[1:-1]}

{name}_rule : IsRule {name}_parts {rule} {trees} {t.grows}
{name}_rule = first_rule {whole} {rule} refl refl

"""
    for k in range(last + 1):
        out += f"""pub {name}_got_{k} : {{s rest : List ℕ}} {{v : {t.name}}} → Got {name}_parts s ({chosen(k, last)}) rest → Got {own_reading} s v rest
{name}_got_{k} {{v = v}} h = got_rule {name}_rule {tree} v h refl

"""
    got = ", ".join(f"{name}_got_{k}" for k in range(last + 1))
    return out + f"""-- a fault of the parts is one of the rule
pub {name}_fault : {{s : List ℕ}} {{e : Fault (Error (Bor (List ℕ)))}} → Faults {name}_parts s e → Faults {own_reading} s e
{name}_fault h = fault_rule {name}_rule {tree} h

-- what the search for the proof of its `parse` uses
pub ruleset {name}_steps = (direct_choice, {got}, {name}_fault)
"""


def answers(t, file):
    """The answers of an enum's `parse` that tries its pieces."""
    name = snake(t.name)
    pieces = [p for p, _ in t.pieces]
    last = len(pieces) - 1
    path = f"{file.module}.{t.name}Parse.parse"
    got = ", ".join(f"{name}_got_{k}" for k in range(last + 1))
    out = [f"-- Alternatives, each where those before it were a mismatch. {HEAD}",
           f"use {in_logic(f'{file.crate}.proofs.{file.name}')}.{{{name}_fault, {got}}}",
           f"use {in_logic(f'{file.crate}.proofs.{path}')}.Goals as goal",
           f"use {BASE}.proofs.Direct.{{hand_on, stop_first, stop_next, take_first, take_next}}"]

    def behind(step, k, fact):
        for j in reversed(range(k)):
            end = "" if j == 0 else f"-{pieces[j]}"
            fact = f"({step} _ _ c.in-Err-Error{end}.ensures c.in-Err-Error{end}.field-0-is {fact})"
        return fact

    for k in range(last):
        end = "" if k == 0 else f"-{pieces[k]}"
        goal = f"returns-in-Ok{end}"
        out += ["", f"pub {goal} : goal.{goal}", f"{goal} c = {name}_got_{k} {behind('take_next', k, f'(take_first _ _ c.in-Ok{end}.ensures)')}"]
        goal = f"returns-in-Err-Failure{end}"
        stop = f"(stop_first _ _ c.in-Err-Failure{end}.ensures c.in-Err-Failure{end}.field-0-is)"
        out += ["", f"pub {goal} : goal.{goal}", f"{goal} c = {name}_fault {behind('stop_next', k, stop)}"]
    call = f"c.{pieces[last]}"
    took = f"(λ rest v g. {name}_got_{last} {behind('take_next', last, 'g')})"
    stopped = f"(λ e f. {name}_fault {behind('stop_next', last, 'f')})"
    out += ["", "pub returns : goal.returns", f"returns c = hand_on {call}.result {took} {stopped} {call}.ensures"]
    put(TOP, f"{file.crate}/proofs/{path.replace('.', '/')}/Answers.antt", "\n".join(out) + "\n")


def write(file):
    texts = [struct(t) if not t.is_enum else joined(t) if t.pieces else enum(t) for t in file.types]
    body = "\n".join(texts + [steps(t) for t in file.types if not t.is_enum or not t.pieces])
    variants = [use(f"{t.home}.TheVariants", [f"{name} as Is{name}" for name, _ in t.parts]) for t in file.types if t.is_enum]
    head = f"-- {file.about} {HEAD}\n" + "\n".join(NAMES.uses(body, variants)) + "\n\n"
    put(TOP, f"{file.crate}/proofs/{file.name}.antt", head + body)
    for t in file.types:
        if t.is_enum and t.pieces:
            answers(t, file)


def main():
    for file in files():
        write(file)


if __name__ == "__main__":
    sys.exit(refuse_writer(__doc__))
