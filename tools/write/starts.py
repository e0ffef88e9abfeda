"""Writes the rows of all rules for `weedle_starts`, and the bytes that each can begin with, from the grammar.

tools/write/write_all.py runs it.

The grammar stands in tools/description/webidl.py. The script writes in crates/weedle_starts
    src/ways.rt             the rows of all rules, by number
    src/numbers.rt          the numbers of the rules that rows name, one row's behind another's
    src/bytes.rt            the bytes that rows name, as above
    src/first_sets.rt       the ASCII bytes that each rule can begin with
    src/gates.rt            those at which it isn't passed over
    src/written.rt          which modules these are
    proofs/Words.antt       the ASCII bytes with which each rule begins where it takes one

A set of ASCII bytes is a number of 128 bits: the bit of a byte is that of its number. What can't begin with a
byte can be seen before it is read: before it takes a byte, a rule reads only rules of smaller numbers, so one look at
each row, in the order of the numbers, gives all sets.
"""

import sys
from pathlib import Path

if not __package__:
    sys.path[0] = str(Path(__file__).resolve().parent.parent)

from description.classes import CLASSES
from description.today import NUMBER, RULES
from shared.command_line import refuse_writer
from shared.crates import TOP
from shared.written_places import put
from write.grammar import TAKES

CRATE = "weedle_starts"
HEAD = "Written by tools/starts.py, and not edited by hand."
# All ASCII bytes.
EVERY = 2 ** 128 - 1
# In a line of numbers of 128 bits.
WORDS_A_LINE = 2


def word_of(numbers):
    """The ASCII bytes of these numbers as the bits of a word."""
    return sum(1 << it for it in set(numbers) if it < 128)


def begins(row, words):
    """The ASCII bytes with which the row begins where it takes one, by those of the rules that it names."""
    kind, *rest = row
    if kind == "Bytes":
        return word_of(rest[0].encode()[:1])
    if kind in ("OneOf", "Run"):
        return word_of(CLASSES[rest[0]])
    if kind == "NotNext":
        return 0
    if kind == "Past":
        return EVERY
    word = 0
    for name in read_before(row):
        word |= words[name]
    return word


def read_before(row):
    """The rules that the row may read where no byte is taken yet."""
    kind, *rest = row
    if kind == "First":
        return rest[0]
    if kind in ("Seq", "If"):
        taking = next((i for i, it in enumerate(rest[0]) if TAKES[it]), len(rest[0]))
        return rest[0][:taking + 1] + ((rest[2],) if kind == "If" else ())
    return rest[1:] if kind == "Tail" else rest


def all_words():
    """The words of all rules, by their names."""
    words = {}
    for rule in RULES:
        words[rule.name] = begins(rule.row, words)
    return words


WORDS = all_words()


def first_set(name):
    """The ASCII bytes that the rule can begin with: all of them, where it may take no byte."""
    return WORDS[name] if TAKES[name] else EVERY


def gate(rule):
    """The ASCII bytes at which the rule isn't passed over: the first set of what it may go without, or else its own."""
    row = rule.row
    return first_set({"Opt": row[1], "Many": row[1], "List": row[1], "Tail": row[-1]}.get(row[0], rule.name))


class Joined:
    """What rows name, one behind another, each only once."""

    def __init__(self, empty):
        self.all = empty

    def span(self, part):
        """Where a part stands, in code. It is added behind all others where it isn't there."""
        start = next((i for i in range(len(self.all) - len(part) + 1) if self.all[i:i + len(part)] == part), len(self.all))
        if start == len(self.all):
            self.all += part
        return f"Span({start}, {start + len(part)})"


def way(row, numbers, texts):
    """The row in code, where what it names is added to those of all."""
    kind, *rest = row
    if kind in ("Bytes", "Past"):
        return f"Way::{kind}({texts.span(rest[0])})"
    if kind in ("OneOf", "NotNext", "Run"):
        return f"Way::{kind}(Class::{rest[0]})"
    if kind in ("Seq", "First", "If"):
        span = numbers.span([NUMBER[it] for it in rest[0]])
        more = f", {rest[1]}, {NUMBER[rest[2]]}" if kind == "If" else ""
        return f"Way::{kind}({span}{more})"
    return f"Way::{kind}({', '.join(str(NUMBER[it]) for it in rest)})"


def head(about, *uses):
    return [f"//! {about} {HEAD}", "", *uses, ""]


def code_ways():
    numbers, texts = Joined([]), Joined("")
    ways = [way(it.row, numbers, texts) for it in RULES]
    out = head("The rows of all rules.", "use crate::way::{Span, Way};", "use weedle_grammar::{Class, RULES};")
    out += ["/// The rows of all rules, by number.", "pub(crate) static WAYS: [Way; RULES] = ["]
    out += [f"    {it}," for it in ways] + ["];"]
    put(TOP, f"{CRATE}/src/ways.rt", "\n".join(out) + "\n")
    out = head("The numbers of the rules that rows name.")
    out += ["/// The numbers of the rules that rows name, one row's behind another's.",
            f"pub(crate) static NUMBERS: [u16; {len(numbers.all)}] = [", *(f"    {it}," for it in numbers.all), "];"]
    put(TOP, f"{CRATE}/src/numbers.rt", "\n".join(out) + "\n")
    out = head("The bytes that rows name.")
    out += ["/// The bytes that rows name, one row's behind another's.",
            f"pub(crate) static BYTES: [u8; {len(texts.all)}] = [", *(f"    {it}," for it in texts.all.encode()), "];"]
    put(TOP, f"{CRATE}/src/bytes.rt", "\n".join(out) + "\n")


def code_words(module, about, words):
    out = head("Sets of ASCII bytes.", "use weedle_grammar::RULES;")
    out += [f"/// {about}", f"pub(crate) static {module.upper()}: [u128; RULES] = [", *(f"    {it:#x}," for it in words), "];"]
    put(TOP, f"{CRATE}/src/{module}.rt", "\n".join(out) + "\n")


def code_written():
    out = head("What follows from the grammar.")
    out += [f"pub(crate) mod {it};" for it in ("bytes", "first_sets", "gates", "numbers", "ways")]
    put(TOP, f"{CRATE}/src/written.rt", "\n".join(out) + "\n")


def proof_words():
    out = [f"-- With which ASCII bytes each rule begins where it takes one. {HEAD}",
           "use Rattle.std.proofs.Common.{ℕ, List, [], ◌∷◌}", "",
           "-- the bytes of each rule as the bits of a word, by the rules' numbers", "abbrev pub words : List ℕ", "words ="]
    words = [str(WORDS[it.name]) for it in RULES]
    for i in range(0, len(words), WORDS_A_LINE):
        out.append("    " + " ∷ ".join(words[i:i + WORDS_A_LINE]) + " ∷")
    out.append("    []")
    put(TOP, f"{CRATE}/proofs/Words.antt", "\n".join(out) + "\n")


def main():
    code_ways()
    first = [first_set(it.name) for it in RULES]
    code_words("first_sets", "The ASCII bytes that each rule can begin with, as the bits of a word.", first)
    code_words("gates", "The ASCII bytes at which each rule isn't passed over.", [gate(it) for it in RULES])
    code_written()
    proof_words()


if __name__ == "__main__":
    sys.exit(refuse_writer(__doc__))
