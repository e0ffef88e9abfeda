"""Code in lines, as `rt fmt` leaves them."""

import re

COLUMNS = 100
# A clause up to what it says.
CLAUSE = re.compile(r" *(?:requires|ensures|decreases|ghost) ?[^{]*\{ ")
OPENING, CLOSING = "([{⟦", ")]}⟧"
# The signs before which a clause is cut: from those that bind least.
SIGNS = {sign: -rank for rank, signs in enumerate(("→ ↔", "× ⊎", "≡ ≢ < ≤ ∷ ++ + - * =")) for sign in signs.split()}
# Behind what no line is cut: a sign, a label, and a variable that is bound, up to its point.
HELD = re.compile(rf"(?:^| )(?:{'|'.join(map(re.escape, SIGNS))})$|[.:]$|λ[^.]*$")
# More lines than these are filled, and not cut between brackets.
FEW = 3


def filled(words, indent, prefix="", columns=COLUMNS):
    """Words in lines that are as full as this many columns let them be."""
    lines = [indent + prefix + words[0]]
    for word in words[1:]:
        if len(lines[-1]) + 1 + len(word) > columns:
            lines.append(indent + prefix + word)
        else:
            lines[-1] += " " + word
    return "\n".join(lines) + "\n"


def use_line(path, names):
    """The line of Rust that brings in these names; `rt fmt` sorts them."""
    return f"use {path}::{{{', '.join(sorted(names))}}};\n"


def depth(text):
    return sum((sign in OPENING) - (sign in CLOSING) for sign in text)


def cuts(text, begin):
    """The spaces of a line of a clause at which it may be cut, from one place on."""
    for found in re.compile(r" (?!\}|$)").finditer(text, begin):
        if not HELD.search(text[:found.start()]):
            yield found.start()


def outside(text, place):
    """How well a line is cut at a place: outside of brackets best, then before what binds least, then late."""
    return -depth(text[:place]), SIGNS.get(text[place + 1:].split(" ", 1)[0], -len(SIGNS)), place


def late(text, place):
    """How well a line is cut at a place: before a bracket or a sign best, then late."""
    return text[place + 1] in OPENING or text[place + 1:].split(" ", 1)[0] in SIGNS, place


def cut_clause(line, key, columns):
    """The lines of a clause that is too long for one."""
    indent, rest = " " * (len(line) - len(line.lstrip()) + 4), line
    rows, begin = [], CLAUSE.match(line).end()
    while len(rest) > columns:
        places = [it for it in cuts(rest, begin) if it <= columns]
        if not places:
            break
        place = max(places, key=lambda it: key(rest, it))
        rows.append(rest[:place])
        rest, begin = indent + rest[place + 1:], len(indent) + 1
    return [*rows, rest]


def clauses_in_lines(text, columns=COLUMNS):
    """A text of Rust whose clauses stand in lines of so many columns at most."""
    rows = []
    for line in text.split("\n"):
        if len(line) <= columns or not CLAUSE.match(line) or '"' in line:
            rows.append(line)
            continue
        cut = cut_clause(line, outside, columns)
        rows += cut if len(cut) <= FEW else cut_clause(line, late, columns)
    return "\n".join(rows)
