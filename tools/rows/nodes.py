"""The syntax tree of a text by the rows of the grammar, as weedle_check --syntax prints it.

It learns from the rows and never from the port: each node is a rule that was read, and below it stands what its
row reads directly, in order. ends.py says where rules end.
"""

import json
import re
from threading import Lock

from rows.dialects import WEEDLE2
from rows.ends import FAILS, PLAIN
from shared.tree_json import unescaped

LINE = re.compile(r'((?:  )*)(\w+) (\d+)\.\.(\d+)(?: "(.*)")?')
# What is known of ends is of one text at a time.
ONE_TEXT = Lock()


def parts_of(ends, rule, place):
    """The rules that a rule which is read at a place reads directly, each with its place."""
    kind, *rest = ends.rows[rule]
    if kind in PLAIN:
        return []
    return list(KINDS[kind](ends, place, *rest))


def in_turn(ends, place, parts):
    for part in parts:
        yield part, place
        place = ends.at[part](place)


def first(ends, place, parts):
    yield next((part, place) for part in parts if ends.at[part](place) != FAILS)


def optional(ends, place, part):
    if ends.at[part](place) != FAILS:
        yield part, place


def many(ends, place, part):
    while (end := ends.at[part](place)) != FAILS:
        yield part, place
        place = end


def listed(ends, place, part, tail):
    if ends.at[part](place) != FAILS:
        yield from in_turn(ends, place, (part, tail))


def tail_of(ends, place, part, separator):
    while (behind := ends.at[separator](place)) != FAILS and (end := ends.at[part](behind)) != FAILS:
        yield separator, place
        yield part, behind
        place = end


def conditional(ends, place, parts, number, last):
    read = list(in_turn(ends, place, parts))
    yield from read
    kind, *given = ends.rows[parts[number]]
    if kind != "Opt" or ends.at[given[0]](read[number][1]) != FAILS:
        part, start = read[-1]
        yield last, ends.at[part](start)


KINDS = {
    "Seq": in_turn, "First": first, "Opt": optional, "Many": many, "List": listed,
    "List1": lambda ends, place, part, tail: in_turn(ends, place, (part, tail)), "Tail": tail_of, "If": conditional,
}


def nodes_of(text, dialect=WEEDLE2):
    """The nodes of a text that is read whole, in preorder: depth, name, start, end, and of a leaf its bytes, else None."""
    with ONE_TEXT:
        dialect.ends.take(text)
        return nodes_by(dialect.ends, text, dialect.start)


def nodes_by(ends, text, start):
    waiting, nodes = [(start, 0, 0)], []
    while waiting:
        rule, place, depth = waiting.pop()
        below = parts_of(ends, rule, place)
        end = ends.at[rule](place)
        nodes.append((depth, rule.lower(), place, end, None if below else text[place:end]))
        waiting += [(part, start, depth + 1) for part, start in reversed(below)]
    return nodes


def shown(node):
    """A node as weedle_check --syntax prints it, but that all beside ASCII stands as it is."""
    depth, name, start, end, leaf = node
    return f"{'  ' * depth}{name} {start}..{end}" + (f" {json.dumps(leaf.decode(), ensure_ascii=False)}" if leaf is not None else "")


def printed(lines):
    """The nodes that lines of weedle_check --syntax say; a line that says none stands as it is."""
    return [node_in(line) for line in lines]


def node_in(line):
    found = LINE.fullmatch(line)
    if not found:
        return line
    leaf = None if found[5] is None else unescaped(found[5]).encode()
    return len(found[1]) // 2, found[2], int(found[3]), int(found[4]), leaf
