"""Reads a text by today's rows, and gives the values that the packages have of it, as JSON.

    python3 tools/rows/today_values.py < FILE

Names of types, fields and variants are those of tools/description/today_types.py, and of weedle2's rules those that
table_reader.py has. It prints each definition on a line, and each docstring that no definition follows. Nothing is taken from
the packages or from the port.
"""

import json
import sys
from pathlib import Path

if not __package__:
    sys.path[0] = str(Path(__file__).resolve().parent.parent)

from description.today import RULES
from description.today_types import ENUMS, FACTORED, LAST_DOC, STRUCTS, TERMINALS
from rows.dialects import TODAY
from rows.nodes import parts_of
from rows.table_reader import NOTHING, Table
from shared.command_line import parser_of
from shared.tree_json import Held, Struct, plain

# Rules that give what one of their parts gives, by the number of that part.
INNER = {"TODAY_PIECE": 0, "TODAY_DOC": 1}
BODY = ("open_brace", "body", "docstrings", "close_brace")
TUPLES = {"TODAY_RECORD_TYPES": "RecordTypes"}


class TodayTable(Table):
    """Today's rows, and what each gives."""

    MARKS = Table.MARKS | TERMINALS
    TYPES = (
        Table.TYPES | {rule: (it.name, [field.name for field in it.fields]) for rule, it in STRUCTS.items()}
        | {rule: (it.name, [name for name, _ in it.variants]) for rule, it in ENUMS.items()}
    )
    SHAPES = {rule.name: rule.shape for rule in RULES}

    def __init__(self):
        self.ends = TODAY.ends

    def read(self, text):
        """The byte up to which a text is read, and the values of its pieces."""
        end = TODAY.end_of(text.encode())
        pieces = [self.value(*part) for part in parts_of(self.ends, TODAY.start, 0)]
        return end, [it for it in pieces if it is not NOTHING]

    def value(self, rule, place):
        parts = parts_of(self.ends, rule, place)
        if rule in INNER:
            return self.value(*parts[INNER[rule]])
        if rule in FACTORED:
            return self.factored(rule, parts)
        if rule == LAST_DOC[0]:
            part, start = parts[2]
            return Held(LAST_DOC[1], [self.text(start, self.ends.at[part](start))])
        return NOTHING if rule == "TODAY_TRIVIA" else super().value(rule, place)

    def factored(self, rule, parts):
        """The variant of a factored row, whose struct has what is in front of the choice too."""
        enum, front = FACTORED[rule]
        fields = {it.name: self.value(*part) for it, part in zip(front, parts)}
        ((chosen, place),) = parts_of(self.ends, *parts[-1])
        struct = STRUCTS[chosen]
        below = [self.value(*part) for part in parts_of(self.ends, chosen, place)]
        fields |= dict(zip((it.name for it in struct.fields), below, strict=True))
        name = next(name for name, part in enum.variants if part == chosen)
        return Held(name, [Struct(struct.name, fields)])

    def named(self, rule, parts):
        if rule.startswith("BRACED_TODAY_") and rule not in STRUCTS:
            return "Braced", BODY
        return (TUPLES[rule], ()) if rule in TUPLES else super().named(rule, parts)


def main():
    parser_of(__doc__).parse_args()
    end, values = TodayTable().read(sys.stdin.read())
    for it in values:
        print(json.dumps(plain(it), ensure_ascii=False))
    return 0 if end == len(TODAY.ends.text) else 1


if __name__ == "__main__":
    sys.exit(main())
