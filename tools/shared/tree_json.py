"""Reads the `Debug` texts of definitions, and turns their values into what JSON has.

It takes the lines of `weedle_check --tree` and of the program of compare/ that hold a definition: behind its
place, as `3:1 Interface(..)`, or behind two blanks, as `  Interface(..)`. A struct becomes an object by its
fields, `None` null, what stands in `Some` itself, a variant that holds a value an object of one entry, and a
name alone a string:

    1:1 IncludesStatement(IncludesStatementDefinition { attributes: None, lhs_identifier: Identifier("A"),
        includes: Includes, rhs_identifier: Identifier("B"), semi_colon: SemiColon })

(on one line) gives

    {"IncludesStatement": {"attributes": null, "lhs_identifier": {"Identifier": "A"},
        "includes": "Includes", "rhs_identifier": {"Identifier": "B"}, "semi_colon": "SemiColon"}}

A struct's name isn't in the JSON, as in what serde writes: the variant that holds it says it. `python3 -m weedle
--json` writes the same of a text itself.

Deep nesting ends it, as it ends the readers: a text of some thousand types in one another.
"""

import json
import re
from dataclasses import dataclass

LINE = re.compile(r"(?:\d+:\d+ |  )(?=[A-Z]\w*\()")
WORD = re.compile(r"[A-Za-z_]\w*")
NUMBER = re.compile(r"-?\d+(\.\d+)?([eE][+-]?\d+)?")
STRING = re.compile(r'"(?:[^"\\]|\\.)*"')
ESCAPE = re.compile(r"\\(u\{[0-9a-fA-F]+\}|x[0-9a-fA-F]{2}|.)", re.S)
ESCAPES = {"n": "\n", "r": "\r", "t": "\t", "0": "\0"}
BLANKS = re.compile(r"\s*")


class NoTree(Exception):
    """Why a text is no `Debug` text, in one line."""


class Unit(str):
    """A name alone, as `OpenBrace`."""


@dataclass
class Held:
    """A name with what stands between its parentheses, as `Identifier("A")` or `Some(QMark)`; a tuple has no name."""

    name: object
    values: list


@dataclass
class Struct:
    """A name with fields, as `Inheritance { colon: Colon, identifier: Identifier("A") }`."""

    name: str
    fields: dict


class Reader:
    """A text, and the place up to which it is read."""

    def __init__(self, text):
        self.text, self.place = text, 0

    def match(self, pattern):
        found = pattern.match(self.text, self.place)
        if found:
            self.place = found.end()
        return found and found[0]

    def take(self, sign):
        """Whether the sign stands next; then it is read, and the blanks around it."""
        self.match(BLANKS)
        if not self.text.startswith(sign, self.place):
            return False
        self.place += len(sign)
        self.match(BLANKS)
        return True

    def want(self, sign):
        if not self.take(sign):
            raise NoTree(f"no `{sign}` at character {self.place}")

    def values(self, close):
        """Values with commas between, up to the closing sign."""
        values = []
        while not self.take(close):
            if values:
                self.want(",")
                if self.take(close):
                    break
            values.append(self.value())
        return values

    def fields(self):
        fields = {}
        while not self.take("}"):
            if fields:
                self.want(",")
            name = self.match(WORD)
            if name is None or name in fields:
                raise NoTree(f"no new field at character {self.place}")
            self.want(":")
            fields[name] = self.value()
        return fields

    def named(self, name):
        """The value that begins with this name, which is read."""
        if self.take("{"):
            return Struct(name, self.fields())
        if self.take("("):
            return Held(name, self.values(")"))
        return {"None": None, "true": True, "false": False}.get(name, Unit(name))

    def value(self):
        if self.take("["):
            return self.values("]")
        if self.take("("):
            return Held(None, self.values(")"))
        text = self.match(STRING)
        if text is not None:
            return unescaped(text[1:-1])
        name = self.match(WORD)
        if name is not None:
            return self.named(name)
        number = self.match(NUMBER)
        if number is not None:
            return json.loads(number)
        raise NoTree(f"no value at character {self.place}")


def unescaped(text):
    """What stands between the quotes of a `Debug` text, or of a string of Rust."""
    def one(found):
        escape = found[1]
        if escape.startswith("u{"):
            return chr(int(escape[2:-1], 16))
        if escape[0] == "x" and len(escape) == 3:
            return chr(int(escape[1:], 16))
        return ESCAPES.get(escape, escape)
    return ESCAPE.sub(one, re.sub(r"\\\n\s*", "", text))


def read(text):
    """The value that a `Debug` text shows, or NoTree."""
    reader = Reader(text)
    value = reader.value()
    if reader.place < len(text.rstrip()):
        raise NoTree(f"more than a value at character {reader.place}")
    return value


def debug(value):
    """The `Debug` text of a value, whose strings have no characters that are escaped but quotes, backslashes and LFs."""
    if isinstance(value, Struct):
        return f"{value.name} {{ {', '.join(f'{name}: {debug(field)}' for name, field in value.fields.items())} }}"
    if isinstance(value, Held):
        return f"{value.name or ''}({', '.join(map(debug, value.values))})"
    if isinstance(value, list):
        return f"[{', '.join(map(debug, value))}]"
    if isinstance(value, Unit) or value is None:
        return str(value)
    if isinstance(value, str):
        return '"' + value.replace("\\", "\\\\").replace('"', '\\"').replace("\n", "\\n") + '"'
    return json.dumps(value)


def plain(value):
    """A value of what json.dumps takes."""
    if isinstance(value, Struct):
        return {name: plain(field) for name, field in value.fields.items()}
    if isinstance(value, Held):
        values = [plain(it) for it in value.values]
        if value.name is None:
            return values
        if value.name == "Some":
            return values[0]
        return {value.name: values[0] if len(values) == 1 else values}
    if isinstance(value, list):
        return [plain(it) for it in value]
    return value


def definition_of(line):
    """The `Debug` text in a line, or None where the line holds no definition."""
    found = LINE.match(line)
    return line[found.end():] if found else None
