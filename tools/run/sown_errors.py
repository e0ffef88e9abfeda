"""Makes WebIDL texts out of a seed, laid out as people do, and sows syntax errors in them: 26 kinds.

A text is a list of definitions, each with its members; so it is known which of them an error is in.
"""

import random
import re
from dataclasses import dataclass

TYPES = (
    "long", "unsigned long long", "boolean", "DOMString", "sequence<Node>", "Promise<undefined>", "record<DOMString, any>",
    "(long or DOMString)", "Node?", "FrozenArray<DOMString>", "double", "any", "Window",
)
NAMES = (
    "value", "name", "length", "parent", "child", "target", "index", "width", "height", "state", "options", "handler", "items",
    "first", "second", "count", "label", "source", "origin", "mode",
)
TOKEN = re.compile(r'//[^\n]*|/\*.*?\*/|"[^"\n]*"|[A-Za-z_][\w-]*|\d[\w.]*|\s+|.', re.S)
KEYWORDS = frozenset(
    "interface attribute readonly typedef dictionary enum callback partial namespace mixin const required optional includes "
    "static constructor getter iterable maplike".split()
)
BRACKETS = {"{": "a missing {", "}": "a missing }", "(": "a missing (", ")": "a missing )", "<": "a missing <", ">": "a missing >",
            "[": "a missing [", "]": "a missing ]"}


class Maker:
    """Texts of one seed, in their order."""

    def __init__(self, seed):
        self.random, self.number = random.Random(seed), 0

    def text(self, least):
        """A text of so many bytes at least, as the lines of its definitions: each the definition's own, and its members'."""
        definitions, size = [], 0
        while size < least:
            definitions.append(self.definition())
            size += len(joined([definitions[-1]]))
        return definitions

    def definition(self):
        kinds = (self.interface,) * 5 + (self.dictionary,) * 3 + (self.mixin, self.namespace, self.partial, self.enum, self.alias)
        return self.random.choice(kinds + (self.callback, self.includes))()

    def name(self):
        self.number += 1
        return f"{self.random.choice('ABCDEFGHKMNPRSTUVW')}{self.random.choice(NAMES)}{self.number}"

    def member_name(self):
        self.number += 1
        return f"{self.random.choice(NAMES)}{self.number}"

    def type(self):
        return self.random.choice(TYPES)

    def arguments(self):
        words = []
        for _ in range(self.random.choice((0, 1, 1, 2, 3))):
            words.append(f"{'optional ' * (self.random.random() < 0.3)}{self.type()} {self.member_name()}")
        return ", ".join(words)

    def attributes(self):
        return self.random.choice(("", "", "", "[Exposed=Window]\n", "[Exposed=(Window,Worker), SecureContext]\n"))

    def comment(self):
        number = self.random.randrange(6)
        return "  // about this one\n" if number == 0 else "  /* a remark */\n" if number == 1 else ""

    def body(self, front, member, least=1):
        members = [self.comment() + member() for _ in range(self.random.randrange(least, 9))]
        return [self.attributes() + front + " {\n", *members, "};\n\n"]

    def interface(self):
        base = f" : {self.name()}" if self.random.random() < 0.4 else ""
        return self.body(f"interface {self.name()}{base}", self.interface_member)

    def partial(self):
        return self.body(f"partial interface {self.name()}", self.interface_member)

    def mixin(self):
        return self.body(f"interface mixin {self.name()}", self.attribute)

    def namespace(self):
        return self.body(f"namespace {self.name()}", self.operation)

    def dictionary(self):
        return self.body(f"dictionary {self.name()}", self.field)

    def interface_member(self):
        return self.random.choice((self.attribute, self.attribute, self.operation, self.operation, self.constant, self.maker))()

    def attribute(self):
        return f"  {'readonly ' * (self.random.random() < 0.6)}attribute {self.type()} {self.member_name()};\n"

    def operation(self):
        return f"  {self.type()} {self.member_name()}({self.arguments()});\n"

    def constant(self):
        return f"  const unsigned short {self.member_name().upper()} = {self.random.randrange(100)};\n"

    def maker(self):
        return f"  [Throws] constructor({self.arguments()});\n"

    def field(self):
        default = f" = {self.random.randrange(9)}" if self.random.random() < 0.3 else ""
        return f"  {'long' if default else self.type()} {self.member_name()}{default};\n"

    def enum(self):
        values = ", ".join(f'"{self.member_name()}"' for _ in range(self.random.randrange(1, 5)))
        return [f"enum {self.name()} {{ {values} }};\n\n"]

    def alias(self):
        return [f"typedef {self.type()} {self.name()};\n\n"]

    def callback(self):
        return [f"callback {self.name()} = {self.type()} ({self.arguments()});\n\n"]

    def includes(self):
        return [f"{self.name()} includes {self.name()};\n\n"]


# What today's WebIDL has more.
TODAY_TYPES = (
    "ObservableArray<Node>", "async_sequence<any>", "sequence<[Clamp] octet>", "bigint", "Float16Array", "(undefined or DOMString)",
    "FrozenArray<[EnforceRange] unsigned long>", "record<DOMString, [Clamp] octet>",
)


class TodayMaker(Maker):
    """Texts of today's WebIDL."""

    def type(self):
        return self.random.choice(TYPES + TODAY_TYPES)

    def attributes(self):
        lists = ("", "", "[Exposed=*]\n", "[Exposed=*, SecureContext]\n", "[Exposed=(Window,Worker)] [SecureContext]\n")
        return self.random.choice(lists)

    def namespace(self):
        return self.body(f"namespace {self.name()}", lambda: self.random.choice((self.operation, self.constant))())

    def interface_member(self):
        return self.random.choice((super().interface_member, super().interface_member, self.iteration))()

    def iteration(self):
        arguments = f"({self.arguments()})" if self.random.random() < 0.3 else ""
        return f"  async_iterable<{self.type()}>{arguments};\n"

    def field(self):
        required = "required [Clamp] octet" if self.random.random() < 0.2 else self.type()
        default = "" if required.startswith("required") or self.random.random() < 0.7 else " = undefined"
        return f"  {required} {self.member_name()}{default};\n"


def joined(definitions):
    return "".join(piece for definition in definitions for piece in definition)


@dataclass(frozen=True)
class Error:
    """A change of a text: at a place so many characters are taken, and others stand there."""

    kind: str
    place: int
    taken: int
    put: str


def tokens_of(text):
    """The words and signs of a text with their places."""
    found = ((match.start(), match.group()) for match in TOKEN.finditer(text))
    return [(place, word) for place, word in found if not word.isspace() and not word.startswith(("//", "/*"))]


def one_error(text, maker):
    """An error in a text; None where the kind that was drawn finds no place."""
    kind = maker.choice(tuple(SOWERS))
    return SOWERS[kind](kind, text, tokens_of(text), maker)


def of_token(test, change):
    """A kind of error at one of the tokens that pass a test."""
    def sow(kind, text, tokens, maker):
        at = [number for number in range(len(tokens)) if test(tokens, number)]
        if not at:
            return None
        place, word = tokens[maker.choice(at)]
        return Error(kind, place, *change(word, maker))
    return sow


def is_word(*words):
    return lambda tokens, number: tokens[number][1] in words


def behind(word):
    return lambda tokens, number: number > 0 and tokens[number][1] == ";" and (tokens[number - 1][1] == "}") == (word == "}")


def dropped(word, _):
    return len(word), ""


def is_keyword(tokens, number):
    return tokens[number][1] in KEYWORDS


def is_name(tokens, number):
    return number > 0 and tokens[number][1][-1:].isdigit() and tokens[number][1][0].isalpha()


def is_type(tokens, number):
    return tokens[number - 1][1] in ("attribute", "typedef", "<") and tokens[number][1].isalpha()


def letter_dropped(word, maker):
    at = maker.randrange(len(word))
    return len(word), word[:at] + word[at + 1:]


def letter_doubled(word, maker):
    at = maker.randrange(len(word))
    return len(word), word[:at] + word[at] + word[at:]


def letters_exchanged(word, maker):
    at = maker.randrange(len(word) - 1)
    return len(word), word[:at] + word[at + 1] + word[at] + word[at + 2:]


def put_before(*words):
    return lambda word, maker: (0, maker.choice(words) + " ")


def half_line(inside):
    """The front of a line typed anew: in a body, or between definitions."""
    def sow(kind, text, tokens, maker):
        lines = [line for line in text.split("\n") if line.startswith("  ") == inside and len(line.strip()) > 8 and "//" not in line]
        ends = [match.end() for match in re.finditer(r";\n(?=  )" if inside else r";\n(?=\n)", text)]
        if not lines or not ends:
            return None
        line = maker.choice(lines)
        front = line[:maker.randrange(len(line) - len(line.lstrip()) + 3, len(line))].rstrip()
        return Error(kind, maker.choice(ends), 0, front + "\n")
    return sow


SOWERS = {
    "a missing ; of a member": of_token(behind(";"), dropped),
    "a missing ; behind }": of_token(behind("}"), dropped),
    **{kind: of_token(is_word(sign), dropped) for sign, kind in BRACKETS.items()},
    "a missing =": of_token(is_word("="), dropped),
    "a missing ,": of_token(is_word(","), dropped),
    "a keyword without a letter": of_token(is_keyword, letter_dropped),
    "a keyword with a letter twice": of_token(is_keyword, letter_doubled),
    "a keyword with letters exchanged": of_token(is_keyword, letters_exchanged),
    "a missing keyword": of_token(is_keyword, dropped),
    "a missing name": of_token(is_name, dropped),
    "a missing type": of_token(is_type, dropped),
    "a second ,": of_token(is_word(","), put_before(",")),
    "a second ;": of_token(is_word(";"), put_before(";")),
    "a } too many": of_token(is_word(";"), put_before("}")),
    "a word too many": of_token(is_name, put_before("foo", "public", "virtual")),
    "a sign too many": of_token(is_name, put_before("#", "@", "$", "!")),
    "an open string": of_token(lambda tokens, number: tokens[number][1].startswith('"'), lambda word, _: (len(word), word[:-1])),
    "half a member": half_line(True),
    "half a definition": half_line(False),
}


def sown(text, errors):
    """The text with errors, and for each where it stands there: its first character and the one behind it."""
    out, at, places = "", 0, []
    for error in sorted(errors, key=lambda error: error.place):
        out += text[at:error.place]
        places.append((len(out), len(out) + max(1, len(error.put))))
        out += error.put
        at = error.place + error.taken
    return out + text[at:], places
