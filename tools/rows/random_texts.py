"""Makes WebIDL texts out of a seed, by the rows of the grammar, and texts that are nearly such.

What is made mostly is read whole. It needn't be: a choice takes the first alternative that fits,
so a text that is made along one row may be read along another, or not at all.

The rows are weedle2's, or those of another dialect (dialects.py). Where they are weedle2's, today's rules change no text.
"""

import random
import re

from description import today, webidl as grammar
from rows.dialects import WEEDLE2

ROWS = {rule.name: rule.row for rule in today.RULES}
# How many choices of more than the least a definition may take.
FUEL = 60
# The chance of what may be absent, of one item more, and of a name that is no word of the grammar.
PRESENT, MORE, PLAIN = 0.35, 0.5, 0.9
NAMES = "A B Window Node EventTarget x y value index EventHandler undefinedness long-name under_score n9 void bigint".split()
TRIVIA = ("\n", "\t", "  ", "\r\n", "/* c */", "/**/", "// c\n", "//\n", " // é\n")
# Characters of classes of more than letters and digits.
WIDE = {"NotQuote": "ab 1.é日\n\\/{};", "NotLineFeed": "ab 1é/\"*;\r", "Any": "a1 {"}
# What near misses put in: what ends or begins a rule of the grammar, and what no rule has.
ODD = (
    "0x 0X 0xg 9a 9 -a _ __a _9 - -- -0 1. .5 . 1e5 1e+ -.e1 +Infinity -Infinity 08 // /// /* */ / \" '' é 日 \ufeff \u00a0 \0 \x0b "
    "\\ # @ * ?? ,, ;; { } [ ] ( ) < > = == : :: ... .. bigint ObservableArray async_iterable"
).split(" ")
TOKEN = re.compile(r'"[^"]*"|\w+|\s+|.', re.S)
NAME_CHARACTER = re.compile(r"[0-9A-Za-z_-]")


def least_depths():
    """How many rules stand in one another, at least, in what each rule reads."""
    depth = dict.fromkeys(ROWS, float("inf"))
    while (found := {rule: 1 + least_of(row, depth) for rule, row in ROWS.items()}) != depth:
        depth = found
    return depth


def least_of(row, depth):
    if row[0] in ("Seq", "If"):
        return max(depth[part] for part in row[1])
    if row[0] == "First":
        return min(depth[part] for part in row[1])
    return depth[row[1]] if row[0] == "List1" else 0


def reached(rule):
    """The rules that a rule may read, by way of others too."""
    found, wanted = set(), [rule]
    while wanted:
        for part in grammar.parts_of(ROWS[wanted.pop()]):
            if part not in found:
                found.add(part)
                wanted.append(part)
    return found


DEPTH = least_depths()
# The rules that may read themselves.
NESTED = {rule for rule in ROWS if rule in reached(rule)}


class Maker:
    """Texts of one seed, in their order."""

    def __init__(self, seed, comments=True, dialect=WEEDLE2):
        self.random, self.comments, self.fuel, self.dialect = random.Random(seed), comments, 0, dialect

    def text(self):
        """Up to four definitions."""
        pieces = []
        for _ in range(self.random.choice((1, 1, 1, 2, 3, 4))):
            self.fuel = self.random.randrange(FUEL)
            pieces += self.make(self.dialect.definition)
        return self.joined(pieces)

    def near(self, text):
        """The text with one token, or two, left out, put in, or in the other's place."""
        tokens = TOKEN.findall(text)
        for _ in range(self.random.choice((1, 1, 2))):
            place = self.random.randrange(len(tokens) + 1)
            how = self.random.randrange(6)
            if how == 0:
                tokens[place:place + 1] = []
            elif how == 1:
                tokens[place:place + 2] = reversed(tokens[place:place + 2])
            elif how == 2:
                tokens[place:place] = tokens[place:place + 1]
            elif how == 3:
                tokens[place:] = []
            else:
                tokens[place:place + how - 4] = [self.odd()]
        return "".join(tokens)

    def with_a_byte_changed(self, text):
        """The text with another ASCII character in the place of one."""
        places = [place for place, character in enumerate(text) if character.isascii()]
        if not places:
            return text
        place = self.random.choice(places)
        return text[:place] + chr(self.random.randrange(128)) + text[place + 1:]

    def odd(self):
        if self.random.random() < 0.5:
            return self.random.choice(ODD)
        return self.odd_word() + self.random.choice(("", " "))

    def joined(self, pieces):
        """The pieces, with a blank where two of them would be read as one word."""
        text = ""
        for piece in pieces:
            if text and piece and NAME_CHARACTER.match(text[-1]) and NAME_CHARACTER.match(piece):
                text += " "
            text += piece
        return text

    # The pieces that a rule may read.
    def make(self, rule):
        if rule == "TRIVIA":
            return [self.trivia()]
        if rule == "IDENTIFIER":
            return [self.trivia(), self.name(), self.trivia()]
        if rule.endswith(("_LIT", "_LINE")):
            return ["".join(self.parts(ROWS[rule]))]
        return self.parts(ROWS[rule])

    def parts(self, row):
        return getattr(self, "make_" + row[0].lower())(row)

    def trivia(self):
        chance = self.random.random()
        return "" if chance < 0.7 else " " if chance < 0.9 or not self.comments else self.random.choice(TRIVIA)

    def name(self):
        chance = self.random.random()
        if chance < PLAIN:
            return self.random.choice(NAMES)
        if chance < (1 + PLAIN) / 2:
            return "_" + self.odd_word()
        return "".join(self.make("IDENTIFIER_TEXT"))

    def odd_word(self):
        """A word of the grammar."""
        return self.random.choice([*grammar.KEYWORDS.values(), *grammar.CAPITALIZED])

    def more(self, chance):
        """Whether one choice more is taken of what may be left out."""
        if self.fuel <= 0 or self.random.random() > chance:
            return False
        self.fuel -= 1
        return True

    def character(self, name):
        letters = {"Blank": " \t\n", "Digit": "0123456789", "OneToNine": "123456789", "Octal": "01234567", "Hex": "09afAF",
                   "Letter": "abXZ", "Name": "ab9_-", "Slash": "/", "XLetter": "xX", "ELetter": "eE", "Sign": "+-"}
        return self.random.choice(letters.get(name) or WIDE[name])

    def make_bytes(self, row):
        return [row[1]]

    def make_oneof(self, row):
        return [self.character(row[1])]

    def make_notnext(self, row):
        return []

    def make_run(self, row):
        return ["".join(self.character(row[1]) for _ in range(self.random.choice((0, 1, 1, 2, 5))))]

    def make_past(self, row):
        return [self.random.choice(("", "c", " c c ", "é")) + row[1]]

    def make_seq(self, row):
        return [piece for part in row[1] for piece in self.make(part)]

    def make_first(self, row):
        choices = row[1]
        if self.fuel <= 0:
            least = min(DEPTH[part] for part in choices)
            choices = [part for part in choices if DEPTH[part] == least]
        if not NESTED.isdisjoint(choices):
            self.fuel -= 1
        return self.make(self.random.choice(choices))

    def make_opt(self, row):
        return self.make(row[1]) if self.more(PRESENT) else []

    def make_many(self, row):
        return [piece for _ in self.times(0) for piece in self.make(row[1])]

    def make_list(self, row):
        pieces = []
        for _ in self.times(row[0] == "List1"):
            if pieces:
                pieces += self.make(ROWS[row[2]][2])
            pieces += self.make(row[1])
        return pieces

    make_list1 = make_list

    def make_if(self, row):
        parts = [self.make(part) for part in row[1]]
        last = self.make(row[3]) if parts[row[2]] or self.random.random() < 0.05 else []
        return [piece for part in [*parts, last] for piece in part]

    def times(self, least):
        count = least
        while self.more(MORE):
            count += 1
        return range(count)
