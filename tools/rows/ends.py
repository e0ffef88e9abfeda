"""Where the rules of the grammar end in a text, and which are tried and fail, as quick as Python goes.

A rule's end is worked out once at a place, and only where it is asked for, so what is known of a text is what was
tried in it, as docs/GRAMMAR.md has that. nodes.py says what a rule reads directly, table_reader.py what it gives,
dialects.py by which rules a whole text is read.
"""

from description import today, webidl as grammar
from description.classes import CLASSES

# What is known of a rule that fails.
FAILS = -1
# The rows without parts, which look at the text themselves.
METHODS = {"If": "if_"}
PLAIN = ("Bytes", "OneOf", "NotNext", "Run", "Past")
# The rules that differ from weedle2's on purpose, each with its row there, by what it reads there.
CHANGED = {
    "a name that begins with a digit": ("IDENTIFIER_TEXT", ("Seq", ("ONE_OF_ALNUM", "RUN_NAME"))),
    "a hexadecimal number with no digit": (
        "HEX_LIT_TEXT", ("Seq", ("OPT_BYTES_MINUS", "BYTES_ZERO", "ONE_OF_X_LETTER", "RUN_HEX"))),
    "a line comment with no LF": (
        "LINE_COMMENT", ("Seq", ("BYTES_SLASH_SLASH", "NOT_NEXT_SLASH", "RUN_NOT_LINE_FEED", "BYTES_LF"))),
}
ROWS = {rule.name: rule.row for rule in grammar.RULES} | {"ONE_OF_ALNUM": ("OneOf", "Alnum")}


class Ends:
    """The ends of rules in the text that was taken last: a function of a place for each rule, and what is known of it."""

    def __init__(self, rows):
        self.text, self.rows, self.at, self.known = b"", rows, {}, {}
        for rule, row in rows.items():
            self.known[rule] = {}
            self.at[rule] = self.kept(getattr(self, METHODS.get(row[0], row[0].lower()))(*row[1:]), self.known[rule])

    def take(self, text):
        """Forgets what is known, and takes this text, in bytes."""
        self.text = text
        for known in self.known.values():
            known.clear()

    def ends_at(self, rule="DEFINITIONS"):
        """Where the rule ends that is read from the front of the text on."""
        return self.at[rule](0)

    def end_of(self, text, rule="DEFINITIONS"):
        """Takes a text, and says where the rule ends."""
        self.take(text)
        return self.ends_at(rule)

    def is_whole(self, text, rule="DEFINITIONS"):
        """Takes a text, and says whether the rule reads all of it."""
        return self.end_of(text, rule) == len(text)

    @staticmethod
    def kept(work, known):
        def end(place):
            try:
                return known[place]
            except KeyError:
                known[place] = found = work(place)
                return found
        return end

    def unmet(self):
        """The furthest byte at which a rule without parts was tried and failed, and those that did, in the rules' order."""
        failed = [
            (place, rule) for rule, known in self.known.items() if rule in today.NUMBER and self.rows[rule][0] in PLAIN
            for place, end in known.items() if end == FAILS
        ]
        furthest = max(place for place, _ in failed)
        return furthest, sorted((rule for place, rule in failed if place == furthest), key=today.NUMBER.get)

    # What a row reads: a function from a place to an end.
    def bytes(self, wanted):
        wanted = wanted.encode()
        size = len(wanted)
        return lambda place: place + size if self.text.startswith(wanted, place) else FAILS

    def oneof(self, name):
        members = CLASSES[name]
        return lambda place: place + 1 if place < len(self.text) and self.text[place] in members else FAILS

    def notnext(self, name):
        one = self.oneof(name)
        return lambda place: place if one(place) == FAILS else FAILS

    def run(self, name):
        members = CLASSES[name]

        def end(place):
            text, length = self.text, len(self.text)
            while place < length and text[place] in members:
                place += 1
            return place
        return end

    def past(self, wanted):
        wanted = wanted.encode()

        def end(place):
            found = self.text.find(wanted, place)
            return FAILS if found < 0 else found + len(wanted)
        return end

    def seq(self, parts):
        at = self.at

        def end(place):
            for part in parts:
                place = at[part](place)
                if place == FAILS:
                    break
            return place
        return end

    def first(self, parts):
        at = self.at

        def end(place):
            for part in parts:
                found = at[part](place)
                if found != FAILS:
                    return found
            return FAILS
        return end

    def opt(self, part):
        at = self.at

        def end(place):
            found = at[part](place)
            return place if found == FAILS else found
        return end

    def many(self, part):
        at = self.at

        def end(place):
            while (found := at[part](place)) != FAILS:
                if found == place:
                    return FAILS
                place = found
            return place
        return end

    def tail(self, part, separator):
        at = self.at

        def end(place):
            while (behind := at[separator](place)) != FAILS:
                if behind == place:
                    return FAILS
                found = at[part](behind)
                if found == FAILS:
                    break
                place = found
            return place
        return end

    def list1(self, part, tail):
        return self.seq((part, tail))

    def list(self, part, tail):
        one = self.list1(part, tail)

        def end(place):
            found = one(place)
            return place if found == FAILS else found
        return end

    def if_(self, parts, number, last):
        """A row `If`: the last part is read where the part of this number gave something."""
        at = self.at
        given = self.rows[parts[number]]

        def end(place):
            places = [place]
            for part in parts:
                place = at[part](place)
                if place == FAILS:
                    return FAILS
                places.append(place)
            is_absent = given[0] == "Opt" and at[given[1]](places[number]) == FAILS
            return place if is_absent else at[last](place)
        return end


# The rows as they are: weedle2's, and these with today's behind them.
NOW = Ends(ROWS)
TODAY = Ends({rule.name: rule.row for rule in today.RULES})
