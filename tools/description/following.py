"""Which keywords may be read behind which word, from the rows.

A name stands for itself where no rule reads a keyword of its letters. What is read at a place is
told by the word before it: the keywords that stand behind that word somewhere in the grammar. So
`long` needs an underscore behind `long`, since `long long` is a type, and none behind `interface`.
At the front, and behind a docstring, any keyword is taken to be read.
"""

# What the layout keeps as the word before, where that is a name.
NAME_BEFORE = "a"


def texts_of(rules):
    """The tokens, by their rules: the text of a terminal, and of a leaf None."""
    bytes_of = {it.name: it.row[1] for it in rules if it.row[0] == "Bytes"}
    found = {}
    for it in rules:
        if it.shape == "Marked":
            found[it.name] = next((bytes_of[part] for part in it.row[1] if part in bytes_of), None)
        elif it.shape.startswith("Kept") or it.shape == "Joined":
            found[it.name] = None
    return found


# The sequences of parts that a row of a kind reads; of a repetition as many as show what stands behind what.
WAYS = {
    "Seq": lambda parts: [[*parts]], "First": lambda parts: [[it] for it in parts], "Opt": lambda part: [[], [part]],
    "Many": lambda part: [[], [part, part]], "List": lambda part, tail: [[], [part, tail]],
    "List1": lambda part, tail: [[part, tail]], "Tail": lambda part, separator: [[], 2 * [separator, part]],
    "If": lambda parts, number, last: [[*parts], [*parts, last]],
}


def ways(row):
    """The sequences of parts that a row reads."""
    return WAYS[row[0]](*row[1:]) if row[0] in WAYS else []


class Neighbours:
    """Which tokens begin and end what a rule reads, and which stand behind which."""

    def __init__(self, rules):
        self.texts = texts_of(rules)
        self.ways = {it.name: ways(it.row) for it in rules if it.name not in self.texts and ways(it.row)}
        self.empty = set()
        self.first = {name: {name} for name in self.texts}
        self.last = {name: {name} for name in self.texts}
        self.behind = {name: set() for name in self.texts}
        while self.learn():
            pass

    def size(self):
        """How much is known."""
        return len(self.empty) + sum(len(it) for known in (self.first, self.last, self.behind) for it in known.values())

    def learn(self):
        """Takes what each rule's ways say; whether that was more than was known."""
        size = self.size()
        for name, found in self.ways.items():
            for parts in found:
                self.take(name, parts)
        return self.size() > size

    def take(self, name, parts):
        """Takes what a sequence of parts says of its rule and of its neighbours."""
        first = self.first.setdefault(name, set())
        ended = set()
        is_front = True
        for part in parts:
            begins = self.first.get(part, set())
            for token in ended:
                self.behind[token] |= begins
            if is_front:
                first |= begins
            ends = self.last.get(part, set())
            ended = ended | ends if part in self.empty else set(ends)
            is_front = is_front and part in self.empty
        if is_front:
            self.empty.add(name)
        self.last.setdefault(name, set()).update(ended)


def read_behind(rules):
    """By the word before a name, the keywords that may be read there; only where there are some."""
    known = Neighbours(rules)
    found = {}
    for token, behind in known.behind.items():
        text = NAME_BEFORE if token == "IDENTIFIER" else known.texts[token]
        read = sorted({known.texts[it] for it in behind if known.texts[it] and known.texts[it][0].isalpha()})
        if text and "IDENTIFIER" in behind and read:
            found[text] = read
    return found
