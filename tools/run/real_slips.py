"""Makes slips in real files by simple rules, and says how many hints mend them and how many are pointed at.

    python3 tools/run real_slips FOLDER [PROGRAM] [--each N] [--shown N]

FOLDER has the real files; docs/COMPARED.md says where one gets them. Of each kind N slips are made (60 if not said
otherwise), each in another file, at a place that a generator with a fixed seed chooses, in files that are read whole and
only where the file is refused then. What is said of them is by the rows of the grammar (rows/hints.py, rows/words.py);
with PROGRAM, a built weedle_check, that must say the same.

A hint that tells a change mends where the file with that change is read whole. A slip is pointed at where the furthest
place or the hint stands in its line or the one before or behind. Of 100 changes 95 have to mend, and of 100 slips 97 have to
be pointed at. The first N of those that don't mend or aren't pointed at are shown. It takes some two minutes.
"""

import random

from measure.compare_with_weedle2 import files_of
from rows.ends import NOW
from rows.hints import KEYWORDS, kind_at
from run.programs import meant
from run.slips import Counts, said_otherwise
from write.make_cases import wanted_of
from write.slips import MARK, Told, changed

SEED, EACH = 7, 60
LETTERS = "abcdefghijklmnopqrstuvwxyz"


class Slip:
    """A file with a slip: its kind, the file, its bytes, and the byte at which the slip is."""

    def __init__(self, kind, file, data, place):
        self.kind, self.file, self.data, self.place = kind, file, data, place
        self.text = data.decode()

    @property
    def line(self):
        """What stands around the slip."""
        near = self.data[max(0, self.place - 50):self.place] + MARK.encode() + self.data[self.place:self.place + 50]
        return f"{self.kind}, {self.file}: {near.decode(errors='replace')!r}"

    def wanted(self):
        """What is to be said of it, by the rows."""
        return wanted_of(self.text)


def tokens_of(text):
    """The words and signs of a file that is read whole, each its kind, its start and its end."""
    NOW.take(text)
    place, found = 0, []
    while (place := NOW.at["TRIVIA"](place)) < len(text):
        kind, match = kind_at(text, place)
        found.append((kind, place, match.end()))
        place = match.end()
    return found


# Each kind is a function of a text, its tokens and chance, which gives all slips of the kind: where it is, how many
# bytes are taken out there, and what is put there.
def at_signs(sign, put):
    """Something else in the place of a sign."""
    sign = sign.encode()
    return lambda text, tokens, chance: [
        (start, end - start, put.encode()) for _, start, end in tokens if text[start:end] == sign
    ]


def keywords_of(text, tokens):
    return [(start, text[start:end].decode()) for _, start, end in tokens if text[start:end] in KEYWORDS and end - start > 2]


def at_keywords(change):
    """Keywords changed by a function of the keyword, a place in it and chance."""
    def slips(text, tokens, chance):
        words = keywords_of(text, tokens)
        found = [(start, word, change(word, chance.randrange(len(word) - 1), chance).encode()) for start, word in words]
        return [(start, len(word), other) for start, word, other in found if other != word.encode() and other not in KEYWORDS]
    return slips


def at_pairs(test, slip):
    """A slip, by the start of a token, its end, and those of the next one, where both tokens with their kinds pass a test."""
    return lambda text, tokens, chance: [
        slip(text, start, end, behind, until)
        for (kind, start, end), (other, behind, until) in zip(tokens, tokens[1:])
        if test(kind, text[start:end], text[end:behind], other, text[behind:until])
    ]


def may_be_exchanged(kind, one, _, other, two):
    """Whether two words stand there, one of them a keyword at least."""
    return kind == other == "word" and one != two and (one in KEYWORDS or two in KEYWORDS)


KINDS = {
    "a letter of a keyword missing": at_keywords(lambda word, at, chance: word[:at] + word[at + 1:]),
    "a letter of a keyword changed": at_keywords(
        lambda word, at, chance: word[:at] + chance.choice(LETTERS) + word[at + 1:]),
    "a letter in a keyword added": at_keywords(
        lambda word, at, chance: word[:at] + chance.choice(LETTERS) + word[at:]),
    "two letters of a keyword exchanged": at_keywords(
        lambda word, at, chance: word[:at] + word[at + 1] + word[at] + word[at + 2:]),
    "a keyword missing": lambda text, tokens, chance: [
        (start, len(word), b"") for start, word in keywords_of(text, tokens)
    ],
    "two words exchanged": at_pairs(may_be_exchanged, lambda text, start, end, behind, until: (
        start, until - start, text[behind:until] + text[end:behind] + text[start:end])),
    "a string's end missing": lambda text, tokens, chance: [(end - 1, 1, b"") for kind, _, end in tokens if kind == "string"],
    "a docstring before a member": at_pairs(
        lambda kind, one, between, other, two: one in (b";", b"{") and b"\n" in between,
        lambda text, start, end, behind, until: (behind, 0, b"/// text\n  ")),
    "`};` missing": at_pairs(
        lambda kind, one, between, other, two: (one, two) == (b"}", b";"),
        lambda text, start, end, behind, until: (start, until - start, b"")),
    **{f"`{sign}` missing": at_signs(sign, "") for sign in ";,{}()<>=[]"},
    **{f"`{sign}` twice": at_signs(sign, 2 * sign) for sign in ";,{})"},
    **{f"`{put}` for `{sign}`": at_signs(sign, put) for sign, put in (",;", ";,", "})")},
}


def real_texts(folder):
    """The names, the bytes and the tokens of the files that are read whole."""
    texts = [(file.name, file.read_bytes()) for file in files_of(folder)]
    return [(name, text, tokens_of(text)) for name, text in texts if NOW.is_whole(text)]


def slips_of(texts, kind, each):
    """So many slips of a kind."""
    chance = random.Random(f"{SEED} {kind}")
    count = 0
    for name, text, tokens in chance.sample(texts, len(texts)):
        if count == each:
            break
        found = KINDS[kind](text, tokens, chance)
        if found:
            slip = chance.choice(found)
            other = changed(text, *slip)
            if not NOW.is_whole(other):
                count += 1
                yield Slip(kind, name, other, slip[0])


def add_arguments(parser):
    parser.add_argument("folder", metavar="FOLDER")
    parser.add_argument("program", metavar="PROGRAM", nargs="?", help="a built weedle_check")
    parser.add_argument("--each", type=int, default=EACH, help="how many slips of each kind")
    parser.add_argument("--shown", type=int, default=0, help="how many of a kind are printed")


def run(wanted, report):
    program, texts, total = wanted.program and meant(wanted.program), real_texts(wanted.folder), Counts()
    for kind in KINDS:
        slips, counts, shown = list(slips_of(texts, kind, wanted.each)), Counts(), wanted.shown
        for slip in slips:
            told = Told(slip.data, slip.place)
            total.add(told)
            if counts.add(told) and shown:
                shown -= 1
                print(f"  {slip.line}: {told.hint and told.hint[3]}, {'' if told.is_near else 'not '}pointed at")
        report.add(kind, len(slips), said_otherwise(program, slips) if program else (), f": {counts}")
    report.add("how many mend and are pointed at", 1, [total.wrong()], f": {total}")
