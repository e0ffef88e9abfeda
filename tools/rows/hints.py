"""Says what would mend a refused definition, or what it lacks, by the rows of the grammar alone.

It is what docs/USING.md says under "What is said of a refused text", read by ends.py; nothing is taken from
the port. A hint is a place in bytes and a line of words. Here what changes may take together has no limit but that of nesting,
by brackets: of long extended attributes more may be told here. A changed text is read again by the rules of a dialect; the
keywords, and what begins a definition, are weedle2's in both.
"""

import re
from itertools import islice

from rows.dialects import WEEDLE2
from rows.ends import NOW, ROWS
from rows.words import position, words
from write import grammar

# How many changes are tried at most, how many of them are keywords, and how many are two words exchanged.
MOST_TRIES, MOST_KEYWORDS, MOST_EXCHANGED = 16, 3, 4
# How many bytes a word has at most that is tried in another order.
MOST_BYTES = 40
# Among how many tokens before the place words are looked for.
NEAR = 32
# How far behind the place the end of a definition is looked for.
LONGEST = 65_536
# The signs that may be missing, in the order in which they are tried.
SIGNS = (b";", b"=", b"{", b",", b")", b">", b"]", b"(", b":", b"};", b"}")
# What is left out wherever the reading stops at it; other signs only where they stand twice.
SPARE = (b";", b",")
# How many brackets may be open at once in what is read again, a `[` counted as two.
LEVELS = 50

MISPLACED = "no docstring here"
BYTE_ORDER_MARK = "\ufeff".encode()
NAME = re.compile(rb"[A-Za-z0-9_-]+")
LINE = re.compile(rb"///[^\n]*")
STRING = re.compile(rb'"[^"]*("?)')
COMMENT = re.compile(rb"/\*.*", re.S)
CHARACTER = re.compile(rb"[^\x80-\xbf][\x80-\xbf]*", re.S)
ASIDE = re.compile(rb'"[^"]*(?:"|\Z)|//[^\n]*|/\*(?:.*?\*/|.*\Z)', re.S)
# The keywords, in the order of their rules.
KEYWORDS = [
    ROWS[rule][1].encode() for rule in sorted((it for it in ROWS if it in grammar.NUMBER), key=grammar.NUMBER.get)
    if ROWS[rule][0] == "Bytes" and re.search("[A-Za-z]", ROWS[rule][1])
]
JOINS = {b"includes", b"implements"}
OPENS_DEFINITION = {b"callback", b"dictionary", b"enum", b"interface", b"namespace", b"partial", b"typedef"}


def differ_by_one(word, other):
    """Whether a letter is missing, added or changed, or two neighbours are exchanged."""
    if len(word) == len(other):
        places = [place for place in range(len(word)) if word[place] != other[place]]
        first, last = (places[0], places[-1]) if places else (0, 0)
        return len(places) == 1 or len(places) == 2 and last == first + 1 and word[first:last + 1] == other[first:last + 1][::-1]
    short, long = sorted((word, other), key=len)
    return len(long) == len(short) + 1 and any(long[:place] + long[place + 1:] == short for place in range(len(long)))


def tokens_of(text, start, end):
    """The tokens of some bytes that begin from one place up to another, each its kind, its start and its end."""
    NOW.take(text)
    found = []
    while (start := NOW.at["TRIVIA"](start)) <= end and start < len(text):
        kind, match = kind_at(text, start)
        if kind == "docstring" and found and found[-1][0] == kind:
            found[-1] = (kind, found[-1][1], match.end())
        else:
            found.append((kind, start, match.end()))
        start = match.end()
    return found


def kind_at(text, place):
    for kind, pattern in (("docstring", LINE), ("comment", COMMENT), ("string", STRING), ("word", NAME)):
        if match := pattern.match(text, place):
            return "open" if kind == "string" and not match[1] else kind, match
    return "sign", CHARACTER.match(text, place)


def nests_deep(text):
    """Whether more brackets are open at once than are read again, past strings and comments."""
    attributes = brackets = most = 0
    for byte in ASIDE.sub(b" ", text):
        attributes = max(0, attributes + (byte == ord("[")) - (byte == ord("]")))
        brackets = max(0, brackets + (byte in b"(<") - (byte in b")>"))
        most = max(most, 2 * attributes + brackets)
    return most > LEVELS


def fact(text, start, place, tokens):
    """What can be said without a change, or None."""
    if not tokens:
        return (0, "no definitions") if start == 0 and place == len(text) else None
    for kind, first, end in tokens:
        if kind == "string" and end <= place and b"\n" in text[first:end]:
            return first, "the string that opens here spans lines"
    kind, first, end = tokens[-1]
    if kind == "open" and place == len(text):
        return first, "the string opens here"
    if first == place and text[first:end] == BYTE_ORDER_MARK:
        return place, "a byte order mark"
    return None


def changes(text, place, tokens, unmet):
    """The changes that are tried, in their order: where, how many bytes are taken, what is put there, what is said."""
    yield from islice(keywords(text, tokens[-NEAR:]), MOST_KEYWORDS)
    yield from spare(text, place, tokens, unmet)
    yield from islice(exchanged(text, tokens[-NEAR:]), MOST_EXCHANGED)
    for kind, first, end in reversed(tokens):
        if kind == "docstring":
            yield first, end - first, b"", MISPLACED
            break
    for end, signs in gaps(text, place, tokens, unmet):
        for sign in signs:
            yield end, 0, sign, f"`{sign.decode()}` missing here?"


def keywords(text, tokens):
    """The changes of a word to a keyword, those of the last word first."""
    for kind, first, end in reversed(tokens):
        word = text[first:end]
        if kind == "word" and word not in KEYWORDS:
            for keyword in KEYWORDS:
                if differ_by_one(word, keyword):
                    yield first, end - first, keyword, f"`{keyword.decode()}` in place of `{word.decode()}`?"


def spare(text, place, tokens, unmet):
    """The changes of a sign at the place: without it, and `,` for `;` or `;` for `,`; and without a `,` before the place."""
    if tokens and tokens[-1][1] == place and tokens[-1][0] == "sign":
        sign = text[place:tokens[-1][2]]
        before = text[tokens[-2][1]:tokens[-2][2]] if tokens[1:] else b""
        if sign in SPARE or sign == before and sign in SIGNS:
            yield place, len(sign), b"", f"no `{sign.decode()}` here"
        for one, other in (SPARE, SPARE[::-1]):
            if sign == one and other in unmet:
                yield place, 1, other, f"`{other.decode()}` in place of `{one.decode()}`?"
    read = [it for it in tokens if it[2] <= place]
    if read and text[read[-1][1]:read[-1][2]] == b",":
        yield read[-1][1], 1, b"", "no `,` here"


def exchanged(text, tokens):
    """The exchanges of two words of which one is a keyword at least, the last first."""
    for (kind, first, end), (other, start, until) in reversed(list(zip(tokens, tokens[1:]))):
        one, two = text[first:end], text[start:until]
        is_short = max(len(one), len(two)) <= MOST_BYTES
        if kind == other == "word" and one != two and is_short and (one in KEYWORDS or two in KEYWORDS):
            yield first, until - first, two + text[end:start] + one, f"`{two.decode()}` in front of `{one.decode()}`?"


def gaps(text, place, tokens, unmet):
    """Where a sign may be missing, and which."""
    read = [it for it in tokens if it[2] <= place]
    if not read or text[read[-1][1]:read[-1][2]] == b"or":
        return
    behind = text[tokens[-1][1]:tokens[-1][2]] if len(tokens) > len(read) else b""
    yield read[-1][2], [sign for sign in SIGNS if sign[:1] in unmet and (sign[:1] != b"}" or fits_closing(sign, behind))]
    end = end_before_definition(text, read)
    if end not in (None, read[-1][2]):
        yield end, (b"};",)


def end_before_definition(text, tokens):
    """Where the last `;`, `{` or `}` ends, where a word behind it begins a definition, or None."""
    begins = False
    for _, first, end in reversed(tokens):
        token = text[first:end]
        if token in (b";", b"{", b"}"):
            return end if begins else None
        begins = begins or token in OPENS_DEFINITION or token in JOINS
    return None


def fits_closing(sign, behind):
    """Whether a definition's end may be missing in front of a token, or at the end of the text."""
    if sign == b"}":
        return behind == b";"
    return not behind or behind == b"[" or behind.startswith(b"///") or behind in OPENS_DEFINITION


def mends(text, start, place, tokens, change, dialect=WEEDLE2):
    """Whether the definition is read to its end with a change, past what is changed and up to the place at least; and
    what stands behind it may begin another.
    """
    at, taken, put, said = change
    end = end_of_definition(text, at + taken, max(place, at + taken), *braces(text, tokens, at, taken, put))
    if not may_begin(text, end):
        return False
    changed = text[start:at] + put + text[at + taken:end]
    if nests_deep(changed):
        return False
    return dialect.is_whole(changed)


def braces(text, tokens, at, taken, put):
    """How many `{` are open behind what is changed, and whether a definition ends there."""
    depth = 0
    for _, first, end in tokens:
        if end <= at:
            depth = depth_behind(text[first:end], depth)
    for place in range(len(put)):
        depth = depth_behind(put[place:place + 1], depth)
    return depth, depth == 0 and put.endswith(b";")


def depth_behind(token, depth):
    """How many `{` are open behind a token."""
    if token == b"{":
        return depth + 1
    return max(depth - 1, 0) if token == b"}" else depth


def end_of_definition(text, place, past, depth, is_end):
    """Where the definition ends: behind the first `;` that stands in no braces and has no token between it and `past`, or at the
    end of the text.
    """
    NOW.take(text)
    while (begin := NOW.at["TRIVIA"](place)) < len(text):
        if begin >= past + LONGEST or is_end and begin >= past:
            break
        kind, match = kind_at(text, begin)
        place = match.end()
        depth = depth_behind(match[0], depth)
        is_end = depth == 0 and match[0] == b";"
    return max(place, past)


def may_begin(text, place):
    """Whether a definition may begin behind a place, past blanks and comments, or the text ends there."""
    NOW.take(text)
    place = NOW.at["TRIVIA"](place)
    return place == len(text) or bool(re.match(rb"[A-Za-z_\[]|///", text[place:place + 3]))


def comes_beyond(text, start, place, tokens, change, dialect=WEEDLE2):
    """Whether the definition is read further with a change by more than the member that is changed: beyond the second
    `;` behind the place.
    """
    at, taken, put, said = change
    if said == MISPLACED:
        place = past_token(text, place)
    beyond = past_semicolon(text, past_semicolon(text, max(place, at + taken)))
    end = past_semicolon(text, beyond)
    if end == beyond:
        return False
    changed = text[start:at] + put + text[at + taken:end]
    if nests_deep(changed):
        return False
    dialect.end_of(changed)
    return len(changed) - dialect.ends.unmet()[0] < end - beyond


def past_semicolon(text, place):
    """Where the first `;` from a place on ends that stands in no string and no comment, or the text."""
    NOW.take(text)
    while (place := NOW.at["TRIVIA"](place)) < len(text):
        kind, match = kind_at(text, place)
        place = match.end()
        if match[0] == b";":
            break
    return place


def past_token(text, place):
    """Where the token behind the first one from a place on begins, or the text ends."""
    NOW.take(text)
    first = NOW.at["TRIVIA"](place)
    return NOW.at["TRIVIA"](kind_at(text, first)[1].end()) if first < len(text) else first


def unmet_texts(text, start, dialect=WEEDLE2):
    """The texts of which it is said that one would go on at the furthest place."""
    dialect.end_of(text[start:])
    return {word.strip("`").encode() for word in words(dialect.ends.unmet()[1], dialect) if word.startswith("`")}


def found(text, start, place, dialect=WEEDLE2):
    """Of bytes whose definition at `start` is read up to `place`: where, how many bytes are taken, what is put there and what is
    said; the second and third are None where no change is told. None where nothing is found.
    """
    tokens = tokens_of(text, start, place)
    if said := fact(text, start, place, tokens):
        return said[0], None, None, said[1]
    tried = list(islice(changes(text, place, tokens, unmet_texts(text, start, dialect)), MOST_TRIES))
    for does_help in (mends, comes_beyond):
        for change in tried:
            if does_help(text, start, place, tokens, change, dialect):
                return change
    return None


def line(text, start, place, dialect=WEEDLE2):
    """The line that is written of a hint, or None."""
    hint = found(text.encode(), start, place, dialect)
    return hint and "{}:{}: {}\n".format(*position(text, hint[0]), hint[3])
