"""Lays out texts with a built weedle_format, and looks whether they say the same as before.

    python3 tools/run layouts [PROGRAM] [--real FOLDER] [--weedle2 PROGRAM] [--seed N] [--most N]
    python3 tools/run layouts [PROGRAM] --today [--seed N] [--most N]

The texts are those of tests/, N of a folder at most, and each random one of them once more with comments and blanks sown
between any two of its words; and with --real each file of a FOLDER, and each with comments sown. Of each text that is read
whole

- its layout has the same words, numbers, strings, signs and comments in the same order: a scanner of this file says so,
  which knows of no rule of the grammar;
- its layout is laid out to itself, and has no blanks at the end of a line that no comment and no string holds;
- with --weedle2, the program of compare/, weedle2 reads the same values of both; it isn't asked of the folder `deep`.

Then come the runs of tests/format.toml, over files, and others by hand (tools/run/layout_runs.py).

With --today the program reads by the rules of today's WebIDL. The texts are those of tests/today.toml, random ones by today's
rows, and near misses of these; each of the first two once more with a comment at each boundary between two words, and of the
random ones with comments and blanks sown. Texts of the folders of tests/ are read by today's rules too, TODAY_MOST of each at
most. The runs by hand are those of tests/today.toml that say how a text is formatted.
"""

import functools
import random
import re

from measure.compare_with_weedle2 import Weedle2
from rows.random_texts import Maker
from run import texts
from run.layout_runs import all_runs, runs_of_today
from run.programs import add_dialect, add_program, dialect_of, meant_in
from run.worked_runs import failures_of
from shared.crates import Unfit

# Which texts are sown.
SOWN = ("random", "real files")
# What is sown, and how often between two words.
SEEDS = ("/* c */", "/**/", "// c\n", "//\n", " // é\r\n", "\n/* a\n   b */\n", "\n\n", "\r\n", "\t", " /* é */ ", "\n// x\n\n", "\n")
CHANCE = 0.2
# A comment at each boundary: what is sown by turns, so that each of them stands in front of each kind of word.
COMMENTS = ("/* c */", "// c\n", "\n/* a\n   b */\n")
# How many random texts there are by today's rows, and how many texts of a folder are read by them, at most.
TODAY_RANDOM, TODAY_MOST = 600, 300
# A comment or a docstring's line, a string, a number, a word, a sign.
PIECE = re.compile(
    r"""//[^\n]*|/\*.*?\*/|"[^"]*"|\.\.\.|-?[0-9.][0-9A-Za-z.]*(?:(?<=[eE])[+-][0-9]+)?|[A-Za-z_-][A-Za-z0-9_-]*|[^ \t\r\n]""", re.S
)
BLANKS_AT_END = re.compile(r"[ \t]+$", re.M)


def pieces_of(text):
    """The words, numbers, strings, signs and comments of a text, in their order."""
    return PIECE.findall(text)


def sown(maker, text):
    """The text with comments and blanks between its pieces."""
    parts, at = [], 0
    for found in PIECE.finditer(text):
        parts.append(text[at:found.start()])
        if maker.random() < CHANCE and not "".join(parts[-1:]).endswith("/"):
            parts.append(maker.choice(SEEDS))
        parts.append(found.group())
        at = found.end()
    return "".join(parts) + text[at:]


def bounded(text, first=0):
    """The text with a comment at each boundary between two of its pieces, in front and at the end."""
    parts, at = [], 0
    for number, found in enumerate(PIECE.finditer(text), first):
        parts += [text[at:found.start()], COMMENTS[number % len(COMMENTS)], found.group()]
        at = found.end()
    return "".join(parts) + text[at:] + ("\n" if text[at:].isspace() or not text[at:] else "") + "/* c */"


def has_blanks_at_end(text):
    """Whether a line ends with blanks that no comment and no string holds."""
    return bool(BLANKS_AT_END.search(PIECE.sub(lambda found: re.sub(r"[ \t]", "x", found.group()), text.replace("\r", ""))))


def is_trivia(text):
    """Whether a text is whitespace and comments alone."""
    return all(re.match(r"//(?!/)|/\*", piece) for piece in pieces_of(text))


class Layouts:
    """What became of texts: of each the layout, or None where it isn't read; and what the program wrote."""

    def __init__(self, program, given, room):
        self.names = texts.laid(given, "text", room)
        self.said = output_of(program, "--write", self.names, room)
        refused = {line.split(":", 1)[0] for line in self.said.splitlines() if re.match(r"text\d{5}:\d+:\d+: ", line)}
        self.layouts = [None if name in refused else (room / name).read_bytes().decode() for name in self.names]
        again = output_of(program, "--check", [name for name in self.names if name not in refused], room)
        self.changed = {*again.splitlines()}

    def wrong(self, number, text):
        """What is wrong with a layout, or None. Whitespace and comments alone stand as they are."""
        layout, name = self.layouts[number], self.names[number]
        if layout == text and is_trivia(text):
            return None
        if f"{name}: left as it is" in self.said:
            return "left as it is"
        if name in self.changed:
            return f"laid out again it changes: {layout!r}"
        if pieces_of(layout) != pieces_of(text):
            return f"it has other words: {layout!r}"
        if has_blanks_at_end(layout.removesuffix(unfollowed(text))):
            return f"blanks at the end of a line: {layout!r}"
        return None


def unfollowed(text):
    """The whitespace and comments that a text ends with behind a docstring, which by today's rules no definition has to
    follow: they stand as they are."""
    lines = text.splitlines(keepends=True)
    last = max((number for number, line in enumerate(lines) if line.lstrip().startswith("///")), default=len(lines))
    rest = "".join(lines[last + 1 :])
    return rest if is_trivia(rest) else ""


def output_of(program, option, names, room):
    """What the program writes with an option of files."""
    if not names:
        return ""
    ended = program.run([option], names, room)
    if ended.returncode not in (0, 1):
        raise Unfit(f"{program.program} {option}: status {ended.returncode}: {ended.stderr.decode(errors='replace')[:500]}")
    return ended.stdout.decode() + ended.stderr.decode()


def wrong_of(program, weedle2, given, room):
    """Of each text that is read what is wrong with its layout, or None."""
    found = Layouts(program, given, room)
    read = [number for number, layout in enumerate(found.layouts) if layout is not None]
    before = texts.laid((given[number] for number in read), "before", room)
    behind = texts.laid((found.layouts[number] for number in read), "behind", room)
    others = {read[it] for it in texts.other_values(weedle2, before, behind, room)}
    wrong = {number: found.wrong(number, given[number]) for number in read}
    wrong |= {number: f"weedle2 reads other values: {found.layouts[number]!r}" for number in others}
    return [(given[number], why) for number, why in wrong.items()]


def texts_of_today(wanted):
    """Texts of today's WebIDL, by their kinds."""
    dialect = dialect_of(wanted)
    found = texts.of_today()
    yield "today.toml", found
    maker = Maker(wanted.seed, dialect=dialect)
    made = [maker.text() for _ in range(min(wanted.most, TODAY_RANDOM))]
    yield "random by today's rows", made
    yield "near by today's rows", [maker.near(text) for text in made]
    for first in range(len(COMMENTS)):
        yield f"today.toml, a comment at each boundary, {first + 1}", [bounded(text, first) for text in found]
    yield "random by today's rows, a comment at each boundary", [bounded(text, number) for number, text in enumerate(made)]
    chance = random.Random(wanted.seed)
    yield "random by today's rows, sown", [sown(chance, text) for text in made]
    for kind, given in texts.kinds(wanted):
        yield kind, given[:TODAY_MOST]


def kinds(wanted):
    """The texts, by their kinds."""
    if wanted.today:
        yield from texts_of_today(wanted)
        return
    maker = random.Random(wanted.seed)
    for kind, given in texts.kinds(wanted):
        yield kind, given
        if kind in SOWN:
            yield f"{kind}, sown", [sown(maker, text) for text in given]


def add_arguments(parser):
    add_program(parser, "weedle_format")
    add_dialect(parser)
    texts.add_arguments(parser)


def run(wanted, report):
    weedle2, program = wanted.weedle2 and Weedle2(wanted.weedle2), meant_in(wanted)
    for kind, given in kinds(wanted):
        asked = None if kind == texts.DEEP or wanted.today else weedle2
        texts.add(report, kind, given, functools.partial(wrong_of, program, asked))
    found = failures_of(program.program, runs_of_today() if wanted.today else all_runs())
    report.add("runs by hand", len(found), found)
