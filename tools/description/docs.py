"""What the doc of a declaration says first: what it declares, and an example of it."""

import re

from description.layout import filled

# How the doc of a law begins: of a function whose contract says what always holds.
LAW = "A law, which does nothing:"
# A word, or more that stand in a piece of code.
WORD = re.compile(r"(?:`[^`]*`|[^`\s])+")

# Numbers as words, from one on.
NUMBERS = (
    "one two three four five six seven eight nine ten eleven twelve thirteen fourteen fifteen sixteen seventeen "
    "eighteen nineteen twenty"
).split()
# Up to an example, or to the end of the first sentence.
FRONT = re.compile(r"(.*?)(?:, as `|[:.;](?: |$))")
EXAMPLE = re.compile(r"[^.:]*?, as `[^`]*`(?:(?:, or |, | or )`[^`]*`)*")


def small(text):
    return text[:1].lower() + text[1:]


def about(doc):
    """What a doc calls what it declares: `a callback`."""
    return small(FRONT.match(doc)[1])


def with_example(doc):
    """What a doc calls it as a sentence, with the examples that it gives: "A callback, as `callback F = ..`."."""
    found = EXAMPLE.match(doc)
    return f"{found[0] if found else FRONT.match(doc)[1]}."


def comment(said, mark="/// "):
    """A comment that says this, in lines; a piece of code stays in one."""
    return filled(WORD.findall(said), "", mark).rstrip("\n")


def law(said):
    """The doc of a law that says this, in lines."""
    return comment(f"{LAW} {said}")
