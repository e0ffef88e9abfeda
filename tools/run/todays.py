"""What the programs say of a text that weedle2's rules refuse and today's read whole, by the rows of the grammar."""

from functools import cache
from threading import Lock

from description.today import RULES
from rows.ends import Ends

# The last line of what is said of it, and the line where there is none.
LINE, NONE = "today's WebIDL reads it: --today\n", ""
ROWS = Ends({rule.name: rule.row for rule in RULES})
# What is known of ends is of one text at a time.
ONE_TEXT = Lock()


@cache
def is_todays(text: str) -> bool:
    """Whether today's rules read a whole text."""
    with ONE_TEXT:
        return bool(ROWS.is_whole(text.encode(), "TODAY_DEFINITIONS"))


def line_of(text: str) -> str:
    """The line behind what is said of a text that weedle2's rules refuse."""
    return LINE if is_todays(text) else NONE


def without_line(said: str) -> str:
    """What is said of a text, without that line."""
    return said.removesuffix(LINE)
