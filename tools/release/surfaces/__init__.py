"""What callers can name, read from the sources of each package, and what a change of it asks of them."""

from enum import IntEnum

# What callers can name: each name with what it says, as a call's arguments and what it gives.
Surface = dict[str, str]


class Change(IntEnum):
    """What a change asks of callers, from nothing on."""

    NONE = 0
    #: There is more to name.
    ADDED = 1
    #: Sources stay as they are, and a program in C has to be compiled anew.
    ABI = 2
    #: Sources may have to change.
    BROKEN = 3
