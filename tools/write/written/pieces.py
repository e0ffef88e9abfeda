"""A piece of a file that is written: an `impl`, with what the logic of it names."""

EQUAL = ("Rattle.std.specs.Prelude", "◌≡◌")


class Piece:
    """The text of an `impl`, and the names that its ghost clauses need, as (module, name)."""

    def __init__(self, text, ghost=()):
        self.text, self.ghost = text, set(ghost)


def bound(item):
    """The type's name with a lifetime that its `impl` names."""
    return f"{item.name}<'a>" if item.is_borrowing else item.name


def unbound(item):
    """The type's name where its lifetime needs no name."""
    return f"{item.name}<'_>" if item.is_borrowing else item.name
