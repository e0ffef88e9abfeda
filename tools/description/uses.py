"""The lines `ghost use` of Rust that is written. `rt fmt` leaves lines of the logic as they are."""

from description.layout import COLUMNS


def grouped(pairs):
    """The names of each module, or the like, of pairs of both."""
    found = {}
    for module, name in pairs:
        found.setdefault(module, set()).add(name)
    return found


def ghost_lines(pairs):
    """What clauses name, as (module, name), brought in."""
    return "".join(ghost_line(module, sorted(names)) for module, names in sorted(grouped(pairs).items()))


def ghost_line(module, names, indent=""):
    """A line that brings in these names; where it is too long, each has a line."""
    line = f"{indent}ghost use {module}.{{{', '.join(names)}}};\n"
    if len(line) <= COLUMNS + 1:
        return line
    rows = "".join(f"{indent}  {name},\n" for name in names)
    return f"{indent}ghost use {module}.{{\n{rows}{indent}}};\n"
