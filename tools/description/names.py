"""Names of rules and of values, made of the names of types."""

import re
from functools import cache


@cache
def upper(name):
    """The name of a type's rule: of `ConstMember` it is `CONST_MEMBER`."""
    if name == "NaN":
        return "NAN"
    name = re.sub(r"(?<=[a-z0-9])(?=[A-Z])", "_", name)
    return re.sub(r"(?<=[A-Z])(?=[A-Z][a-z])", "_", name).upper()


def snake(name):
    """The name of a type's rule in small letters: `const_member`."""
    return upper(name).lower()


def logic(name):
    """A type's name in the logic, where `Type` is a word."""
    return f"«{name}»" if name == "Type" else name
