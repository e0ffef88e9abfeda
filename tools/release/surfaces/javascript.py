"""What callers in JavaScript can name: the declarations of the package for Node."""

import re
from pathlib import Path
from typing import Iterator

from release.surfaces import Change, Surface

# What index.d.ts hands out; what of it stands in `term` or `today` has that name in front.
FILES = {
    "js/index.d.ts": "",
    "js/lib/value.d.ts": "",
    "js/lib/written/values.d.ts": "",
    "js/lib/written/roles.d.ts": "",
    "js/lib/written/term.d.ts": "term.",
    "js/lib/written/today.d.ts": "today.",
}
COMMENT = re.compile(r"/\*.*?\*/|^\s*//[^\n]*", re.M | re.S)
HEAD = re.compile(
    r"export (?:declare )?(?:abstract )?(?P<kind>class|interface|namespace|function|const|type) (?P<name>\w+)"
)
BODIED = ("class", "interface", "namespace")
OPENS, CLOSES = "{([", "})]"
# What stands behind a `}` that ends no statement.
GOES_ON = (";", "&", "|", ".", "`", ",", ")", "[")
CALLED = re.compile(r"(?P<front>[^(]*\()(?P<given>.*)(?P<back>\)[^()]*)", re.S)


def statements(text: str) -> Iterator[str]:
    """The statements of a text: up to a `;` or a `}` that stands in no brackets."""
    depth, begin = 0, 0
    for place, sign in enumerate(text):
        depth += (sign in OPENS) - (sign in CLOSES)
        is_block = sign == "}" and not text[place + 1 :].lstrip().startswith(GOES_ON)
        if depth == 0 and (sign == ";" or is_block):
            yield " ".join(text[begin : place + 1].split())
            begin = place + 1


def members(body: str) -> Iterator[tuple[str, str]]:
    """The members of a class, an interface or a namespace, each by its name."""
    for member in statements(body):
        found = re.match(r"(?:readonly |static |interface )*([\w$]+|\[[\w.]+\])", member)
        if found and not member.startswith("private "):
            yield found[1], member


def declared(text: str) -> Iterator[tuple[str, str]]:
    """Each name that a text declares for others, with the text of that; overloads are texts of one name."""
    for statement in statements(COMMENT.sub("", text)):
        head = HEAD.match(statement)
        if head and head["kind"] in BODIED:
            front, _, body = statement.partition("{")
            yield head["name"] + "{}" * (head["kind"] == "namespace"), front.strip()
            yield from ((f"{head['name']}.{name}", it) for name, it in members(body.removesuffix("}")))
        elif head:
            yield head["name"] + " type" * (head["kind"] == "type"), statement


def surface_of(root: Path) -> Surface:
    """What the declarations of a tree have."""
    found: dict[str, list[str]] = {}
    for file, front in FILES.items():
        if (root / file).exists():
            for name, text in declared((root / file).read_text(encoding="utf-8")):
                found.setdefault(f"{front}{name}", []).append(text)
    return {name: "\n".join(sorted(texts)) for name, texts in found.items()}


def takes_more(old: str, new: str) -> bool:
    """Whether a call takes what it took, and may be given more."""
    before, after = CALLED.fullmatch(old), CALLED.fullmatch(new)
    if not before or not after or before.group("front", "back") != after.group("front", "back"):
        return False
    more = after["given"].removeprefix(before["given"]).removeprefix(", ")
    is_behind = after["given"].startswith(before["given"]) and more != after["given"] or not before["given"]
    return is_behind and all(re.match(r"\s*\w+\?:", it) for it in more.split(","))


def change_of(name: str, old: str | None, new: str | None) -> Change:
    """What it asks of callers that a name says something else, or is gone (None), or is new (None before)."""
    if new is None:
        return Change.BROKEN
    is_more = old is None or set(old.split("\n")) < set(new.split("\n")) or takes_more(old, new)
    return Change.ADDED if is_more else Change.BROKEN
