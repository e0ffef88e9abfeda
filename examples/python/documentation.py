#!/usr/bin/env python3
"""Writes a page of Markdown of all definitions in WebIDL files, with links:  documentation.py FILE.. > api.md"""

import html
import sys
from bisect import bisect_left
from itertools import islice
from pathlib import Path
from typing import Any, List, Tuple

import weedle
from weedle import Definition, Definitions, Index, Span, Value, kind_of, members_of

# What is shown otherwise than it is in a text, by its bytes: names that are links, and comments.
Cuts = List[Tuple[Span, str]]


def cuts_of(index: Index, text: Definitions) -> Cuts:
    """What is shown otherwise in a text, in its order."""
    cuts = [(it.span, " ") for it in text.syntax.comments]
    names = [it for it in text.names() if it.role in weedle.REFERENCES and it.text in index]
    return sorted(cuts + [(it.span, f'<a href="#{it.text}">{it.text}</a>') for it in names])


def shown(data: bytes, cuts: Cuts, span: Span) -> str:
    """A part of a text as HTML on one line, without comments, with links."""
    place, end = span
    pieces = []
    for (start, stop), text in islice(cuts, bisect_left(cuts, (span, "")), None):
        if stop > end:
            break
        pieces += [html.escape(data[place:start].decode(), False), text]
        place = stop
    words = "".join([*pieces, html.escape(data[place:end].decode(), False)]).split()
    return f"<code>{' '.join(words)}</code>"


def write_definition(index: Index, data: bytes, cuts: Cuts, it: Definition.Variants) -> None:
    """Writes a definition: what is in front of its body, its doc, and its members."""
    inner: Any = it.value
    body: Any = getattr(inner, "members", None) or getattr(inner, "values", None)
    head = Span(it.span.start, body.open_brace.span.start if body else it.span.end)
    print(f"{shown(data, cuts, head)} ({index.place_of(it)})\n\n{it.doc}\n")
    members: List[Value] = [member.value for member in members_of(it)]
    for value in members or (list(body.body) if kind_of(it) == "enum" else []):
        doc = value.doc.replace("\n", "\n  ")
        print(f"- {shown(data, cuts, value.span)}\n" + (f"\n  {doc}\n" if doc else ""))


def main(files: List[str]) -> int:
    """Writes the page; the status is 1 where a file is refused."""
    index, status = Index(), 0
    for name in files:
        try:
            index.add(Path(name).read_bytes(), name)
        except weedle.Refused as refused:
            print(f"{name}:{refused}", file=sys.stderr)
            status = 1
    texts = {index.file_of(it[0]): (it.text.encode(), cuts_of(index, it)) for it in index.texts if it}
    for entry in sorted(index.values(), key=lambda it: it.name):
        print(f'<a id="{entry.name}"></a>\n\n## {entry.name}\n')
        for mixin in entry.mixins:
            print(f"Includes [{mixin.name}](#{mixin.name}).\n")
        for it in [*entry.definitions, *entry.parts]:
            write_definition(index, *texts[index.file_of(it)], it)
    return status


if __name__ == "__main__":
    sys.exit(main(sys.argv[1:]))
