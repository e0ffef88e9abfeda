"""The definitions of a text with their members: its outline, and the symbols of all texts."""

from __future__ import annotations

from typing import Dict, Iterator, List, NamedTuple, Optional, Tuple

from weedle._making import FACTORED, chosen
from weedle._text import Span
from weedle._tree import Tree
from weedle.grammar import NUMBERS
from weedle.lsp.protocol import Check, Json, SymbolKind as Kind, nothing
from weedle.lsp.reading import Broken
from weedle.lsp.sources import Source
from weedle.lsp.workspace import Workspace

# What each rule reads: its kind, and how it is called.
DEFINITIONS: Dict[str, Tuple[Kind, str]] = {
    "callback_definition": (Kind.FUNCTION, "callback"),
    "callback_interface_definition": (Kind.INTERFACE, "callback interface"),
    "interface_definition": (Kind.INTERFACE, "interface"),
    "interface_mixin_definition": (Kind.CLASS, "interface mixin"),
    "namespace_definition": (Kind.NAMESPACE, "namespace"),
    "dictionary_definition": (Kind.STRUCT, "dictionary"),
    "partial_interface_definition": (Kind.INTERFACE, "partial interface"),
    "partial_interface_mixin_definition": (Kind.CLASS, "partial interface mixin"),
    "partial_dictionary_definition": (Kind.STRUCT, "partial dictionary"),
    "partial_namespace_definition": (Kind.NAMESPACE, "partial namespace"),
    "enum_definition": (Kind.ENUM, "enum"),
    "typedef_definition": (Kind.TYPE_PARAMETER, "typedef"),
    "includes_statement_definition": (Kind.INTERFACE, "includes"),
    "implements_definition": (Kind.INTERFACE, "implements"),
    "today_callback": (Kind.FUNCTION, "callback"),
    "today_callback_interface": (Kind.INTERFACE, "callback interface"),
    "today_interface": (Kind.INTERFACE, "interface"),
    "today_mixin": (Kind.CLASS, "interface mixin"),
    "today_namespace": (Kind.NAMESPACE, "namespace"),
    "today_dictionary": (Kind.STRUCT, "dictionary"),
    "today_partial_interface": (Kind.INTERFACE, "partial interface"),
    "today_partial_mixin": (Kind.CLASS, "partial interface mixin"),
    "today_partial_dictionary": (Kind.STRUCT, "partial dictionary"),
    "today_partial_namespace": (Kind.NAMESPACE, "partial namespace"),
    "today_enum": (Kind.ENUM, "enum"),
    "today_typedef": (Kind.TYPE_PARAMETER, "typedef"),
    "today_includes": (Kind.INTERFACE, "includes"),
    "today_implements": (Kind.INTERFACE, "implements"),
}
MEMBERS: Dict[str, Kind] = {
    "const_member": Kind.CONSTANT, "dictionary_member": Kind.FIELD,
    "attribute_interface_member": Kind.PROPERTY, "attribute_mixin_member": Kind.PROPERTY,
    "attribute_namespace_member": Kind.PROPERTY, "operation_interface_member": Kind.METHOD,
    "operation_mixin_member": Kind.METHOD, "operation_namespace_member": Kind.METHOD,
    "constructor_interface_member": Kind.CONSTRUCTOR, "iterable_interface_member": Kind.METHOD,
    "async_iterable_interface_member": Kind.METHOD, "maplike_interface_member": Kind.METHOD,
    "setlike_interface_member": Kind.METHOD, "stringifier_member": Kind.METHOD,
    "enum_variant": Kind.ENUM_MEMBER,
    "today_const": Kind.CONSTANT, "today_dictionary_member": Kind.FIELD,
    "today_attribute_member": Kind.PROPERTY, "today_mixin_attribute": Kind.PROPERTY,
    "today_namespace_attribute": Kind.PROPERTY, "today_operation": Kind.METHOD,
    "today_mixin_operation": Kind.METHOD, "today_namespace_operation": Kind.METHOD,
    "today_constructor": Kind.CONSTRUCTOR, "today_iterable": Kind.METHOD,
    "today_async_iterable": Kind.METHOD, "today_maplike": Kind.METHOD,
    "today_setlike": Kind.METHOD, "today_stringifier": Kind.METHOD,
    "today_enum_value": Kind.ENUM_MEMBER,
}
KINDS: Dict[int, Tuple[Kind, str]] = {
    **{NUMBERS[name]: it for name, it in DEFINITIONS.items()},
    **{NUMBERS[name]: (kind, "") for name, kind in MEMBERS.items()},
}
WORDS: Dict[str, Kind] = {word: kind for kind, word in DEFINITIONS.values()}
NO_KIND: Tuple[Optional[Kind], str] = None, ""
# What is in front of the words of a definition or a member.
FRONTS = frozenset(NUMBERS[it] for it in (
    "opt_docstring", "opt_extended_attribute_list", "trivia", "today_docs", "today_attribute_lists",
))
IDENTIFIER, NAME = NUMBERS["identifier"], NUMBERS["opt_identifier"]
STATEMENTS = frozenset(["includes", "implements"])
# A symbol's name that has more characters is cut, and of a folder no more are told at once.
LONGEST, MOST = 80, 1000


class Symbol(NamedTuple):
    """A definition or a member."""

    name: str
    detail: str
    kind: Kind
    #: All of it, and its name alone; of what has no name its words.
    span: Span
    name_span: Span
    #: Of a member the number of its definition among the symbols; -1 of a definition.
    above: int


def symbols(source: Source, check: Check = nothing) -> List[Symbol]:
    """The definitions of a text, each in front of its members. It checks at each definition."""
    found: List[Symbol] = []
    tree, above, end, node = source.tree, -1, 0, 0
    rules, behind = tree.rules, tree.behind
    heads = {it.name.value._node: it for it in source.reading.broken}
    while node < tree.count:
        kind, word = KINDS.get(rules[node], NO_KIND)
        if word or node in heads:
            check()
            above, end = len(found), heads[node].span.end if node in heads else tree.ends[node]
        if kind:
            is_below = not word and tree.starts[node] < end
            found.append(symbol(tree, node, kind, word, above if is_below else -1))
        elif node in heads:
            found.append(broken_symbol(tree, heads[node]))
        # nothing within a member is shown
        node = behind(node) if kind and not word else node + 1
    return found


def broken_symbol(tree: Tree, it: Broken) -> Symbol:
    """A definition that isn't read whole."""
    size = len(tree.text.slice(it.span).rstrip().encode())
    span = Span(it.span.start, max(it.span.start + size, it.name.span.end))
    return Symbol(it.name.text, f"{it.kind}, with errors", WORDS[it.kind], span, it.name.span, -1)


def symbol(tree: Tree, node: int, kind: Kind, word: str, above: int) -> Symbol:
    """The definition or the member of a node."""
    span, children = tree.span(whole_of(tree, node)), tree.children(node)
    words, name = Span(start_of(tree, children), span.end), name_among(tree, children)
    if name is None or word in STATEMENTS:
        said = one_line(tree, words).rstrip(";").rstrip()
        return Symbol(said[:LONGEST].strip('"') or '""', word, kind, span, words, above)
    detail = word
    if not word:
        front, back = Span(words.start, name.start), Span(name.end, words.end)
        detail = f"{one_line(tree, front).rstrip('_').rstrip()} {one_line(tree, back)}".strip(" ;")
    return Symbol(tree.text.slice(name), detail[:LONGEST], kind, span, name, above)


def declared(tree: Tree, node: int) -> int:
    """The node of the words of a definition or a member, of which the node may be one above."""
    if tree.rules[node] in KINDS:
        return node
    return chosen(tree, node) if tree.rules[node] in FACTORED else node + 1


def whole_of(tree: Tree, node: int) -> int:
    """The node that has what is in front of some words too: of today's grammar it is further above."""
    above = tree.above(node - 1) if node else -1
    is_below = above >= 0 and tree.rules[above] in FACTORED and chosen(tree, above) == node
    return above if is_below else node


def words_start(tree: Tree, node: int) -> int:
    """Where the words begin, behind a docstring, extended attributes and comments."""
    return start_of(tree, tree.children(node))


def start_of(tree: Tree, children: List[int]) -> int:
    """The same of the nodes below."""
    for child in children:
        if tree.rules[child] not in FRONTS and tree.ends[child] > tree.starts[child]:
            break
    return tree.span(child).start


def name_among(tree: Tree, children: List[int]) -> Optional[Span]:
    """The name of a definition or a member, without an underscore in front."""
    for child in children:
        if tree.rules[child] == IDENTIFIER:
            return letters_of(tree, child)
        if tree.rules[child] == NAME and tree.ends[child] > tree.starts[child]:
            return letters_of(tree, child + 1)
    return None


def letters_of(tree: Tree, identifier: int) -> Span:
    """The letters of a name."""
    below = tree.child(identifier, 2)
    return Span(tree.starts[below], tree.ends[below])


def one_line(tree: Tree, span: Span) -> str:
    """A part of the text on a line."""
    return " ".join(tree.text.slice(span).split())


def outline(source: Source, check: Check = nothing) -> List[Json]:
    """The definitions of a text, each with its members."""
    all_: List[Json] = []
    for it in symbols(source, check):
        all_.append({
            "name": it.name, "detail": it.detail, "kind": it.kind, "children": [],
            "range": source.range(it.span), "selectionRange": source.range(it.name_span),
            "_above": it.above,
        })
    found: List[Json] = []
    for shown in all_:
        above = shown.pop("_above")
        (found if above < 0 else all_[above]["children"]).append(shown)
    return found


def flat_outline(source: Source, check: Check = nothing) -> List[Json]:
    """The same for an editor that knows no tree of symbols."""
    return list(told(source, symbols(source, check)))


def told(source: Source, all_: List[Symbol]) -> Iterator[Json]:
    """Symbols with their places, and the names of their definitions."""
    names = [it.name for it in all_]
    for it in all_:
        shown: Json = {"name": it.name, "kind": it.kind, "location": source.location(it.name_span)}
        if it.above >= 0:
            shown["containerName"] = names[it.above]
        yield shown


def matching(workspace: Workspace, query: str) -> List[Json]:
    """The symbols of all texts whose names have the letters of a query in their order."""
    found = (it for source in workspace.sources() for it in known(source))
    chosen = [it for it in found if has_letters(it["name"], query)]
    return sorted(chosen, key=lambda it: rank(it, query))[:MOST]


def known(source: Source) -> List[Json]:
    """The symbols of a text, worked out once."""
    if source.symbols is None:
        source.symbols = flat_outline(source)
    return source.symbols


def has_letters(name: str, query: str) -> bool:
    """Whether a name has the letters of a query in their order, whatever their case."""
    letters = iter(name.lower())
    return all(it in letters for it in query.lower())


def rank(shown: Json, query: str) -> Tuple[bool, bool, bool, str]:
    """Names that are the query come first, then those that begin with it, then definitions."""
    name, wanted = shown["name"].lower(), query.lower()
    return name != wanted, not name.startswith(wanted), "containerName" in shown, name
