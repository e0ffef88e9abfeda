"""What the names of several texts stand for: definitions with their parts, their mixins and their members."""

from __future__ import annotations

from collections.abc import Mapping
from typing import TYPE_CHECKING, Any, Dict, Iterator, List, Optional, Tuple, Union, overload

from weedle import today
from weedle._dialect import Dialect, grammar_of
from weedle._values import Value
from weedle.common import Identifier
from weedle.definitions import Definition, Definitions
from weedle.names import Name, Role

if TYPE_CHECKING:
    from weedle.argument import Argument
    from weedle.attribute import ExtendedAttribute

    #: What is defined, and what stands with it, in either tree.
    AnyDefinition = Union[Definition.Variants, today.Definition.Variants]
    AnyDefinitions = Union[Definitions, today.Definitions]
    AnyArgument = Union[Argument.Variants, today.Argument.Variants]
    AnyAttribute = Union[ExtendedAttribute.Variants, today.ExtendedAttribute.Variants]

__all__ = ["REFERENCES", "Entry", "Index", "Member", "kind_of", "members_of", "name_of"]

KINDS = {
    "Callback": "callback", "CallbackInterface": "callback interface", "Interface": "interface",
    "InterfaceMixin": "interface mixin", "Namespace": "namespace", "Dictionary": "dictionary",
    "PartialInterface": "partial interface", "PartialInterfaceMixin": "partial interface mixin",
    "PartialDictionary": "partial dictionary", "PartialNamespace": "partial namespace",
    "Enum": "enum", "Typedef": "typedef", "IncludesStatement": "includes",
    "Implements": "implements",
}
STATEMENTS = ("IncludesStatement", "Implements")
#: What a name stands for that speaks of a definition and doesn't define it.
REFERENCES = frozenset([
    Role.PARTIAL_INTERFACE, Role.PARTIAL_MIXIN, Role.PARTIAL_DICTIONARY, Role.PARTIAL_NAMESPACE,
    Role.INCLUDER, Role.INCLUDED, Role.IMPLEMENTER, Role.IMPLEMENTED, Role.INHERITED, Role.TYPE,
])
#: The types of Web IDL that the grammar reads as names.
BUILTIN = frozenset(
    "bigint undefined Float16Array BigInt64Array BigUint64Array SharedArrayBuffer WindowProxy".split()
)
# The fields of a member that has a type, by their names, and what has more than one.
TYPES = ("type_", "return_type", "const_type")


def kind_of(definition: Union[Definition, today.Definition]) -> str:
    """What a definition is, as "partial interface" or "includes"."""
    return KINDS[definition.variant]


def name_of(definition: AnyDefinition) -> Identifier:
    """The name of a definition; of a statement that of what includes or implements."""
    inner: Any = definition.value
    found: Identifier = getattr(inner, "identifier", None) or inner.lhs_identifier
    return found


class Member:
    """A member of a definition, by one face for the members of all lists."""

    __slots__ = ("value", "definition")

    def __init__(self, value: Any, definition: AnyDefinition) -> None:
        #: The member, as `InterfaceMember.Attribute` or `DictionaryMember`.
        self.value = value
        #: The definition that it is in, a part or a mixin perhaps.
        self.definition = definition

    @property
    def kind(self) -> str:
        """The name of its variant, as "Attribute" or "Operation"; "Field" of a dictionary's member."""
        return getattr(self.value, "variant", "Field")

    @property
    def inner(self) -> Any:
        """The struct with its fields, as `AttributeInterfaceMember`."""
        it = self.value
        # an iteration is a variant that holds another
        while hasattr(it, "variant"):
            it = it.value
        return it

    @property
    def identifier(self) -> Optional[Identifier]:
        """Its name: an operation may lack one, and a constructor, an iteration and the like do."""
        found: Optional[Identifier] = getattr(self.inner, "identifier", None)
        return found

    @property
    def name(self) -> str:
        """The letters of its name; empty where it has none."""
        return self.identifier.value if self.identifier else ""

    @property
    def type(self) -> Any:
        """Its type: of a constant, an attribute or a field, of an operation's result, of what a map,
        a set or an iteration has as values; or None."""
        for name in TYPES:
            if hasattr(self.inner, name):
                return getattr(self.inner, name)
        key, value = self._generic
        return value

    @property
    def key_type(self) -> Any:
        """The type of the keys of a map, or of an iteration over pairs, or None."""
        key, value = self._generic
        return key

    @property
    def _generic(self) -> Tuple[Any, Any]:
        generics = getattr(self.inner, "generics", None)
        if isinstance(generics, today.Iterated):
            second = generics.second
            return (generics.type_, second.type_) if second else (None, generics.type_)
        body = generics.body if generics else None
        return (body[0], body[2]) if isinstance(body, tuple) else (None, body)

    @property
    def arguments(self) -> List[AnyArgument]:
        """The arguments of an operation, a constructor or an asynchronous iteration."""
        args = getattr(self.inner, "args", None)
        return list(args.body) if args else []

    @property
    def attributes(self) -> List[AnyAttribute]:
        """The extended attributes in front of it; of today's tree those of all lists."""
        found = getattr(self.inner, "attributes", None) or []
        lists = found if isinstance(found, list) else [found]
        return [it for some in lists for it in some.body]

    @property
    def is_static(self) -> bool:
        """Whether it is a static attribute or operation."""
        modifier: Any = getattr(self.inner, "modifier", None)
        return bool(modifier) and modifier.variant == "Static"

    @property
    def doc(self) -> str:
        """Its docstring, or else what its comments say; empty without both."""
        found: str = self.value.doc
        return found

    def __repr__(self) -> str:
        return f"<{self.kind} {self.name or self.value.text!r}>"


class Entry:
    """What a name stands for."""

    def __init__(self, index: Index, name: str) -> None:
        self._index = index
        #: The name.
        self.name = name
        #: All definitions of it, in their order: more than one is a slip.
        self.definitions: List[AnyDefinition] = []
        #: Its parts, as `partial interface A {};`.
        self.parts: List[AnyDefinition] = []
        #: The statements that include mixins into it, as `A includes M;`.
        self.statements: List[Any] = []

    @property
    def definition(self) -> Optional[AnyDefinition]:
        """Its first definition, if it has one."""
        return self.definitions[0] if self.definitions else None

    @property
    def kind(self) -> str:
        """What it is, as "interface" or "typedef"; empty where nothing defines it."""
        return kind_of(self.definitions[0]) if self.definitions else ""

    @property
    def inherited(self) -> Optional[Identifier]:
        """The name of what it inherits from."""
        inner: Any = self.definition.value if self.definition else None
        inheritance = getattr(inner, "inheritance", None)
        return inheritance.identifier if inheritance else None

    @property
    def mixins(self) -> List[Entry]:
        """What is included into it, each once; what no file speaks of else is left out."""
        names = dict.fromkeys(it.value.rhs_identifier.value for it in self.statements)
        return [self._index[name] for name in names if name in self._index]

    def ancestors(self) -> List[Entry]:
        """What it inherits from, the nearest first, as far as it is defined; each once."""
        found: List[Entry] = []
        name = self.inherited
        while name and name.value in self._index:
            above = self._index[name.value]
            if not above.definitions or above is self or above in found:
                break
            found.append(above)
            name = above.inherited
        return found

    def bodies(self) -> Iterator[AnyDefinition]:
        """Its definition and its parts, and those of its mixins."""
        for it in (self, *self.mixins):
            yield from it.definitions[:1]
            yield from it.parts

    def members(self) -> List[Member]:
        """Its members, with those of its parts and of its mixins; none that it inherits."""
        return [member for it in self.bodies() for member in members_of(it)]

    def __repr__(self) -> str:
        return f"<{self.kind or 'undefined'} {self.name}>"


def members_of(definition: AnyDefinition) -> List[Member]:
    """The members of a definition, of whatever kind; of one without members none."""
    inner: Any = definition.value
    body = getattr(inner, "members", None)
    return [Member(it, definition) for it in body.body] if body else []


class Index(Mapping[str, Entry]):
    """What the names of several texts stand for, by the names.

    >>> import weedle
    >>> index = weedle.Index()
    >>> _ = index.add("interface Node : EventTarget { attribute long x; };", "dom.webidl")
    >>> _ = index.add("partial interface Node { undefined f(); };", "more.webidl")
    >>> [member.name for member in index["Node"].members()]
    ['x', 'f']
    >>> [(name.text, index.file_of(name.value)) for name in index.undefined()]
    [('EventTarget', 'dom.webidl')]

    With `dialect="today"` texts are read by the rules of today's WebIDL, where no other dialect is said of
    one of them.
    """

    def __init__(self, *, dialect: Dialect = "weedle2") -> None:
        #: The dialect of texts of which none is said.
        self.dialect: Dialect = grammar_of(dialect).name
        self._entries: Dict[str, Entry] = {}
        self._files: Dict[int, str] = {}
        #: The lists that were added, in their order.
        self.texts: List[AnyDefinitions] = []
        self._names: Optional[Dict[str, List[Name]]] = None

    @overload
    def add(
        self, text: Definitions, file: str = "", *, dialect: Optional[Dialect] = None
    ) -> Definitions: ...
    @overload
    def add(
        self, text: today.Definitions, file: str = "", *, dialect: Optional[Dialect] = None
    ) -> today.Definitions: ...
    @overload
    def add(
        self, text: Union[str, bytes], file: str = "", *, dialect: Optional[Dialect] = None
    ) -> Any: ...

    def add(
        self, text: Union[str, bytes, AnyDefinitions], file: str = "", *,
        dialect: Optional[Dialect] = None
    ) -> Any:
        """Takes the definitions of a text, which `file` names. It raises what `weedle.parse` raises.

        A text is read by this dialect, or else by that of the index. Definitions that were read before stay
        what they are.
        """
        from weedle import parse  # it is above

        if isinstance(text, (Definitions, today.Definitions)):
            definitions: AnyDefinitions = text
        else:
            definitions = parse(text, dialect=self.dialect if dialect is None else dialect)
        self.texts.append(definitions)
        self._files[id(definitions._tree)] = file
        self._names = None
        for it in definitions:
            entry = self._entry(name_of(it).value)
            is_part, is_statement = it.variant.startswith("Partial"), it.variant in STATEMENTS
            all_ = entry.statements if is_statement else entry.parts if is_part else entry.definitions
            all_.append(it)
        return definitions

    def _entry(self, name: str) -> Entry:
        return self._entries.setdefault(name, Entry(self, name))

    def __getitem__(self, name: str) -> Entry:
        return self._entries[name]

    def __iter__(self) -> Iterator[str]:
        return iter(self._entries)

    def __len__(self) -> int:
        return len(self._entries)

    def file_of(self, value: Value) -> str:
        """The name of the file that a value is in."""
        return self._files[id(value._tree)]

    def place_of(self, value: Value) -> str:
        """Where a value is, as "dom.webidl:3:11"."""
        line, column = value.position
        return f"{self.file_of(value)}:{line}:{column}"

    def names(self) -> Iterator[Name]:
        """The names of all texts, each with what it stands for."""
        return (name for text in self.texts for name in text.names())

    def references(self, name: str) -> List[Name]:
        """Where a definition of this name is spoken of: as a type, as what is inherited from, in a
        statement, by a part. Where it is defined is none of them."""
        if self._names is None:
            self._names = {}
            for it in self.names():
                if it.role in REFERENCES:
                    self._names.setdefault(it.text, []).append(it)
        return self._names.get(name, [])

    def duplicates(self) -> List[Entry]:
        """What is defined more than once."""
        return [it for it in self.values() if len(it.definitions) > 1]

    def undefined(self) -> List[Name]:
        """The references to what nothing defines; the types of Web IDL itself aren't among them."""
        self.references("")
        assert self._names is not None
        unknown = [
            names for text, names in self._names.items()
            if text not in BUILTIN and not (text in self._entries and self._entries[text].definitions)
        ]
        return [it for names in unknown for it in names]
