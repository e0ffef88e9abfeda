"""The names of a text, each with what it stands for."""

from __future__ import annotations

from enum import Enum
from typing import TYPE_CHECKING, Dict, Iterator, List

from weedle._making import made
from weedle._text import Position, Span
from weedle._tree import Tree
from weedle.grammar import NUMBERS

if TYPE_CHECKING:
    from weedle.common import Identifier

__all__ = ["Name", "Role"]


class Role(Enum):
    """What a name stands for."""

    #: A callback, as `F` in `callback F = undefined ();`.
    CALLBACK = "Callback"
    #: A callback interface, as `A` in `callback interface A {};`.
    CALLBACK_INTERFACE = "CallbackInterface"
    #: An interface, as `A` in `interface A {};`.
    INTERFACE = "Interface"
    #: A mixin, as `M` in `interface mixin M {};`.
    MIXIN = "Mixin"
    #: A namespace, as `N` in `namespace N {};`.
    NAMESPACE = "Namespace"
    #: A dictionary, as `D` in `dictionary D {};`.
    DICTIONARY = "Dictionary"
    #: The interface of a part, as `A` in `partial interface A {};`.
    PARTIAL_INTERFACE = "PartialInterface"
    #: The mixin of a part, as `M` in `partial interface mixin M {};`.
    PARTIAL_MIXIN = "PartialMixin"
    #: The dictionary of a part, as `D` in `partial dictionary D {};`.
    PARTIAL_DICTIONARY = "PartialDictionary"
    #: The namespace of a part, as `N` in `partial namespace N {};`.
    PARTIAL_NAMESPACE = "PartialNamespace"
    #: An enum, as `E` in `enum E { "a" };`.
    ENUM = "Enum"
    #: A name for a type, as `T` in `typedef long T;`.
    TYPEDEF = "Typedef"
    #: What includes a mixin, as `A` in `A includes M;`.
    INCLUDER = "Includer"
    #: The mixin that is included, as `M` in `A includes M;`.
    INCLUDED = "Included"
    #: What implements an interface, as `A` in `A implements B;`.
    IMPLEMENTER = "Implementer"
    #: The interface that is implemented, as `B` in `A implements B;`.
    IMPLEMENTED = "Implemented"
    #: A constant, as `X` in `const long X = 1;`.
    CONST = "Const"
    #: An attribute of an interface, a mixin or a namespace, as `x` in `attribute long x;`.
    ATTRIBUTE = "Attribute"
    #: An operation, as `f` in `undefined f();`.
    OPERATION = "Operation"
    #: A member of a dictionary, as `x` in `required long x;`.
    DICTIONARY_MEMBER = "DictionaryMember"
    #: An argument, as `x` in `undefined f(long x);`.
    ARGUMENT = "Argument"
    #: A type, as `T` in `attribute sequence<T?> x;`.
    TYPE = "Type"
    #: What is inherited from, as `B` in `interface A : B {};`.
    INHERITED = "Inherited"
    #: An extended attribute, as `Exposed` in `[Exposed=Window]`.
    EXTENDED_ATTRIBUTE = "ExtendedAttribute"
    #: What follows its `=`, as `Window` in `[Exposed=(Window,Worker)]`, and `Image` in
    #: `[NamedConstructor=Image(long x)]`.
    EXTENDED_ATTRIBUTE_VALUE = "ExtendedAttributeValue"


# What the first name stands for that a rule reads, by the rule, and what one behind it does.
FIRST = {
    "callback_definition": Role.CALLBACK,
    "callback_interface_definition": Role.CALLBACK_INTERFACE,
    "interface_definition": Role.INTERFACE,
    "interface_mixin_definition": Role.MIXIN,
    "namespace_definition": Role.NAMESPACE,
    "dictionary_definition": Role.DICTIONARY,
    "partial_interface_definition": Role.PARTIAL_INTERFACE,
    "partial_interface_mixin_definition": Role.PARTIAL_MIXIN,
    "partial_dictionary_definition": Role.PARTIAL_DICTIONARY,
    "partial_namespace_definition": Role.PARTIAL_NAMESPACE,
    "enum_definition": Role.ENUM,
    "typedef_definition": Role.TYPEDEF,
    "includes_statement_definition": Role.INCLUDER,
    "implements_definition": Role.IMPLEMENTER,
    "const_member": Role.CONST,
    "attribute_interface_member": Role.ATTRIBUTE,
    "attribute_mixin_member": Role.ATTRIBUTE,
    "attribute_namespace_member": Role.ATTRIBUTE,
    "opt_identifier": Role.OPERATION,
    "dictionary_member": Role.DICTIONARY_MEMBER,
    "single_argument": Role.ARGUMENT,
    "variadic_argument": Role.ARGUMENT,
    "may_be_null_identifier": Role.TYPE,
    "inheritance": Role.INHERITED,
    "extended_attribute_arg_list": Role.EXTENDED_ATTRIBUTE,
    "extended_attribute_named_arg_list": Role.EXTENDED_ATTRIBUTE,
    "extended_attribute_ident_list": Role.EXTENDED_ATTRIBUTE,
    "extended_attribute_ident": Role.EXTENDED_ATTRIBUTE,
    "extended_attribute_no_args": Role.EXTENDED_ATTRIBUTE,
    "identifier_list": Role.EXTENDED_ATTRIBUTE_VALUE,
    "tail_identifier_comma": Role.EXTENDED_ATTRIBUTE_VALUE,
    "identifier_or_string": Role.EXTENDED_ATTRIBUTE_VALUE,
    # today's rules
    "today_callback": Role.CALLBACK,
    "today_callback_interface": Role.CALLBACK_INTERFACE,
    "today_interface": Role.INTERFACE,
    "today_mixin": Role.MIXIN,
    "today_namespace": Role.NAMESPACE,
    "today_dictionary": Role.DICTIONARY,
    "today_partial_interface": Role.PARTIAL_INTERFACE,
    "today_partial_mixin": Role.PARTIAL_MIXIN,
    "today_partial_dictionary": Role.PARTIAL_DICTIONARY,
    "today_partial_namespace": Role.PARTIAL_NAMESPACE,
    "today_enum": Role.ENUM,
    "today_typedef": Role.TYPEDEF,
    "today_includes": Role.INCLUDER,
    "today_implements": Role.IMPLEMENTER,
    "today_const": Role.CONST,
    "today_attribute_member": Role.ATTRIBUTE,
    "today_mixin_attribute": Role.ATTRIBUTE,
    "today_namespace_attribute": Role.ATTRIBUTE,
    "today_dictionary_member": Role.DICTIONARY_MEMBER,
    "today_optional_argument": Role.ARGUMENT,
    "today_required_argument": Role.ARGUMENT,
    "today_attribute_arg_list": Role.EXTENDED_ATTRIBUTE,
    "today_attribute_named_arg_list": Role.EXTENDED_ATTRIBUTE,
    "today_attribute_wildcard": Role.EXTENDED_ATTRIBUTE,
    "today_attribute_number": Role.EXTENDED_ATTRIBUTE,
    "today_attribute_strings": Role.EXTENDED_ATTRIBUTE,
    "today_attribute_numbers": Role.EXTENDED_ATTRIBUTE,
}
LATER = {
    "extended_attribute_named_arg_list": Role.EXTENDED_ATTRIBUTE_VALUE,
    "includes_statement_definition": Role.INCLUDED,
    "implements_definition": Role.IMPLEMENTED,
    "today_attribute_named_arg_list": Role.EXTENDED_ATTRIBUTE_VALUE,
    "today_includes": Role.INCLUDED,
    "today_implements": Role.IMPLEMENTED,
}
IDENTIFIER = NUMBERS["identifier"]


def by_number(roles: Dict[str, Role]) -> Dict[int, Role]:
    """The roles by the numbers of the rules."""
    return {NUMBERS[name]: role for name, role in roles.items()}


FIRST_ROLES, LATER_ROLES = by_number(FIRST), {**by_number(FIRST), **by_number(LATER)}


class Name:
    """A name in a text, and what it stands for.

    In `interface _A {};` the text is `A`, the role `Role.INTERFACE`, and the span from 10 to 12 has
    the underscore in it.
    """

    __slots__ = ("role", "value")

    def __init__(self, role: Role, value: Identifier) -> None:
        #: What it stands for.
        self.role = role
        #: The value that has it.
        self.value = value

    @property
    def text(self) -> str:
        """Its letters, without an underscore in front."""
        return self.value.value

    @property
    def span(self) -> Span:
        """Its bytes, with an underscore in front."""
        tree = self.value._tree
        _, underscore, letters, *_ = tree.children(self.value._node)
        return Span(tree.starts[underscore], tree.ends[letters])

    @property
    def position(self) -> Position:
        """The line and the column at which it begins; both begin at 1."""
        return self.value._tree.text.position(self.span.start)

    def __repr__(self) -> str:
        return f"Name({self.role}, {self.text!r})"

    def __eq__(self, other: object) -> bool:
        if not isinstance(other, Name):
            return NotImplemented
        return (self.role, self.value, self.span) == (other.role, other.value, other.span)

    def __hash__(self) -> int:
        return hash((self.role, self.value))


def names_in(tree: Tree, node: int) -> Iterator[Name]:
    """The names of a node and of all below it, in the order of the text."""
    behind = tree.behind(node)
    rules, depths = tree.rules, tree.depths[node:behind].tolist()
    # the node last seen at each depth, and the one that has read a name last
    seen: List[int] = [0] * (max(depths) + 1)
    reader = -1
    for at, (rule, depth) in enumerate(zip(rules[node:behind].tolist(), depths), node):
        seen[depth] = at
        if rule == IDENTIFIER:
            above = seen[depth - 1]
            roles = LATER_ROLES if above == reader else FIRST_ROLES
            reader = above
            yield Name(roles[rules[above]], made(tree, at))
