"""The types of today's tree: which rule gives values of which type, and what their parts are called.

Types, fields and variants have the names that weedle2 has for the same thing, and its docs where nothing is said here. A
rule that is no type of its own gives what its row says: a list, what may be absent, what is between brackets. Rules of
weedle2's that today's cite give weedle2's types.

Members, definitions and arguments are factored rows: docstrings, extended attributes, and then of which kind it is. Such
a rule gives a variant of its enum, and each kind a struct, which has the docstrings and the attributes as its first fields.
"""

from typing import Iterator, NamedTuple

from description.names import upper
from description.today import RULES, WORDS

__all__ = "ALIASES DOCS ENUMS FACTORED FRONT LAST_DOC RULE STRUCTS TERMINALS WORDS Enum Field Struct".split()


class Field(NamedTuple):
    """A part of a struct: its name, the rule that reads it, and a doc where weedle2's isn't meant."""

    name: str
    rule: str
    doc: str = ""


class Struct(NamedTuple):
    """A type with fields: its name, the rule that has their parts, and its doc."""

    name: str
    rule: str
    doc: str
    fields: tuple[Field, ...]


class Enum(NamedTuple):
    """A type with variants: its name, its doc, and each variant's name with the rule that is chosen."""

    name: str
    doc: str
    variants: tuple[tuple[str, str], ...]


# What a factored row has in front of the kind, as fields of each kind.
FRONT = {
    "TODAY_DOCS": ("docstrings", "The docstrings in front, none included."),
    "TODAY_ATTRIBUTE_LISTS": (
        "attributes", "The lists of extended attributes in front, each in brackets, as `[Exposed=*]`, none included."),
}
# Terminals that weedle2 lacks, and the docstring without a line end at the end of a text.
TERMINALS = {upper(name): name for name in ("Asterisk", *WORDS)}
LAST_DOC = ("TODAY_LAST_DOC", "LastDocstring")

# What fields are of which weedle2 says nothing, by their names or by the struct's and theirs.
DOCS = {
    "docstrings": FRONT["TODAY_DOCS"][1],
    "attributes": FRONT["TODAY_ATTRIBUTE_LISTS"][1],
    "Braced.docstrings": "The docstrings in front of the `}`, behind the last member, none included.",
    "BracedEnumValues.docstrings": "The docstrings in front of the `}`, behind the last value, none included.",
    "BracedEnumValues.body": "The values, one at least.",
    "BracedEnumValues.comma": "The `,` behind the last value, where present.",
    "AttributedType.attributes": "The lists of extended attributes, each in brackets, as `[Clamp]`, none included.",
    "AttributedNonAnyType.attributes": "The lists of extended attributes, each in brackets, as `[Clamp]`, none included.",
    "DictionaryMember.type_": "Its type, as `long`, with the extended attributes before it.",
    "OptionalArgument.optional": "The word `optional`.",
    "OptionalArgument.type_": "Its type, as `long`, with the extended attributes before it.",
    "OptionalArgument.default": "Its default, as `= 5`, where present.",
    "RequiredArgument.type_": "Its type, as `long`.",
    "RequiredArgument.ellipsis": "The `...` of any number of arguments, where present.",
    "AsyncSequenceType.async_sequence": "The word `async_sequence`.",
    "ObservableArrayType.observable_array": "The word `ObservableArray`.",
    "generics": "The type, or the types, in angle brackets, as `<long>`.",
    "Iterated.open_angle": "The `<`.",
    "Iterated.type_": "The first type, as `long`, or the only one.",
    "Iterated.second": "The second type with the `,` in front, as `, long`, where there are two.",
    "Iterated.close_angle": "The `>`.",
    "SecondType.comma": "The `,`.",
    "SecondType.type_": "The type, as `long`.",
    "async_iterable": "The word `async_iterable`, or the words `async` and `iterable`.",
    "args": "The arguments between parentheses, as `(long x)`, where present.",
    "ExtendedAttributeWildcard.asterisk": "The `*`.",
    "ExtendedAttributeNumber.number": "The number behind the `=`.",
    "ExtendedAttributeStrings.list": "The strings behind the `=`, between parentheses.",
    "ExtendedAttributeNumbers.list": "The numbers behind the `=`, between parentheses.",
    "identifier": "Its name.",
    "assign": "The `=`.",
    "iterable": "The word `iterable`.",
    "maplike": "The word `maplike`.",
    "setlike": "The word `setlike`.",
    "semi_colon": "The `;` at the end.",
    "BracedEnumValues": 'The values of an enum in braces, as `{"a", "b",}`, with docstrings in front of the `}`.',
    "OptionalArgument": "An argument that may be left out, as `optional long x = 5`.",
    "RequiredArgument": "An argument that has to be given, as `long x`, or any number of them, as `long... xs`.",
    "ExtendedAttributeNamedArgList": "An extended attribute with a name and arguments, as `LegacyFactoryFunction=Image(long x)`.",
    "ExtendedAttributeWildcard": "An extended attribute with a `*`, as `Exposed=*`.",
    "ExtendedAttributeNumber": "An extended attribute with a number, as `ReflectDefault=2`.",
    "ExtendedAttributeStrings": 'An extended attribute with strings, as `A=("a", "b")`.',
    "ExtendedAttributeNumbers": "An extended attribute with numbers, as `ReflectRange=(2, 8)`.",
    "SecondType": "The second type of what is iterated, as `, long`.",
    "Iterated": "What is iterated, one type or two, as `<DOMString, long>`.",
    "IterableInterfaceMember": "An iteration, as `iterable<long>;`.",
    "AsyncIterableInterfaceMember": "An asynchronous iteration, as `async_iterable<long>;`.",
    "MaplikeInterfaceMember": "A map, as `maplike<DOMString, long>;`.",
    "SetlikeInterfaceMember": "A set, as `setlike<long>;`.",
    "StringifierMember": "A stringifier, as `stringifier;`.",
    "AsyncWords.One": "The word `async_iterable`.",
    "AsyncWords.Two": "The words `async iterable`, as older texts have them.",
    "NonAnyType.Promise": "`Promise<type>`.",
    "RecordKeyType.NonAny": "Another type that is neither `any` nor a union, as `long`.",
    "Type.Any": "The word `any`.",
    "Type.NonAny": "Any other type that is no union, as `long?`.",
}
# A struct's rule, its name where it isn't the rule's, and the names of its fields in their order.
TABLE = """
    TODAY_DEFAULT Default: assign value
    TODAY_SEQUENCE_TYPE SequenceType: sequence generics
    TODAY_ASYNC_SEQUENCE_TYPE AsyncSequenceType: async_sequence generics
    TODAY_FROZEN_ARRAY_TYPE FrozenArrayType: frozen_array generics
    TODAY_OBSERVABLE_ARRAY_TYPE ObservableArrayType: observable_array generics
    TODAY_PROMISE_TYPE PromiseType: promise generics
    TODAY_RECORD_TYPE RecordType: record_ generics
    TODAY_ATTRIBUTED_TYPE AttributedType: attributes type_
    TODAY_ATTRIBUTED_NON_ANY_TYPE AttributedNonAnyType: attributes type_
    TODAY_OPTIONAL_ARGUMENT OptionalArgument: optional type_ identifier default
    TODAY_REQUIRED_ARGUMENT RequiredArgument: type_ ellipsis identifier
    TODAY_ATTRIBUTE_ARG_LIST ExtendedAttributeArgList: identifier args
    TODAY_ATTRIBUTE_NAMED_ARG_LIST ExtendedAttributeNamedArgList: lhs_identifier assign rhs_identifier args
    TODAY_ATTRIBUTE_WILDCARD ExtendedAttributeWildcard: identifier assign asterisk
    TODAY_ATTRIBUTE_NUMBER ExtendedAttributeNumber: identifier assign number
    TODAY_ATTRIBUTE_STRINGS ExtendedAttributeStrings: identifier assign list
    TODAY_ATTRIBUTE_NUMBERS ExtendedAttributeNumbers: identifier assign list
    TODAY_SECOND_TYPE SecondType: comma type_
    TODAY_ITERATED Iterated: open_angle type_ second close_angle
    TODAY_CONST ConstMember: const_ const_type identifier assign const_value semi_colon
    TODAY_ATTRIBUTE_MEMBER AttributeInterfaceMember: modifier readonly attribute type_ identifier semi_colon
    TODAY_CONSTRUCTOR ConstructorInterfaceMember: constructor args semi_colon
    TODAY_OPERATION OperationInterfaceMember: modifier special return_type identifier args semi_colon
    TODAY_ITERABLE IterableInterfaceMember: iterable generics semi_colon
    TODAY_ASYNC_ITERABLE AsyncIterableInterfaceMember: async_iterable generics args semi_colon
    TODAY_MAPLIKE MaplikeInterfaceMember: readonly maplike generics semi_colon
    TODAY_SETLIKE SetlikeInterfaceMember: readonly setlike generics semi_colon
    TODAY_STRINGIFIER StringifierMember: stringifier semi_colon
    TODAY_MIXIN_OPERATION OperationMixinMember: stringifier return_type identifier args semi_colon
    TODAY_MIXIN_ATTRIBUTE AttributeMixinMember: stringifier readonly attribute type_ identifier semi_colon
    TODAY_NAMESPACE_OPERATION OperationNamespaceMember: return_type identifier args semi_colon
    TODAY_NAMESPACE_ATTRIBUTE AttributeNamespaceMember: readonly attribute type_ identifier semi_colon
    TODAY_DICTIONARY_MEMBER DictionaryMember: docstrings attributes required type_ identifier default semi_colon
    TODAY_ENUM_VALUE EnumVariant: docstrings value
    BRACED_TODAY_ENUM_VALUES BracedEnumValues: open_brace body comma docstrings close_brace
    TODAY_CALLBACK CallbackDefinition: callback identifier assign return_type arguments semi_colon
    TODAY_CALLBACK_INTERFACE CallbackInterfaceDefinition: callback interface identifier inheritance members semi_colon
    TODAY_INTERFACE InterfaceDefinition: interface identifier inheritance members semi_colon
    TODAY_MIXIN InterfaceMixinDefinition: interface mixin identifier members semi_colon
    TODAY_NAMESPACE NamespaceDefinition: namespace identifier members semi_colon
    TODAY_DICTIONARY DictionaryDefinition: dictionary identifier inheritance members semi_colon
    TODAY_PARTIAL_INTERFACE PartialInterfaceDefinition: partial interface identifier members semi_colon
    TODAY_PARTIAL_MIXIN PartialInterfaceMixinDefinition: partial interface mixin identifier members semi_colon
    TODAY_PARTIAL_DICTIONARY PartialDictionaryDefinition: partial dictionary identifier members semi_colon
    TODAY_PARTIAL_NAMESPACE PartialNamespaceDefinition: partial namespace identifier members semi_colon
    TODAY_ENUM EnumDefinition: enum_ identifier values semi_colon
    TODAY_TYPEDEF TypedefDefinition: typedef type_ identifier semi_colon
    TODAY_INCLUDES IncludesStatementDefinition: lhs_identifier includes rhs_identifier semi_colon
    TODAY_IMPLEMENTS ImplementsDefinition: lhs_identifier includes rhs_identifier semi_colon
"""
# An enum's rule, its name, and the names of its variants in the order of the rule's alternatives.
CHOICES = {
    "TODAY_DEFAULT_VALUE": "DefaultValue: Boolean EmptyArray EmptyDictionary Float Integer Null Undefined String",
    "TODAY_CONST_TYPE": "ConstType: Integer FloatingPoint Boolean Byte Octet BigInt Identifier",
    "TODAY_NUMBER": "Number: Float Integer",
    "TODAY_WORD_TYPE": "WordType: BigInt Float16Array BigInt64Array BigUint64Array SharedArrayBuffer Undefined",
    "TODAY_GENERIC_TYPE": "GenericType: Sequence AsyncSequence FrozenArray ObservableArray Record",
    "TODAY_NON_ANY_TYPE": "NonAnyType: Promise Integer FloatingPoint Boolean Byte Octet ByteString DOMString USVString Object "
    "Symbol Error ArrayBuffer DataView Int8Array Int16Array Int32Array Uint8Array Uint16Array Uint32Array Uint8ClampedArray "
    "Float32Array Float64Array ArrayBufferView BufferSource Word Generic Identifier",
    "TODAY_KEY_TYPE": "RecordKeyType: Byte DOM USV NonAny",
    "TODAY_TYPE": "Type: Any NonAny Union",
    "TODAY_UNION_MEMBER_TYPE": "UnionMemberType: Single Union",
    "TODAY_ATTRIBUTE": "ExtendedAttribute: ArgList NamedArgList IdentList Wildcard Strings Numbers Number Ident NoArgs",
    "TODAY_ASYNC_WORDS": "AsyncWords: One Two",
}
# The same of factored rules, with the docs of the enums.
KINDS = {
    "TODAY_ARGUMENT": "Argument: Optional Required",
    "TODAY_INTERFACE_MEMBER": "InterfaceMember: Const Attribute Constructor Operation Iterable AsyncIterable Maplike Setlike "
    "Stringifier",
    "TODAY_MIXIN_MEMBER": "MixinMember: Const Operation Attribute Stringifier",
    "TODAY_NAMESPACE_MEMBER": "NamespaceMember: Const Operation Attribute",
    "TODAY_DEFINITION": "Definition: Callback CallbackInterface Interface InterfaceMixin Namespace Dictionary PartialInterface "
    "PartialInterfaceMixin PartialDictionary PartialNamespace Enum Typedef IncludesStatement Implements",
}
# Names of types that are made of others, in the order in which Python can make them.
ALIASES = {
    "ExtendedAttributeList": "TODAY_ATTRIBUTES", "ArgumentList": "TODAY_ARGUMENT_LIST", "UnionType": "TODAY_UNION_TYPE",
    "InterfaceMembers": "TODAY_INTERFACE_MEMBERS", "MixinMembers": "TODAY_MIXIN_MEMBERS",
    "NamespaceMembers": "TODAY_NAMESPACE_MEMBERS", "DictionaryMembers": "TODAY_DICTIONARY_MEMBERS",
}


def parts_of(rule: str) -> tuple[str, ...]:
    """The rules that a row reads one after another, or one of which it reads."""
    found: tuple[str, ...] = RULE[rule].row[1]
    return found


def doc_of(rule: str) -> str:
    """What the grammar says of a rule."""
    found: str = RULE[rule].doc or ""
    return found


def named(text: str) -> tuple[str, list[str]]:
    """A name, and the names behind its colon."""
    name, _, others = text.partition(": ")
    return name, others.split()


def field_doc(struct: str, name: str) -> str:
    """What is said here of a field; nothing where weedle2's doc is meant."""
    return DOCS.get(f"{struct}.{name}", "")


def structs() -> Iterator[tuple[str, Struct]]:
    """Each struct by its rule, without what a factored row has in front."""
    for line in TABLE.strip().splitlines():
        rule, _, rest = line.strip().partition(" ")
        name, names = named(rest)
        parts = parts_of(rule)
        if len(parts) != len(names):
            raise ValueError(f"{rule} reads {len(parts)} parts, and {name} has {len(names)} fields")
        fields = tuple(Field(it, part, field_doc(name, it)) for it, part in zip(names, parts))
        yield rule, Struct(name, rule, doc_of(rule), fields)


def enum(rule: str, text: str, chosen: str) -> Enum:
    """The enum of a rule whose alternatives are those of `chosen`."""
    name, names = named(text)
    parts = parts_of(chosen)
    if len(parts) != len(names):
        raise ValueError(f"{chosen} has {len(parts)} alternatives, and {name} {len(names)} variants")
    return Enum(name, doc_of(rule), tuple(zip(names, parts)))


def front_of(rule: str) -> tuple[Field, ...]:
    """The fields that a factored row has in front of its kinds."""
    return tuple(Field(FRONT[part][0], part, FRONT[part][1]) for part in parts_of(rule)[:-1])


# All rules, by their names.
RULE = {it.name: it for it in RULES}
STRUCTS = dict(structs())
ENUMS = {rule: enum(rule, text, rule) for rule, text in CHOICES.items()}
# A factored rule: its enum, and what is in front.
FACTORED = {rule: (enum(rule, text, f"{rule}_KIND"), front_of(rule)) for rule, text in KINDS.items()}
