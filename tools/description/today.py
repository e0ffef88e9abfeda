"""Today's grammar of WebIDL, rule by rule, behind weedle2's.

Its rules have numbers above those of weedle2's, and read weedle2's trivia, symbols, keywords, names and literals. No rule
of weedle2's reads one of these. What weedle2's `DEFINITIONS` reads whole, `TODAY_DEFINITIONS` reads whole too, and more.

Members and definitions are factored from the left: docstrings, then extended attributes, then of which kind it is. So a
descent without a memo reads the attributes of a member once, where weedle2's rows read them again for each kind.
"""

from description import webidl
from description.rules import SECTIONS, bracketed, first, many, may_be_null, opt, punctuated, rule, section, seq, text_bytes
from description.webidl import TERMINAL_TYPES, keyword

# What the grammar is asked for, too.
__all__ = "NUMBER RULES SECTIONS".split()

# Words that weedle2 lacks. A keyword's text is what stands behind the name.
WORDS = {
    "BigInt": "bigint",
    "AsyncIterableWord": "async_iterable",
    "AsyncSequence": "async_sequence",
    "ObservableArray": "ObservableArray",
    "Float16Array": "Float16Array",
    "BigInt64Array": "BigInt64Array",
    "BigUint64Array": "BigUint64Array",
    "SharedArrayBuffer": "SharedArrayBuffer",
}
NAME, END = "IDENTIFIER", "SEMI_COLON"
DOCS, ATTRS, TYPE, ATTRIBUTED = "TODAY_DOCS", "TODAY_ATTRIBUTE_LISTS", "TODAY_TYPE", "TODAY_ATTRIBUTED_TYPE"

section("TodayWords", "Words, a symbol, literals and docstrings of today's WebIDL.")
seq("ASTERISK", "TRIVIA", text_bytes("*", "ASTERISK"), "TRIVIA", shape="Marked", doc="The symbol `*`.")
for name, text in WORDS.items():
    keyword(name, text)
seq("TODAY_DOC", "TRIVIA", "DOCSTRING", doc="A docstring, with comments and whitespace in front.")
many("TODAY_DOCS", "TODAY_DOC", doc="Docstrings, none included, with comments between them.")
seq("TODAY_LAST_DOC", "TRIVIA", "BYTES_THREE_SLASHES", "RUN_NOT_LINE_FEED", shape="Marked",
    doc="A docstring's line that the text ends in.")
seq("TODAY_TRIVIA", "PIECE", shape="Marked", doc="A comment or whitespace that no definition follows.")
first("TODAY_DEFAULT_VALUE", "BOOLEAN_LIT", "EMPTY_ARRAY_LIT", "EMPTY_DICTIONARY_LIT", "FLOAT_LIT", "INTEGER_LIT", "NULL",
      "UNDEFINED", "STRING_LIT", doc="A default value, `undefined` included.")
seq("TODAY_DEFAULT", "ASSIGN", "TODAY_DEFAULT_VALUE", doc="A default, as `= 5`.")
opt("TODAY_DEFAULT")
first("TODAY_CONST_TYPE",
      *[may_be_null(x) for x in ("INTEGER_TYPE", "FLOATING_POINT_TYPE", "BOOLEAN", "BYTE", "OCTET", "BIG_INT", NAME)],
      doc="A constant's type, as `long`.")
bracketed("PARENTHESIZED", punctuated("STRING_LIT", "COMMA", "TODAY_STRING_LIST", 'Strings, as `"a", "b"`, none included.'),
          "PARENTHESIZED_TODAY_STRINGS")
first("TODAY_NUMBER", "FLOAT_LIT", "INTEGER_LIT", doc="A number.")
bracketed("PARENTHESIZED", punctuated("TODAY_NUMBER", "COMMA", "TODAY_NUMBER_LIST", "Numbers, as `2, 8`, none included."),
          "PARENTHESIZED_TODAY_NUMBERS")

section("TodayTypes", "Today's types, extended attributes and arguments, which read one another.")
bracketed("GENERICS", ATTRIBUTED)
for name, doc in {
    "SEQUENCE": "A sequence, as `sequence<[Clamp] octet>`.",
    "ASYNC_SEQUENCE": "An asynchronous sequence, as `async_sequence<long>`.",
    "FROZEN_ARRAY": "A frozen array, as `FrozenArray<long>`.",
    "OBSERVABLE_ARRAY": "An observable array, as `ObservableArray<Node>`.",
}.items():
    seq(f"TODAY_{name}_TYPE", name, f"GENERICS_{ATTRIBUTED}", doc=doc)
bracketed("GENERICS", TYPE)
seq("TODAY_PROMISE_TYPE", "PROMISE", f"GENERICS_{TYPE}", doc="A promise, as `Promise<undefined>`.")
bracketed("GENERICS", "TODAY_RECORD_TYPES")
seq("TODAY_RECORD_TYPE", "RECORD", "GENERICS_TODAY_RECORD_TYPES", doc="A record, as `record<DOMString, [Clamp] octet>`.")
bracketed("PARENTHESIZED", "LIST1_TODAY_UNION_MEMBER_TYPE_OR", "TODAY_UNION_TYPE", "A union, as `(long or DOMString)`.")
may_be_null("TODAY_UNION_TYPE")
first("TODAY_WORD_TYPE", "BIG_INT", "FLOAT16_ARRAY", "BIG_INT64_ARRAY", "BIG_UINT64_ARRAY", "SHARED_ARRAY_BUFFER",
      "UNDEFINED", doc="A word that is a type, and is none in weedle2's rules, as `bigint`.")
first("TODAY_GENERIC_TYPE", "TODAY_SEQUENCE_TYPE", "TODAY_ASYNC_SEQUENCE_TYPE", "TODAY_FROZEN_ARRAY_TYPE",
      "TODAY_OBSERVABLE_ARRAY_TYPE", "TODAY_RECORD_TYPE", doc="A type over others, as `sequence<long>`.")
first("TODAY_NON_ANY_TYPE", "TODAY_PROMISE_TYPE",
      *[may_be_null(x) for x in [
          "INTEGER_TYPE", "FLOATING_POINT_TYPE", *[x for x in TERMINAL_TYPES if x != "SEQUENCE_TYPE"],
          "TODAY_WORD_TYPE", "TODAY_GENERIC_TYPE", NAME]],
      doc="A type that is neither `any` nor a union, as `long?`.")
first("TODAY_KEY_TYPE", "BYTE_STRING", "DOM_STRING", "USV_STRING", "TODAY_NON_ANY_TYPE", doc="The type of a record's keys.")
seq("TODAY_RECORD_TYPES", "TODAY_KEY_TYPE", "COMMA", ATTRIBUTED, doc="A record's two types, as `DOMString, [Clamp] octet`.")
first(TYPE, "ANY", "TODAY_NON_ANY_TYPE", "MAY_BE_NULL_TODAY_UNION_TYPE", doc="A type.")
bracketed("BRACKETED", "LIST_TODAY_ATTRIBUTE_COMMA", "TODAY_ATTRIBUTES", "Extended attributes, as `[Clamp, Exposed=*]`.")
many(ATTRS, "TODAY_ATTRIBUTES", doc="Lists of extended attributes, none included.")
seq(ATTRIBUTED, ATTRS, TYPE, doc="A type with extended attributes, as `[Clamp] long`.")
seq("TODAY_ATTRIBUTED_NON_ANY_TYPE", ATTRS, "TODAY_NON_ANY_TYPE",
    doc="A type that is neither `any` nor a union, with extended attributes.")
first("TODAY_UNION_MEMBER_TYPE", "TODAY_ATTRIBUTED_NON_ANY_TYPE", "MAY_BE_NULL_TODAY_UNION_TYPE", doc="A member of a union.")
rule("TAIL_TODAY_UNION_MEMBER_TYPE_OR", ("Tail", "TODAY_UNION_MEMBER_TYPE", "OR"))
rule("LIST1_TODAY_UNION_MEMBER_TYPE_OR", ("List", "TODAY_UNION_MEMBER_TYPE", "TAIL_TODAY_UNION_MEMBER_TYPE_OR"))
seq("TODAY_OPTIONAL_ARGUMENT", "OPTIONAL", ATTRIBUTED, NAME, "OPT_TODAY_DEFAULT",
    doc="An argument that may be left out, as `optional long x = 5`, behind its attributes.")
opt("ELLIPSIS")
seq("TODAY_REQUIRED_ARGUMENT", TYPE, "OPT_ELLIPSIS", NAME, doc="As `long x`, or `long... x`, behind its attributes.")
first("TODAY_ARGUMENT_KIND", "TODAY_OPTIONAL_ARGUMENT", "TODAY_REQUIRED_ARGUMENT", doc="An argument behind its attributes.")
seq("TODAY_ARGUMENT", ATTRS, "TODAY_ARGUMENT_KIND", doc="An argument.")
punctuated("TODAY_ARGUMENT", "COMMA", "TODAY_ARGUMENT_LIST", "Arguments, none included.")
ARGS = bracketed("PARENTHESIZED", "TODAY_ARGUMENT_LIST", "TODAY_ARGUMENTS")
seq("TODAY_ATTRIBUTE_ARG_LIST", NAME, ARGS, doc="An extended attribute with arguments, as `LegacyFactory(long x)`.")
seq("TODAY_ATTRIBUTE_NAMED_ARG_LIST", NAME, "ASSIGN", NAME, ARGS, doc="As `LegacyFactoryFunction=Image(long x)`.")
seq("TODAY_ATTRIBUTE_WILDCARD", NAME, "ASSIGN", "ASTERISK", doc="As `Exposed=*`.")
seq("TODAY_ATTRIBUTE_NUMBER", NAME, "ASSIGN", "TODAY_NUMBER", doc="As `ReflectDefault=2`.")
seq("TODAY_ATTRIBUTE_STRINGS", NAME, "ASSIGN", "PARENTHESIZED_TODAY_STRINGS", doc='As `A=("a", "b")`.')
seq("TODAY_ATTRIBUTE_NUMBERS", NAME, "ASSIGN", "PARENTHESIZED_TODAY_NUMBERS", doc="As `ReflectRange=(2, 8)`.")
first("TODAY_ATTRIBUTE", "TODAY_ATTRIBUTE_ARG_LIST", "TODAY_ATTRIBUTE_NAMED_ARG_LIST", "EXTENDED_ATTRIBUTE_IDENT_LIST",
      "TODAY_ATTRIBUTE_WILDCARD", "TODAY_ATTRIBUTE_STRINGS", "TODAY_ATTRIBUTE_NUMBERS", "TODAY_ATTRIBUTE_NUMBER",
      "EXTENDED_ATTRIBUTE_IDENT", "EXTENDED_ATTRIBUTE_NO_ARGS", doc="An extended attribute.")
punctuated("TODAY_ATTRIBUTE", "COMMA")


def kinds(name, what, *each):
    """What has docstrings and extended attributes in front, and then one of these."""
    first(f"{name}_KIND", *each, doc=f"{what}, behind its docstrings and attributes.")
    seq(name, DOCS, ATTRS, f"{name}_KIND", doc=f"{what}.")


section("TodayMembers", "Today's members: docstrings and extended attributes, and then of which kind it is.")
seq("TODAY_KEY_AND_VALUE_TYPES", ATTRIBUTED, "COMMA", ATTRIBUTED)
bracketed("GENERICS", "TODAY_KEY_AND_VALUE_TYPES")
seq("TODAY_SECOND_TYPE", "COMMA", ATTRIBUTED, doc="The second type of what is iterated.")
seq("TODAY_ITERATED", "LESS_THAN", ATTRIBUTED, opt("TODAY_SECOND_TYPE"), "GREATER_THAN",
    doc="What is iterated: one type, or two, as `<DOMString, long>`.")
seq("TODAY_CONST", "CONST", "TODAY_CONST_TYPE", NAME, "ASSIGN", "CONST_VALUE", END, doc="A constant, as `const long X = 5;`.")
seq("TODAY_ATTRIBUTE_MEMBER", "OPT_STRINGIFIER_OR_INHERIT_OR_STATIC", "OPT_READ_ONLY", "ATTRIBUTE", ATTRIBUTED, NAME, END,
    doc="An attribute, as `readonly attribute long x;`.")
seq("TODAY_CONSTRUCTOR", "CONSTRUCTOR", ARGS, END, doc="A constructor, as `constructor(long x);`.")
seq("TODAY_OPERATION", "OPT_STRINGIFIER_OR_STATIC", "OPT_SPECIAL", TYPE, "OPT_IDENTIFIER", ARGS, END,
    doc="An operation, as `undefined f(long x);`.")
seq("TODAY_ITERABLE", "ITERABLE", "TODAY_ITERATED", END, doc="As `iterable<long>;`.")
first("TODAY_ASYNC_WORDS", "ASYNC_ITERABLE_WORD", "ASYNC_ITERABLE", doc="`async_iterable`, or the older `async iterable`.")
seq("TODAY_ASYNC_ITERABLE", "TODAY_ASYNC_WORDS", "TODAY_ITERATED", opt(ARGS), END, doc="As `async_iterable<long>;`.")
seq("TODAY_MAPLIKE", "OPT_READ_ONLY", "MAPLIKE", "GENERICS_TODAY_KEY_AND_VALUE_TYPES", END, doc="As `maplike<DOMString, long>;`.")
seq("TODAY_SETLIKE", "OPT_READ_ONLY", "SETLIKE", f"GENERICS_{ATTRIBUTED}", END, doc="As `setlike<long>;`.")
seq("TODAY_STRINGIFIER", "STRINGIFIER", END, doc="`stringifier;`.")
kinds("TODAY_INTERFACE_MEMBER", "A member of an interface", "TODAY_CONST", "TODAY_ATTRIBUTE_MEMBER", "TODAY_CONSTRUCTOR",
      "TODAY_OPERATION", "TODAY_ITERABLE", "TODAY_ASYNC_ITERABLE", "TODAY_MAPLIKE", "TODAY_SETLIKE", "TODAY_STRINGIFIER")
seq("TODAY_MIXIN_OPERATION", "OPT_STRINGIFIER", TYPE, "OPT_IDENTIFIER", ARGS, END, doc="An operation of a mixin.")
seq("TODAY_MIXIN_ATTRIBUTE", "OPT_STRINGIFIER", "OPT_READ_ONLY", "ATTRIBUTE", ATTRIBUTED, NAME, END, doc="An attribute of a mixin.")
kinds("TODAY_MIXIN_MEMBER", "A member of a mixin", "TODAY_CONST", "TODAY_MIXIN_OPERATION", "TODAY_MIXIN_ATTRIBUTE",
      "TODAY_STRINGIFIER")
seq("TODAY_NAMESPACE_OPERATION", TYPE, "OPT_IDENTIFIER", ARGS, END, doc="An operation of a namespace.")
seq("TODAY_NAMESPACE_ATTRIBUTE", "READ_ONLY", "ATTRIBUTE", ATTRIBUTED, NAME, END, doc="An attribute of a namespace.")
kinds("TODAY_NAMESPACE_MEMBER", "A member of a namespace", "TODAY_CONST", "TODAY_NAMESPACE_OPERATION",
      "TODAY_NAMESPACE_ATTRIBUTE")
seq("TODAY_DICTIONARY_MEMBER", DOCS, ATTRS, "OPT_REQUIRED", ATTRIBUTED, NAME, "OPT_TODAY_DEFAULT", END,
    doc="A member of a dictionary, as `required [Clamp] long x;`.")
seq("TODAY_ENUM_VALUE", DOCS, "STRING_LIT", doc='A value of an enum, as `"a"`.')
rule("TAIL_TODAY_ENUM_VALUE_COMMA", ("Tail", "TODAY_ENUM_VALUE", "COMMA"))
rule("LIST1_TODAY_ENUM_VALUE_COMMA", ("List1", "TODAY_ENUM_VALUE", "TAIL_TODAY_ENUM_VALUE_COMMA"))
for name, what in {"INTERFACE": "an interface", "MIXIN": "a mixin", "NAMESPACE": "a namespace", "DICTIONARY": "a dictionary"}.items():
    many(f"TODAY_{name}_MEMBERS", f"TODAY_{name}_MEMBER", doc=f"The members of {what}, none included.")
    seq(f"BRACED_TODAY_{name}_MEMBERS", "OPEN_BRACE", f"TODAY_{name}_MEMBERS", DOCS, "CLOSE_BRACE")
seq("BRACED_TODAY_ENUM_VALUES", "OPEN_BRACE", "LIST1_TODAY_ENUM_VALUE_COMMA", "OPT_COMMA", DOCS, "CLOSE_BRACE")
INTERFACE, MIXIN, NAMESPACE, DICTIONARY = (
    f"BRACED_TODAY_{it}_MEMBERS" for it in ("INTERFACE", "MIXIN", "NAMESPACE", "DICTIONARY"))

section("TodayDefinitions", "Today's definitions.")
seq("TODAY_CALLBACK", "CALLBACK", NAME, "ASSIGN", TYPE, ARGS, END, doc="A callback, as `callback F = undefined (long x);`.")
seq("TODAY_CALLBACK_INTERFACE", "CALLBACK", "INTERFACE", NAME, "OPT_INHERITANCE", INTERFACE, END,
    doc="A callback interface, as `callback interface A {};`.")
seq("TODAY_INTERFACE", "INTERFACE", NAME, "OPT_INHERITANCE", INTERFACE, END, doc="An interface, as `interface A : B {};`.")
seq("TODAY_MIXIN", "INTERFACE", "MIXIN", NAME, MIXIN, END, doc="A mixin, as `interface mixin A {};`.")
seq("TODAY_NAMESPACE", "NAMESPACE", NAME, NAMESPACE, END, doc="A namespace, as `namespace A {};`.")
seq("TODAY_DICTIONARY", "DICTIONARY", NAME, "OPT_INHERITANCE", DICTIONARY, END, doc="A dictionary, as `dictionary A : B {};`.")
seq("TODAY_PARTIAL_INTERFACE", "PARTIAL", "INTERFACE", NAME, INTERFACE, END, doc="A part of an interface.")
seq("TODAY_PARTIAL_MIXIN", "PARTIAL", "INTERFACE", "MIXIN", NAME, MIXIN, END, doc="A part of a mixin.")
seq("TODAY_PARTIAL_DICTIONARY", "PARTIAL", "DICTIONARY", NAME, DICTIONARY, END, doc="A part of a dictionary.")
seq("TODAY_PARTIAL_NAMESPACE", "PARTIAL", "NAMESPACE", NAME, NAMESPACE, END, doc="A part of a namespace.")
seq("TODAY_ENUM", "ENUM", NAME, "BRACED_TODAY_ENUM_VALUES", END, doc='An enum, as `enum A {"a"};`.')
seq("TODAY_TYPEDEF", "TYPEDEF", ATTRIBUTED, NAME, END, doc="A name for a type, as `typedef long A;`.")
seq("TODAY_INCLUDES", NAME, "INCLUDES", NAME, END, doc="The use of a mixin, as `A includes B;`.")
seq("TODAY_IMPLEMENTS", NAME, "IMPLEMENTS", NAME, END, doc="The older form of it, as `A implements B;`.")
kinds("TODAY_DEFINITION", "A definition", "TODAY_CALLBACK", "TODAY_CALLBACK_INTERFACE", "TODAY_INTERFACE", "TODAY_MIXIN",
      "TODAY_NAMESPACE", "TODAY_DICTIONARY", "TODAY_PARTIAL_INTERFACE", "TODAY_PARTIAL_MIXIN", "TODAY_PARTIAL_DICTIONARY",
      "TODAY_PARTIAL_NAMESPACE", "TODAY_ENUM", "TODAY_TYPEDEF", "TODAY_INCLUDES", "TODAY_IMPLEMENTS")
first("TODAY_PIECE", "TODAY_DEFINITION", "TODAY_DOC", "TODAY_LAST_DOC", "TODAY_TRIVIA", doc="A definition, or what none follows.")
many("TODAY_DEFINITIONS", "TODAY_PIECE", doc="The whole of a text by today's grammar.")

# All rules, weedle2's first.
RULES = [r for s in SECTIONS for r in s.rules]
NUMBER = {r.name: i for i, r in enumerate(RULES)}
assert [r.name for r in RULES[:len(webidl.RULES)]] == [r.name for r in webidl.RULES]
