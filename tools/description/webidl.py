"""The grammar of WebIDL, rule by rule.

A rule is written once, in a section, above the rules that read it before a byte is taken: its
number is its place in that order.
"""

from description.names import upper
from description.rules import (
    BY_CONTENT, BY_NAME, SECTIONS, bracketed, first, many, may_be_null, not_next, one_of, opt, parts_of, past,
    punctuated, rule, run, section, seq, text_bytes,
)

# What the grammar is asked for, too.
__all__ = "BY_CONTENT BY_NAME CAPITALIZED KEYWORDS NUMBER RULES SCANNED SECTIONS SYMBOLS parts_of".split()

# Trivia.
section("Trivia", "Trivia: line comments, whitespace and block comments.")
first("LINE_END", text_bytes("\n"), not_next("Any"), shape="Silent", doc="An LF, or the end of the text.")
seq("LINE_COMMENT", text_bytes("//"), not_next("Slash"), run("NotLineFeed"), "LINE_END", shape="Silent",
    doc="A line comment, as `// c`, with its LF where the text doesn't end before it.")
seq("BLANKS", one_of("Blank"), run("Blank"), shape="Silent", doc="Spaces, tabs, CRs and LFs, one at least.")
seq("BLOCK_COMMENT", text_bytes("/*"), past("*/"), shape="Silent", doc="A block comment, as `/* c */`.")
first("PIECE", "LINE_COMMENT", "BLANKS", "BLOCK_COMMENT", shape="Silent", doc="A comment or whitespace.")
many("TRIVIA", "PIECE", shape="Silent", doc="Comments and whitespace, none included.")

# Terminals.
def texts_of(names):
    """The texts of keywords, by their names."""
    pairs = (it.partition("=") for it in names.split())
    return {name: text or name.lower() for name, _, text in pairs}


SYMBOLS = [
    ("OpenParen", "("), ("CloseParen", ")"), ("OpenBracket", "["), ("CloseBracket", "]"), ("OpenBrace", "{"),
    ("CloseBrace", "}"), ("Comma", ","), ("Minus", "-"), ("Dot", "."), ("Ellipsis", "..."), ("Colon", ":"),
    ("SemiColon", ";"), ("LessThan", "<"), ("Assign", "="), ("GreaterThan", ">"), ("QMark", "?"),
]
# A keyword's text is its name in small letters, or what stands behind a `=`.
KEYWORDS = texts_of(
    "Or Optional Async Attribute Callback Const Deleter Dictionary Enum Getter Includes Inherit Interface Iterable "
    "Maplike Namespace Partial Required Setlike Setter Static Stringifier Typedef Unrestricted Symbol Any Boolean "
    "Byte Double False Float Long Null Object Octet Sequence Short True Unsigned Undefined Record ReadOnly Mixin "
    "Implements LegacyCaller Constructor"
)
CAPITALIZED = (
    "ByteString DOMString FrozenArray Infinity NaN USVString ArrayBuffer DataView Int8Array Int16Array Int32Array "
    "Uint8Array Uint16Array Uint32Array Uint8ClampedArray Float32Array Float64Array ArrayBufferView BufferSource "
    "Promise Error"
).split()

section("Symbols", "Symbols: trivia, the symbol's bytes, trivia.")
for name, text in SYMBOLS:
    seq(upper(name), "TRIVIA", text_bytes(text, upper(name)), "TRIVIA", shape="Marked", doc=f"The symbol `{text}`.")


def keyword(name, text):
    seq(upper(name), "TRIVIA", text_bytes(text, upper(name)), not_next("Name"), "TRIVIA", shape="Marked", doc=f"The keyword `{text}`.")


section("Keywords", "Keywords in lower case: trivia, the keyword's bytes with no name character next, trivia.")
for name, text in KEYWORDS.items():
    keyword(name, text)

section("CapitalizedKeywords", "Keywords with capitals: trivia, the keyword's bytes with no name character next, trivia.")
for name in CAPITALIZED:
    keyword(name, name)
keyword("NegInfinity", "-Infinity")

# Leaves.
section("Leaves", "Leaves: names, numbers, strings and docstrings.")
seq("IDENTIFIER", "TRIVIA", opt(text_bytes("_"), "Silent"),
    seq("IDENTIFIER_TEXT", one_of("Letter"), run("Name"), shape="Silent"), "TRIVIA", shape="Kept 2",
    doc="A name, as `_interface`, whose underscore is dropped.")
opt("BYTES_MINUS", "Silent")
seq("DEC_LIT", "TRIVIA", seq("DEC_LIT_TEXT", "OPT_BYTES_MINUS", one_of("OneToNine"), run("Digit"), shape="Silent"), "TRIVIA",
    shape="Kept 1", doc="A decimal integer, as `-12`.")
seq("HEX_LIT", "TRIVIA",
    seq("HEX_LIT_TEXT", "OPT_BYTES_MINUS", text_bytes("0"), one_of("XLetter"), one_of("Hex"), run("Hex"), shape="Silent"),
    "TRIVIA", shape="Kept 1", doc="A hexadecimal integer, as `0x1F`.")
seq("OCT_LIT", "TRIVIA", seq("OCT_LIT_TEXT", "OPT_BYTES_MINUS", "BYTES_ZERO", run("Octal"), shape="Silent"), "TRIVIA",
    shape="Kept 1", doc="An octal integer, as `017`.")
seq("DIGITS", one_of("Digit"), run("Digit"), shape="Silent", doc="Digits, one at least.")
seq("EXPONENT", one_of("ELetter"), opt(one_of("Sign"), "Silent"), "DIGITS", shape="Silent", doc="An exponent, as `e+3`.")
seq("POINT_AFTER_DIGITS", "DIGITS", "BYTES_DOT", run("Digit"), shape="Silent")
seq("POINT_BEFORE_DIGITS", run("Digit"), "BYTES_DOT", "DIGITS", shape="Silent")
first("POINT", "POINT_AFTER_DIGITS", "POINT_BEFORE_DIGITS", shape="Silent", doc="Digits with a point among them, as `1.5` or `.5`.")
seq("POINT_FORM", "POINT", opt("EXPONENT", "Silent"), shape="Silent")
seq("EXPONENT_FORM", "DIGITS", "EXPONENT", shape="Silent")
seq("FLOAT_VALUE_LIT", "TRIVIA",
    seq("FLOAT_VALUE_LIT_TEXT", "OPT_BYTES_MINUS", first("FLOAT_FORM", "POINT_FORM", "EXPONENT_FORM", shape="Silent"), shape="Silent"),
    "TRIVIA", shape="Kept 1", doc="A number with a point or an exponent, as `-1.5e3`.")
seq("STRING_LIT", "TRIVIA", text_bytes('"'), run("NotQuote"), "BYTES_QUOTE", "TRIVIA", shape="Kept 2",
    doc="A string, as `\"a\"`, kept without its quotes.")
seq("DOC_LINE", run("Blank"), text_bytes("///"), past("\n"), shape="Line", doc="A docstring's line, as `/// c` with its LF.")
seq("DOCSTRING", "DOC_LINE", many("MANY_DOC_LINE", "DOC_LINE"), shape="Joined", doc="A docstring: such lines, one at least.")

# Literals.
section("Literals", "Literals and default values.")
first("BOOLEAN_LIT", "TRUE", "FALSE", doc="`true` or `false`.")
first("INTEGER_LIT", "DEC_LIT", "HEX_LIT", "OCT_LIT", doc="An integer.")
first("FLOAT_LIT", "FLOAT_VALUE_LIT", "NEG_INFINITY", "INFINITY", "NAN", doc="A floating point number, as `1.5` or `NaN`.")
seq("EMPTY_ARRAY_LIT", "OPEN_BRACKET", "CLOSE_BRACKET", doc="An empty array, `[]`.")
seq("EMPTY_DICTIONARY_LIT", "OPEN_BRACE", "CLOSE_BRACE", doc="An empty dictionary, `{}`.")
first("DEFAULT_VALUE", "BOOLEAN_LIT", "EMPTY_ARRAY_LIT", "EMPTY_DICTIONARY_LIT", "FLOAT_LIT", "INTEGER_LIT", "NULL", "STRING_LIT",
      doc="A default value.")
first("CONST_VALUE", "BOOLEAN_LIT", "FLOAT_LIT", "INTEGER_LIT", "NULL", doc="A constant's value.")
seq("DEFAULT", "ASSIGN", "DEFAULT_VALUE", doc="A default, as `= 5`.")

# Types.
section("SimpleTypes", "Types that hold no other type, and lists of names.")
opt("UNSIGNED")
seq("LONG_LONG_TYPE", "OPT_UNSIGNED", seq("LONG_LONG", "LONG", "LONG"), doc="`long long`, or `unsigned long long`.")
seq("LONG_TYPE", "OPT_UNSIGNED", "LONG", doc="`long`, or `unsigned long`.")
seq("SHORT_TYPE", "OPT_UNSIGNED", "SHORT", doc="`short`, or `unsigned short`.")
first("INTEGER_TYPE", "LONG_LONG_TYPE", "LONG_TYPE", "SHORT_TYPE", doc="An integer type.")
opt("UNRESTRICTED")
seq("FLOAT_TYPE", "OPT_UNRESTRICTED", "FLOAT", doc="`float`, or `unrestricted float`.")
seq("DOUBLE_TYPE", "OPT_UNRESTRICTED", "DOUBLE", doc="`double`, or `unrestricted double`.")
first("FLOATING_POINT_TYPE", "FLOAT_TYPE", "DOUBLE_TYPE", doc="A floating point type.")
first("CONST_TYPE", *[may_be_null(x) for x in ("INTEGER_TYPE", "FLOATING_POINT_TYPE", "BOOLEAN", "BYTE", "OCTET", "IDENTIFIER")],
      doc="A constant's type, as `long?`.")
punctuated("IDENTIFIER", "COMMA", "IDENTIFIER_LIST", "Names, as `Window, Worker`, none included.")
bracketed("PARENTHESIZED", "IDENTIFIER_LIST")

# Types that hold types, extended attributes and arguments read one another, so they are one section.
section("Types", "Types that hold types, extended attributes and arguments, which read one another.")
TERMINAL_TYPES = (
    "BOOLEAN BYTE OCTET BYTE_STRING DOM_STRING USV_STRING SEQUENCE_TYPE OBJECT SYMBOL ERROR ARRAY_BUFFER DATA_VIEW INT8_ARRAY "
    "INT16_ARRAY INT32_ARRAY UINT8_ARRAY UINT16_ARRAY UINT32_ARRAY UINT8_CLAMPED_ARRAY FLOAT32_ARRAY FLOAT64_ARRAY "
    "ARRAY_BUFFER_VIEW BUFFER_SOURCE"
).split()
bracketed("GENERICS", "TYPE")
seq("SEQUENCE_TYPE", "SEQUENCE", "GENERICS_TYPE", doc="A sequence, as `sequence<long>`.")
seq("FROZEN_ARRAY_TYPE", "FROZEN_ARRAY", "GENERICS_TYPE", doc="A frozen array, as `FrozenArray<long>`.")
bracketed("GENERICS", "RETURN_TYPE")
seq("PROMISE_TYPE", "PROMISE", "GENERICS_RETURN_TYPE", doc="A promise, as `Promise<long>`.")
bracketed("GENERICS", "RECORD_TYPES")
seq("RECORD_TYPE", "RECORD", "GENERICS_RECORD_TYPES", doc="A record, as `record<DOMString, long>`.")
bracketed("PARENTHESIZED", "LIST_UNION_MEMBER_TYPE_OR", "UNION_TYPE", "A union, as `(long or DOMString)`.")
may_be_null("UNION_TYPE")
first("NON_ANY_TYPE", "PROMISE_TYPE",
      *[may_be_null(x) for x in ["INTEGER_TYPE", "FLOATING_POINT_TYPE"] + TERMINAL_TYPES + ["FROZEN_ARRAY_TYPE", "RECORD_TYPE", "IDENTIFIER"]],
      doc="A type that is neither `any` nor a union, as `long?`.")
first("RECORD_KEY_TYPE", "BYTE_STRING", "DOM_STRING", "USV_STRING", "NON_ANY_TYPE", doc="The type of a record's keys.")
seq("RECORD_TYPES", "RECORD_KEY_TYPE", "COMMA", "TYPE", doc="A record's two types, as `DOMString, long`.")
first("SINGLE_TYPE", "ANY", "NON_ANY_TYPE", doc="A type that is no union.")
first("TYPE", "SINGLE_TYPE", "MAY_BE_NULL_UNION_TYPE", doc="A type.")
first("RETURN_TYPE", "UNDEFINED", "TYPE", doc="What an operation returns: `undefined`, or a type.")
bracketed("BRACKETED", "LIST_EXTENDED_ATTRIBUTE_COMMA", "EXTENDED_ATTRIBUTE_LIST", "Extended attributes, as `[Clamp, Exposed=Window]`.")
opt("EXTENDED_ATTRIBUTE_LIST")
seq("ATTRIBUTED_TYPE", "OPT_EXTENDED_ATTRIBUTE_LIST", "TYPE", doc="A type with extended attributes, as `[Clamp] long`.")
seq("ATTRIBUTED_NON_ANY_TYPE", "OPT_EXTENDED_ATTRIBUTE_LIST", "NON_ANY_TYPE",
    doc="A type that is neither `any` nor a union, with extended attributes, as `[Clamp] long`.")
first("UNION_MEMBER_TYPE", "ATTRIBUTED_NON_ANY_TYPE", "MAY_BE_NULL_UNION_TYPE", doc="A member of a union.")
punctuated("UNION_MEMBER_TYPE", "OR")
opt("OPTIONAL")
opt("DEFAULT")
rule("SINGLE_ARGUMENT", ("If", ("OPT_EXTENDED_ATTRIBUTE_LIST", "OPT_OPTIONAL", "ATTRIBUTED_TYPE", "IDENTIFIER"), 1, "OPT_DEFAULT"),
     doc="An argument, as `optional long x = 5`; a default is read only behind `optional`.")
seq("VARIADIC_ARGUMENT", "OPT_EXTENDED_ATTRIBUTE_LIST", "TYPE", "ELLIPSIS", "IDENTIFIER", doc="Any number of arguments, as `long... x`.")
first("ARGUMENT", "SINGLE_ARGUMENT", "VARIADIC_ARGUMENT", doc="An argument.")
punctuated("ARGUMENT", "COMMA", "ARGUMENT_LIST", "Arguments, as `long x, long y`, none included.")
bracketed("PARENTHESIZED", "ARGUMENT_LIST")
seq("EXTENDED_ATTRIBUTE_ARG_LIST", "IDENTIFIER", "PARENTHESIZED_ARGUMENT_LIST", doc="An extended attribute with arguments, as `Constructor(long x)`.")
seq("EXTENDED_ATTRIBUTE_NAMED_ARG_LIST", "IDENTIFIER", "ASSIGN", "IDENTIFIER", "PARENTHESIZED_ARGUMENT_LIST",
    doc="An extended attribute with a name and arguments, as `NamedConstructor=Image(long x)`.")
seq("EXTENDED_ATTRIBUTE_IDENT_LIST", "IDENTIFIER", "ASSIGN", "PARENTHESIZED_IDENTIFIER_LIST",
    doc="An extended attribute with names, as `Exposed=(Window, Worker)`.")
first("IDENTIFIER_OR_STRING", "IDENTIFIER", "STRING_LIT", doc="A name or a string.")
seq("EXTENDED_ATTRIBUTE_IDENT", "IDENTIFIER", "ASSIGN", "IDENTIFIER_OR_STRING", doc="An extended attribute with a name or a string, as `PutForwards=name`.")
seq("EXTENDED_ATTRIBUTE_NO_ARGS", "IDENTIFIER", doc="An extended attribute alone, as `Replaceable`.")
first("EXTENDED_ATTRIBUTE", "EXTENDED_ATTRIBUTE_ARG_LIST", "EXTENDED_ATTRIBUTE_NAMED_ARG_LIST", "EXTENDED_ATTRIBUTE_IDENT_LIST",
      "EXTENDED_ATTRIBUTE_IDENT", "EXTENDED_ATTRIBUTE_NO_ARGS", doc="An extended attribute.")
punctuated("EXTENDED_ATTRIBUTE", "COMMA")

# Members.
ATTRS, ARGS, DOC = "OPT_EXTENDED_ATTRIBUTE_LIST", "PARENTHESIZED_ARGUMENT_LIST", "OPT_DOCSTRING"
section("InterfaceMembers", "Members of interfaces.")
opt("DOCSTRING")
opt("IDENTIFIER")
opt("READ_ONLY")
seq("KEY_AND_VALUE_TYPES", "ATTRIBUTED_TYPE", "COMMA", "ATTRIBUTED_TYPE")
bracketed("GENERICS", "ATTRIBUTED_TYPE")
bracketed("GENERICS", "KEY_AND_VALUE_TYPES")
seq("INHERITANCE", "COLON", "IDENTIFIER", doc="What an interface or a dictionary inherits from, as `: Node`.")
opt("INHERITANCE")
first("SPECIAL", "GETTER", "SETTER", "DELETER", "LEGACY_CALLER", doc="`getter`, `setter`, `deleter` or `legacycaller`.")
opt("SPECIAL")
first("STRINGIFIER_OR_INHERIT_OR_STATIC", "STRINGIFIER", "INHERIT", "STATIC", doc="`stringifier`, `inherit` or `static`.")
opt("STRINGIFIER_OR_INHERIT_OR_STATIC")
first("STRINGIFIER_OR_STATIC", "STRINGIFIER", "STATIC", doc="`stringifier` or `static`.")
opt("STRINGIFIER_OR_STATIC")
seq("CONST_MEMBER", ATTRS, "CONST", "CONST_TYPE", "IDENTIFIER", "ASSIGN", "CONST_VALUE", "SEMI_COLON", doc="A constant, as `const long X = 5;`.")
seq("ATTRIBUTE_INTERFACE_MEMBER", ATTRS, "OPT_STRINGIFIER_OR_INHERIT_OR_STATIC", "OPT_READ_ONLY", "ATTRIBUTE", "ATTRIBUTED_TYPE",
    "IDENTIFIER", "SEMI_COLON", doc="An attribute of an interface, as `readonly attribute long x;`.")
seq("CONSTRUCTOR_INTERFACE_MEMBER", DOC, ATTRS, "CONSTRUCTOR", ARGS, "SEMI_COLON", doc="A constructor, as `constructor(long x);`.")
seq("OPERATION_INTERFACE_MEMBER", DOC, ATTRS, "OPT_STRINGIFIER_OR_STATIC", "OPT_SPECIAL", "RETURN_TYPE", "OPT_IDENTIFIER", ARGS, "SEMI_COLON",
    doc="An operation of an interface, as `undefined f(long x);`.")
seq("SINGLE_TYPED_ITERABLE", ATTRS, "ITERABLE", "GENERICS_ATTRIBUTED_TYPE", "SEMI_COLON", doc="`iterable<long>;`.")
seq("DOUBLE_TYPED_ITERABLE", ATTRS, "ITERABLE", "GENERICS_KEY_AND_VALUE_TYPES", "SEMI_COLON", doc="`iterable<DOMString, long>;`.")
first("ITERABLE_INTERFACE_MEMBER", "SINGLE_TYPED_ITERABLE", "DOUBLE_TYPED_ITERABLE", doc="An iteration, over one type or two.")
seq("ASYNC_ITERABLE", "ASYNC", "ITERABLE")
opt(ARGS)
seq("SINGLE_TYPED_ASYNC_ITERABLE", ATTRS, "ASYNC_ITERABLE", "GENERICS_ATTRIBUTED_TYPE", "OPT_PARENTHESIZED_ARGUMENT_LIST", "SEMI_COLON",
    doc="`async iterable<long>;`.")
seq("DOUBLE_TYPED_ASYNC_ITERABLE", ATTRS, "ASYNC_ITERABLE", "GENERICS_KEY_AND_VALUE_TYPES", "OPT_PARENTHESIZED_ARGUMENT_LIST", "SEMI_COLON",
    doc="`async iterable<DOMString, long>;`.")
first("ASYNC_ITERABLE_INTERFACE_MEMBER", "SINGLE_TYPED_ASYNC_ITERABLE", "DOUBLE_TYPED_ASYNC_ITERABLE",
      doc="An asynchronous iteration, over one type or two.")
seq("MAPLIKE_INTERFACE_MEMBER", ATTRS, "OPT_READ_ONLY", "MAPLIKE", "GENERICS_KEY_AND_VALUE_TYPES", "SEMI_COLON", doc="`maplike<DOMString, long>;`.")
seq("SETLIKE_INTERFACE_MEMBER", ATTRS, "OPT_READ_ONLY", "SETLIKE", "GENERICS_ATTRIBUTED_TYPE", "SEMI_COLON", doc="`setlike<long>;`.")
seq("STRINGIFIER_MEMBER", ATTRS, "STRINGIFIER", "SEMI_COLON", doc="`stringifier;`.")
first("INTERFACE_MEMBER", "CONST_MEMBER", "ATTRIBUTE_INTERFACE_MEMBER", "CONSTRUCTOR_INTERFACE_MEMBER", "OPERATION_INTERFACE_MEMBER",
      "ITERABLE_INTERFACE_MEMBER", "ASYNC_ITERABLE_INTERFACE_MEMBER", "MAPLIKE_INTERFACE_MEMBER", "SETLIKE_INTERFACE_MEMBER",
      "STRINGIFIER_MEMBER", doc="A member of an interface.")
many("INTERFACE_MEMBERS", "INTERFACE_MEMBER", doc="The members of an interface, none included.")
bracketed("BRACED", "INTERFACE_MEMBERS")

section("OtherMembers", "Members of mixins, namespaces and dictionaries, and the values of an enum.")
opt("STRINGIFIER")
seq("OPERATION_MIXIN_MEMBER", ATTRS, "OPT_STRINGIFIER", "RETURN_TYPE", "OPT_IDENTIFIER", ARGS, "SEMI_COLON",
    doc="An operation of a mixin, as `undefined f(long x);`.")
seq("ATTRIBUTE_MIXIN_MEMBER", ATTRS, "OPT_STRINGIFIER", "OPT_READ_ONLY", "ATTRIBUTE", "ATTRIBUTED_TYPE", "IDENTIFIER", "SEMI_COLON",
    doc="An attribute of a mixin, as `readonly attribute long x;`.")
first("MIXIN_MEMBER", "CONST_MEMBER", "OPERATION_MIXIN_MEMBER", "ATTRIBUTE_MIXIN_MEMBER", "STRINGIFIER_MEMBER", doc="A member of a mixin.")
many("MIXIN_MEMBERS", "MIXIN_MEMBER", doc="The members of a mixin, none included.")
bracketed("BRACED", "MIXIN_MEMBERS")
seq("OPERATION_NAMESPACE_MEMBER", DOC, ATTRS, "RETURN_TYPE", "OPT_IDENTIFIER", ARGS, "SEMI_COLON",
    doc="An operation of a namespace, as `undefined f(long x);`.")
seq("ATTRIBUTE_NAMESPACE_MEMBER", DOC, ATTRS, "READ_ONLY", "ATTRIBUTE", "ATTRIBUTED_TYPE", "IDENTIFIER", "SEMI_COLON",
    doc="An attribute of a namespace, as `readonly attribute long x;`.")
first("NAMESPACE_MEMBER", "OPERATION_NAMESPACE_MEMBER", "ATTRIBUTE_NAMESPACE_MEMBER", doc="A member of a namespace.")
many("NAMESPACE_MEMBERS", "NAMESPACE_MEMBER", doc="The members of a namespace, none included.")
bracketed("BRACED", "NAMESPACE_MEMBERS")
opt("REQUIRED")
seq("DICTIONARY_MEMBER", DOC, ATTRS, "OPT_REQUIRED", "TYPE", "IDENTIFIER", "OPT_DEFAULT", "SEMI_COLON",
    doc="A member of a dictionary, as `required long x;`.")
many("DICTIONARY_MEMBERS", "DICTIONARY_MEMBER", doc="The members of a dictionary, none included.")
bracketed("BRACED", "DICTIONARY_MEMBERS")
seq("ENUM_VARIANT", DOC, "STRING_LIT", doc="A value of an enum, as `\"a\"`.")
rule("TAIL_ENUM_VARIANT_COMMA", ("Tail", "ENUM_VARIANT", "COMMA"))
rule("LIST1_ENUM_VARIANT_COMMA", ("List1", "ENUM_VARIANT", "TAIL_ENUM_VARIANT_COMMA"))
opt("COMMA")
seq("ENUM_VALUE_LIST", "LIST1_ENUM_VARIANT_COMMA", "OPT_COMMA", shape="Inner", doc="The values of an enum, one at least, as `\"a\", \"b\",`.")
bracketed("BRACED", "ENUM_VALUE_LIST")

# Definitions.
section("Definitions", "Definitions.")
seq("CALLBACK_DEFINITION", ATTRS, "CALLBACK", "IDENTIFIER", "ASSIGN", "RETURN_TYPE", ARGS, "SEMI_COLON",
    doc="A callback, as `callback F = undefined (long x);`.")
seq("CALLBACK_INTERFACE_DEFINITION", DOC, ATTRS, "CALLBACK", "INTERFACE", "IDENTIFIER", "OPT_INHERITANCE", "BRACED_INTERFACE_MEMBERS",
    "SEMI_COLON", doc="A callback interface, as `callback interface A {};`.")
seq("INTERFACE_DEFINITION", DOC, ATTRS, "INTERFACE", "IDENTIFIER", "OPT_INHERITANCE", "BRACED_INTERFACE_MEMBERS", "SEMI_COLON",
    doc="An interface, as `interface A : B {};`.")
seq("INTERFACE_MIXIN_DEFINITION", ATTRS, "INTERFACE", "MIXIN", "IDENTIFIER", "BRACED_MIXIN_MEMBERS", "SEMI_COLON",
    doc="A mixin, as `interface mixin A {};`.")
seq("NAMESPACE_DEFINITION", DOC, ATTRS, "NAMESPACE", "IDENTIFIER", "BRACED_NAMESPACE_MEMBERS", "SEMI_COLON", doc="A namespace, as `namespace A {};`.")
seq("DICTIONARY_DEFINITION", DOC, ATTRS, "DICTIONARY", "IDENTIFIER", "OPT_INHERITANCE", "BRACED_DICTIONARY_MEMBERS", "SEMI_COLON",
    doc="A dictionary, as `dictionary A : B {};`.")
seq("PARTIAL_INTERFACE_DEFINITION", ATTRS, "PARTIAL", "INTERFACE", "IDENTIFIER", "BRACED_INTERFACE_MEMBERS", "SEMI_COLON",
    doc="A part of an interface, as `partial interface A {};`.")
seq("PARTIAL_INTERFACE_MIXIN_DEFINITION", ATTRS, "PARTIAL", "INTERFACE", "MIXIN", "IDENTIFIER", "BRACED_MIXIN_MEMBERS", "SEMI_COLON",
    doc="A part of a mixin, as `partial interface mixin A {};`.")
seq("PARTIAL_DICTIONARY_DEFINITION", ATTRS, "PARTIAL", "DICTIONARY", "IDENTIFIER", "BRACED_DICTIONARY_MEMBERS", "SEMI_COLON",
    doc="A part of a dictionary, as `partial dictionary A {};`.")
seq("PARTIAL_NAMESPACE_DEFINITION", ATTRS, "PARTIAL", "NAMESPACE", "IDENTIFIER", "BRACED_NAMESPACE_MEMBERS", "SEMI_COLON",
    doc="A part of a namespace, as `partial namespace A {};`.")
seq("ENUM_DEFINITION", DOC, ATTRS, "ENUM", "IDENTIFIER", "BRACED_ENUM_VALUE_LIST", "SEMI_COLON", doc="An enum, as `enum A {\"a\"};`.")
seq("TYPEDEF_DEFINITION", ATTRS, "TYPEDEF", "ATTRIBUTED_TYPE", "IDENTIFIER", "SEMI_COLON", doc="A name for a type, as `typedef long A;`.")
seq("INCLUDES_STATEMENT_DEFINITION", ATTRS, "IDENTIFIER", "INCLUDES", "IDENTIFIER", "SEMI_COLON", doc="The use of a mixin, as `A includes B;`.")
seq("IMPLEMENTS_DEFINITION", ATTRS, "IDENTIFIER", "IMPLEMENTS", "IDENTIFIER", "SEMI_COLON", doc="The older form of it, as `A implements B;`.")
first("DEFINITION", "CALLBACK_DEFINITION", "CALLBACK_INTERFACE_DEFINITION", "INTERFACE_DEFINITION", "INTERFACE_MIXIN_DEFINITION",
      "NAMESPACE_DEFINITION", "DICTIONARY_DEFINITION", "PARTIAL_INTERFACE_DEFINITION", "PARTIAL_INTERFACE_MIXIN_DEFINITION",
      "PARTIAL_DICTIONARY_DEFINITION", "PARTIAL_NAMESPACE_DEFINITION", "ENUM_DEFINITION", "TYPEDEF_DEFINITION",
      "INCLUDES_STATEMENT_DEFINITION", "IMPLEMENTS_DEFINITION", doc="A definition.")
many("DEFINITIONS", "DEFINITION", doc="Definitions, none included: the whole of a text.")

# The parts that the scanners of weedle_base and weedle_parts name.
SCANNED = (
    "BYTES_SLASH_SLASH BYTES_SLASH_STAR ONE_OF_BLANK RUN_BLANK BYTES_THREE_SLASHES BYTES_UNDERSCORE ONE_OF_LETTER RUN_NAME "
    "IDENTIFIER_TEXT BYTES_MINUS BYTES_DOT BYTES_ZERO BYTES_QUOTE ONE_OF_DIGIT ONE_OF_ONE_TO_NINE ONE_OF_E_LETTER ONE_OF_HEX "
    "ONE_OF_SIGN ONE_OF_X_LETTER RUN_DIGIT RUN_HEX RUN_OCTAL DEC_LIT_TEXT HEX_LIT_TEXT OCT_LIT_TEXT FLOAT_VALUE_LIT_TEXT"
).split()

# These alone, whatever is added behind them.
BY_NAME, BY_CONTENT, SECTIONS = {**BY_NAME}, {**BY_CONTENT}, [*SECTIONS]
RULES = [r for s in SECTIONS for r in s.rules]
NUMBER = {r.name: i for i, r in enumerate(RULES)}
