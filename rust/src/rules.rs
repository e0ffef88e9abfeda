//! The rules of the grammar, and which of them read what is made of others.
//!
//! Written by tools/write/rust_types.py, and not edited by hand.

/// No rule of the grammar.
pub const NONE: u16 = u16::MAX;

/// How many rules there are.
pub const COUNT: u32 = 520;

/// The version of the library that has these rules: a byte each for its three numbers.
pub const VERSION: u32 = 0x000b00;

pub const OPEN_PAREN: u16 = 16;
pub const CLOSE_PAREN: u16 = 18;
pub const OPEN_BRACKET: u16 = 20;
pub const CLOSE_BRACKET: u16 = 22;
pub const OPEN_BRACE: u16 = 24;
pub const CLOSE_BRACE: u16 = 26;
pub const COMMA: u16 = 28;
pub const MINUS: u16 = 30;
pub const DOT: u16 = 32;
pub const ELLIPSIS: u16 = 34;
pub const COLON: u16 = 36;
pub const SEMI_COLON: u16 = 38;
pub const LESS_THAN: u16 = 40;
pub const ASSIGN: u16 = 42;
pub const GREATER_THAN: u16 = 44;
pub const Q_MARK: u16 = 46;
pub const OR: u16 = 49;
pub const OPTIONAL: u16 = 51;
pub const ASYNC: u16 = 53;
pub const ATTRIBUTE: u16 = 55;
pub const CALLBACK: u16 = 57;
pub const CONST: u16 = 59;
pub const DELETER: u16 = 61;
pub const DICTIONARY: u16 = 63;
pub const ENUM: u16 = 65;
pub const GETTER: u16 = 67;
pub const INCLUDES: u16 = 69;
pub const INHERIT: u16 = 71;
pub const INTERFACE: u16 = 73;
pub const ITERABLE: u16 = 75;
pub const MAPLIKE: u16 = 77;
pub const NAMESPACE: u16 = 79;
pub const PARTIAL: u16 = 81;
pub const REQUIRED: u16 = 83;
pub const SETLIKE: u16 = 85;
pub const SETTER: u16 = 87;
pub const STATIC: u16 = 89;
pub const STRINGIFIER: u16 = 91;
pub const TYPEDEF: u16 = 93;
pub const UNRESTRICTED: u16 = 95;
pub const SYMBOL: u16 = 97;
pub const ANY: u16 = 99;
pub const BOOLEAN: u16 = 101;
pub const BYTE: u16 = 103;
pub const DOUBLE: u16 = 105;
pub const FALSE: u16 = 107;
pub const FLOAT: u16 = 109;
pub const LONG: u16 = 111;
pub const NULL: u16 = 113;
pub const OBJECT: u16 = 115;
pub const OCTET: u16 = 117;
pub const SEQUENCE: u16 = 119;
pub const SHORT: u16 = 121;
pub const TRUE: u16 = 123;
pub const UNSIGNED: u16 = 125;
pub const UNDEFINED: u16 = 127;
pub const RECORD: u16 = 129;
pub const READ_ONLY: u16 = 131;
pub const MIXIN: u16 = 133;
pub const IMPLEMENTS: u16 = 135;
pub const LEGACY_CALLER: u16 = 137;
pub const CONSTRUCTOR: u16 = 139;
pub const BYTE_STRING: u16 = 141;
pub const DOM_STRING: u16 = 143;
pub const FROZEN_ARRAY: u16 = 145;
pub const INFINITY: u16 = 147;
pub const NAN: u16 = 149;
pub const USV_STRING: u16 = 151;
pub const ARRAY_BUFFER: u16 = 153;
pub const DATA_VIEW: u16 = 155;
pub const INT8_ARRAY: u16 = 157;
pub const INT16_ARRAY: u16 = 159;
pub const INT32_ARRAY: u16 = 161;
pub const UINT8_ARRAY: u16 = 163;
pub const UINT16_ARRAY: u16 = 165;
pub const UINT32_ARRAY: u16 = 167;
pub const UINT8_CLAMPED_ARRAY: u16 = 169;
pub const FLOAT32_ARRAY: u16 = 171;
pub const FLOAT64_ARRAY: u16 = 173;
pub const ARRAY_BUFFER_VIEW: u16 = 175;
pub const BUFFER_SOURCE: u16 = 177;
pub const PROMISE: u16 = 179;
pub const ERROR: u16 = 181;
pub const NEG_INFINITY: u16 = 183;
pub const IDENTIFIER_TEXT: u16 = 188;
pub const IDENTIFIER: u16 = 189;
pub const DEC_LIT_TEXT: u16 = 193;
pub const DEC_LIT: u16 = 194;
pub const HEX_LIT_TEXT: u16 = 199;
pub const HEX_LIT: u16 = 200;
pub const OCT_LIT_TEXT: u16 = 202;
pub const OCT_LIT: u16 = 203;
pub const FLOAT_VALUE_LIT_TEXT: u16 = 217;
pub const FLOAT_VALUE_LIT: u16 = 218;
pub const RUN_NOT_QUOTE: u16 = 220;
pub const STRING_LIT: u16 = 221;
pub const PAST_LF: u16 = 223;
pub const DOC_LINE: u16 = 224;
pub const MANY_DOC_LINE: u16 = 225;
pub const DOCSTRING: u16 = 226;
pub const BOOLEAN_LIT: u16 = 227;
pub const INTEGER_LIT: u16 = 228;
pub const FLOAT_LIT: u16 = 229;
pub const EMPTY_ARRAY_LIT: u16 = 230;
pub const EMPTY_DICTIONARY_LIT: u16 = 231;
pub const DEFAULT_VALUE: u16 = 232;
pub const CONST_VALUE: u16 = 233;
pub const DEFAULT: u16 = 234;
pub const OPT_UNSIGNED: u16 = 235;
pub const LONG_LONG: u16 = 236;
pub const LONG_LONG_TYPE: u16 = 237;
pub const LONG_TYPE: u16 = 238;
pub const SHORT_TYPE: u16 = 239;
pub const INTEGER_TYPE: u16 = 240;
pub const OPT_UNRESTRICTED: u16 = 241;
pub const FLOAT_TYPE: u16 = 242;
pub const DOUBLE_TYPE: u16 = 243;
pub const FLOATING_POINT_TYPE: u16 = 244;
pub const OPT_Q_MARK: u16 = 245;
pub const MAY_BE_NULL_INTEGER_TYPE: u16 = 246;
pub const MAY_BE_NULL_FLOATING_POINT_TYPE: u16 = 247;
pub const MAY_BE_NULL_BOOLEAN: u16 = 248;
pub const MAY_BE_NULL_BYTE: u16 = 249;
pub const MAY_BE_NULL_OCTET: u16 = 250;
pub const MAY_BE_NULL_IDENTIFIER: u16 = 251;
pub const CONST_TYPE: u16 = 252;
pub const IDENTIFIER_LIST: u16 = 254;
pub const PARENTHESIZED_IDENTIFIER_LIST: u16 = 255;
pub const GENERICS_TYPE: u16 = 256;
pub const SEQUENCE_TYPE: u16 = 257;
pub const FROZEN_ARRAY_TYPE: u16 = 258;
pub const GENERICS_RETURN_TYPE: u16 = 259;
pub const PROMISE_TYPE: u16 = 260;
pub const GENERICS_RECORD_TYPES: u16 = 261;
pub const RECORD_TYPE: u16 = 262;
pub const UNION_TYPE: u16 = 263;
pub const MAY_BE_NULL_UNION_TYPE: u16 = 264;
pub const MAY_BE_NULL_BYTE_STRING: u16 = 265;
pub const MAY_BE_NULL_DOM_STRING: u16 = 266;
pub const MAY_BE_NULL_USV_STRING: u16 = 267;
pub const MAY_BE_NULL_SEQUENCE_TYPE: u16 = 268;
pub const MAY_BE_NULL_OBJECT: u16 = 269;
pub const MAY_BE_NULL_SYMBOL: u16 = 270;
pub const MAY_BE_NULL_ERROR: u16 = 271;
pub const MAY_BE_NULL_ARRAY_BUFFER: u16 = 272;
pub const MAY_BE_NULL_DATA_VIEW: u16 = 273;
pub const MAY_BE_NULL_INT8_ARRAY: u16 = 274;
pub const MAY_BE_NULL_INT16_ARRAY: u16 = 275;
pub const MAY_BE_NULL_INT32_ARRAY: u16 = 276;
pub const MAY_BE_NULL_UINT8_ARRAY: u16 = 277;
pub const MAY_BE_NULL_UINT16_ARRAY: u16 = 278;
pub const MAY_BE_NULL_UINT32_ARRAY: u16 = 279;
pub const MAY_BE_NULL_UINT8_CLAMPED_ARRAY: u16 = 280;
pub const MAY_BE_NULL_FLOAT32_ARRAY: u16 = 281;
pub const MAY_BE_NULL_FLOAT64_ARRAY: u16 = 282;
pub const MAY_BE_NULL_ARRAY_BUFFER_VIEW: u16 = 283;
pub const MAY_BE_NULL_BUFFER_SOURCE: u16 = 284;
pub const MAY_BE_NULL_FROZEN_ARRAY_TYPE: u16 = 285;
pub const MAY_BE_NULL_RECORD_TYPE: u16 = 286;
pub const NON_ANY_TYPE: u16 = 287;
pub const RECORD_KEY_TYPE: u16 = 288;
pub const RECORD_TYPES: u16 = 289;
pub const SINGLE_TYPE: u16 = 290;
pub const TYPE: u16 = 291;
pub const RETURN_TYPE: u16 = 292;
pub const EXTENDED_ATTRIBUTE_LIST: u16 = 293;
pub const OPT_EXTENDED_ATTRIBUTE_LIST: u16 = 294;
pub const ATTRIBUTED_TYPE: u16 = 295;
pub const ATTRIBUTED_NON_ANY_TYPE: u16 = 296;
pub const UNION_MEMBER_TYPE: u16 = 297;
pub const LIST_UNION_MEMBER_TYPE_OR: u16 = 299;
pub const OPT_OPTIONAL: u16 = 300;
pub const OPT_DEFAULT: u16 = 301;
pub const SINGLE_ARGUMENT: u16 = 302;
pub const VARIADIC_ARGUMENT: u16 = 303;
pub const ARGUMENT: u16 = 304;
pub const ARGUMENT_LIST: u16 = 306;
pub const PARENTHESIZED_ARGUMENT_LIST: u16 = 307;
pub const EXTENDED_ATTRIBUTE_ARG_LIST: u16 = 308;
pub const EXTENDED_ATTRIBUTE_NAMED_ARG_LIST: u16 = 309;
pub const EXTENDED_ATTRIBUTE_IDENT_LIST: u16 = 310;
pub const IDENTIFIER_OR_STRING: u16 = 311;
pub const EXTENDED_ATTRIBUTE_IDENT: u16 = 312;
pub const EXTENDED_ATTRIBUTE_NO_ARGS: u16 = 313;
pub const EXTENDED_ATTRIBUTE: u16 = 314;
pub const LIST_EXTENDED_ATTRIBUTE_COMMA: u16 = 316;
pub const OPT_DOCSTRING: u16 = 317;
pub const OPT_IDENTIFIER: u16 = 318;
pub const OPT_READ_ONLY: u16 = 319;
pub const KEY_AND_VALUE_TYPES: u16 = 320;
pub const GENERICS_ATTRIBUTED_TYPE: u16 = 321;
pub const GENERICS_KEY_AND_VALUE_TYPES: u16 = 322;
pub const INHERITANCE: u16 = 323;
pub const OPT_INHERITANCE: u16 = 324;
pub const SPECIAL: u16 = 325;
pub const OPT_SPECIAL: u16 = 326;
pub const STRINGIFIER_OR_INHERIT_OR_STATIC: u16 = 327;
pub const OPT_STRINGIFIER_OR_INHERIT_OR_STATIC: u16 = 328;
pub const STRINGIFIER_OR_STATIC: u16 = 329;
pub const OPT_STRINGIFIER_OR_STATIC: u16 = 330;
pub const CONST_MEMBER: u16 = 331;
pub const ATTRIBUTE_INTERFACE_MEMBER: u16 = 332;
pub const CONSTRUCTOR_INTERFACE_MEMBER: u16 = 333;
pub const OPERATION_INTERFACE_MEMBER: u16 = 334;
pub const SINGLE_TYPED_ITERABLE: u16 = 335;
pub const DOUBLE_TYPED_ITERABLE: u16 = 336;
pub const ITERABLE_INTERFACE_MEMBER: u16 = 337;
pub const ASYNC_ITERABLE: u16 = 338;
pub const OPT_PARENTHESIZED_ARGUMENT_LIST: u16 = 339;
pub const SINGLE_TYPED_ASYNC_ITERABLE: u16 = 340;
pub const DOUBLE_TYPED_ASYNC_ITERABLE: u16 = 341;
pub const ASYNC_ITERABLE_INTERFACE_MEMBER: u16 = 342;
pub const MAPLIKE_INTERFACE_MEMBER: u16 = 343;
pub const SETLIKE_INTERFACE_MEMBER: u16 = 344;
pub const STRINGIFIER_MEMBER: u16 = 345;
pub const INTERFACE_MEMBER: u16 = 346;
pub const INTERFACE_MEMBERS: u16 = 347;
pub const BRACED_INTERFACE_MEMBERS: u16 = 348;
pub const OPT_STRINGIFIER: u16 = 349;
pub const OPERATION_MIXIN_MEMBER: u16 = 350;
pub const ATTRIBUTE_MIXIN_MEMBER: u16 = 351;
pub const MIXIN_MEMBER: u16 = 352;
pub const MIXIN_MEMBERS: u16 = 353;
pub const BRACED_MIXIN_MEMBERS: u16 = 354;
pub const OPERATION_NAMESPACE_MEMBER: u16 = 355;
pub const ATTRIBUTE_NAMESPACE_MEMBER: u16 = 356;
pub const NAMESPACE_MEMBER: u16 = 357;
pub const NAMESPACE_MEMBERS: u16 = 358;
pub const BRACED_NAMESPACE_MEMBERS: u16 = 359;
pub const OPT_REQUIRED: u16 = 360;
pub const DICTIONARY_MEMBER: u16 = 361;
pub const DICTIONARY_MEMBERS: u16 = 362;
pub const BRACED_DICTIONARY_MEMBERS: u16 = 363;
pub const ENUM_VARIANT: u16 = 364;
pub const OPT_COMMA: u16 = 367;
pub const ENUM_VALUE_LIST: u16 = 368;
pub const BRACED_ENUM_VALUE_LIST: u16 = 369;
pub const CALLBACK_DEFINITION: u16 = 370;
pub const CALLBACK_INTERFACE_DEFINITION: u16 = 371;
pub const INTERFACE_DEFINITION: u16 = 372;
pub const INTERFACE_MIXIN_DEFINITION: u16 = 373;
pub const NAMESPACE_DEFINITION: u16 = 374;
pub const DICTIONARY_DEFINITION: u16 = 375;
pub const PARTIAL_INTERFACE_DEFINITION: u16 = 376;
pub const PARTIAL_INTERFACE_MIXIN_DEFINITION: u16 = 377;
pub const PARTIAL_DICTIONARY_DEFINITION: u16 = 378;
pub const PARTIAL_NAMESPACE_DEFINITION: u16 = 379;
pub const ENUM_DEFINITION: u16 = 380;
pub const TYPEDEF_DEFINITION: u16 = 381;
pub const INCLUDES_STATEMENT_DEFINITION: u16 = 382;
pub const IMPLEMENTS_DEFINITION: u16 = 383;
pub const DEFINITION: u16 = 384;
pub const DEFINITIONS: u16 = 385;
pub const TODAY_DEFINITIONS: u16 = 519;

/// Whether a rule reads as much of a text as there is.
pub const fn is_long(rule: u16) -> bool {
    matches!(
        rule,
        MANY_DOC_LINE
            | INTERFACE_MEMBERS
            | MIXIN_MEMBERS
            | NAMESPACE_MEMBERS
            | DICTIONARY_MEMBERS
            | DEFINITIONS
            | TODAY_DEFINITIONS
    )
}

/// The rule that reads what another one reads, or nothing.
pub const fn option(item: u16) -> u16 {
    match item {
        UNSIGNED => OPT_UNSIGNED,
        UNRESTRICTED => OPT_UNRESTRICTED,
        Q_MARK => OPT_Q_MARK,
        EXTENDED_ATTRIBUTE_LIST => OPT_EXTENDED_ATTRIBUTE_LIST,
        OPTIONAL => OPT_OPTIONAL,
        DEFAULT => OPT_DEFAULT,
        DOCSTRING => OPT_DOCSTRING,
        IDENTIFIER => OPT_IDENTIFIER,
        READ_ONLY => OPT_READ_ONLY,
        INHERITANCE => OPT_INHERITANCE,
        SPECIAL => OPT_SPECIAL,
        STRINGIFIER_OR_INHERIT_OR_STATIC => OPT_STRINGIFIER_OR_INHERIT_OR_STATIC,
        STRINGIFIER_OR_STATIC => OPT_STRINGIFIER_OR_STATIC,
        PARENTHESIZED_ARGUMENT_LIST => OPT_PARENTHESIZED_ARGUMENT_LIST,
        STRINGIFIER => OPT_STRINGIFIER,
        REQUIRED => OPT_REQUIRED,
        COMMA => OPT_COMMA,
        _ => NONE,
    }
}

/// The rule that reads what another one reads, again and again.
pub const fn vec(item: u16) -> u16 {
    match item {
        DOC_LINE => MANY_DOC_LINE,
        INTERFACE_MEMBER => INTERFACE_MEMBERS,
        MIXIN_MEMBER => MIXIN_MEMBERS,
        NAMESPACE_MEMBER => NAMESPACE_MEMBERS,
        DICTIONARY_MEMBER => DICTIONARY_MEMBERS,
        DEFINITION => DEFINITIONS,
        _ => NONE,
    }
}

/// The rule that reads what two others read.
pub const fn pair(first: u16, second: u16) -> u16 {
    match (first, second) {
        (OPEN_BRACKET, CLOSE_BRACKET) => EMPTY_ARRAY_LIT,
        (OPEN_BRACE, CLOSE_BRACE) => EMPTY_DICTIONARY_LIT,
        (ASSIGN, DEFAULT_VALUE) => DEFAULT,
        (LONG, LONG) => LONG_LONG,
        (OPT_UNSIGNED, LONG_LONG) => LONG_LONG_TYPE,
        (OPT_UNSIGNED, LONG) => LONG_TYPE,
        (OPT_UNSIGNED, SHORT) => SHORT_TYPE,
        (OPT_UNRESTRICTED, FLOAT) => FLOAT_TYPE,
        (OPT_UNRESTRICTED, DOUBLE) => DOUBLE_TYPE,
        (SEQUENCE, GENERICS_TYPE) => SEQUENCE_TYPE,
        (FROZEN_ARRAY, GENERICS_TYPE) => FROZEN_ARRAY_TYPE,
        (PROMISE, GENERICS_RETURN_TYPE) => PROMISE_TYPE,
        (RECORD, GENERICS_RECORD_TYPES) => RECORD_TYPE,
        (OPT_EXTENDED_ATTRIBUTE_LIST, TYPE) => ATTRIBUTED_TYPE,
        (OPT_EXTENDED_ATTRIBUTE_LIST, NON_ANY_TYPE) => ATTRIBUTED_NON_ANY_TYPE,
        (IDENTIFIER, PARENTHESIZED_ARGUMENT_LIST) => EXTENDED_ATTRIBUTE_ARG_LIST,
        (COLON, IDENTIFIER) => INHERITANCE,
        (ASYNC, ITERABLE) => ASYNC_ITERABLE,
        (OPT_DOCSTRING, STRING_LIT) => ENUM_VARIANT,
        _ => NONE,
    }
}

/// The rule that reads what three others read.
pub const fn triple(first: u16, second: u16, third: u16) -> u16 {
    match (first, second, third) {
        (OPEN_PAREN, IDENTIFIER_LIST, CLOSE_PAREN) => PARENTHESIZED_IDENTIFIER_LIST,
        (LESS_THAN, TYPE, GREATER_THAN) => GENERICS_TYPE,
        (LESS_THAN, RETURN_TYPE, GREATER_THAN) => GENERICS_RETURN_TYPE,
        (LESS_THAN, RECORD_TYPES, GREATER_THAN) => GENERICS_RECORD_TYPES,
        (OPEN_PAREN, LIST_UNION_MEMBER_TYPE_OR, CLOSE_PAREN) => UNION_TYPE,
        (RECORD_KEY_TYPE, COMMA, TYPE) => RECORD_TYPES,
        (OPEN_BRACKET, LIST_EXTENDED_ATTRIBUTE_COMMA, CLOSE_BRACKET) => EXTENDED_ATTRIBUTE_LIST,
        (OPEN_PAREN, ARGUMENT_LIST, CLOSE_PAREN) => PARENTHESIZED_ARGUMENT_LIST,
        (IDENTIFIER, ASSIGN, PARENTHESIZED_IDENTIFIER_LIST) => EXTENDED_ATTRIBUTE_IDENT_LIST,
        (IDENTIFIER, ASSIGN, IDENTIFIER_OR_STRING) => EXTENDED_ATTRIBUTE_IDENT,
        (ATTRIBUTED_TYPE, COMMA, ATTRIBUTED_TYPE) => KEY_AND_VALUE_TYPES,
        (LESS_THAN, ATTRIBUTED_TYPE, GREATER_THAN) => GENERICS_ATTRIBUTED_TYPE,
        (LESS_THAN, KEY_AND_VALUE_TYPES, GREATER_THAN) => GENERICS_KEY_AND_VALUE_TYPES,
        (OPT_EXTENDED_ATTRIBUTE_LIST, STRINGIFIER, SEMI_COLON) => STRINGIFIER_MEMBER,
        (OPEN_BRACE, INTERFACE_MEMBERS, CLOSE_BRACE) => BRACED_INTERFACE_MEMBERS,
        (OPEN_BRACE, MIXIN_MEMBERS, CLOSE_BRACE) => BRACED_MIXIN_MEMBERS,
        (OPEN_BRACE, NAMESPACE_MEMBERS, CLOSE_BRACE) => BRACED_NAMESPACE_MEMBERS,
        (OPEN_BRACE, DICTIONARY_MEMBERS, CLOSE_BRACE) => BRACED_DICTIONARY_MEMBERS,
        (OPEN_BRACE, ENUM_VALUE_LIST, CLOSE_BRACE) => BRACED_ENUM_VALUE_LIST,
        _ => NONE,
    }
}

/// The rule that reads what another one reads, and a `?` where one is.
pub const fn may_be_null(item: u16) -> u16 {
    match item {
        INTEGER_TYPE => MAY_BE_NULL_INTEGER_TYPE,
        FLOATING_POINT_TYPE => MAY_BE_NULL_FLOATING_POINT_TYPE,
        BOOLEAN => MAY_BE_NULL_BOOLEAN,
        BYTE => MAY_BE_NULL_BYTE,
        OCTET => MAY_BE_NULL_OCTET,
        IDENTIFIER => MAY_BE_NULL_IDENTIFIER,
        UNION_TYPE => MAY_BE_NULL_UNION_TYPE,
        BYTE_STRING => MAY_BE_NULL_BYTE_STRING,
        DOM_STRING => MAY_BE_NULL_DOM_STRING,
        USV_STRING => MAY_BE_NULL_USV_STRING,
        SEQUENCE_TYPE => MAY_BE_NULL_SEQUENCE_TYPE,
        OBJECT => MAY_BE_NULL_OBJECT,
        SYMBOL => MAY_BE_NULL_SYMBOL,
        ERROR => MAY_BE_NULL_ERROR,
        ARRAY_BUFFER => MAY_BE_NULL_ARRAY_BUFFER,
        DATA_VIEW => MAY_BE_NULL_DATA_VIEW,
        INT8_ARRAY => MAY_BE_NULL_INT8_ARRAY,
        INT16_ARRAY => MAY_BE_NULL_INT16_ARRAY,
        INT32_ARRAY => MAY_BE_NULL_INT32_ARRAY,
        UINT8_ARRAY => MAY_BE_NULL_UINT8_ARRAY,
        UINT16_ARRAY => MAY_BE_NULL_UINT16_ARRAY,
        UINT32_ARRAY => MAY_BE_NULL_UINT32_ARRAY,
        UINT8_CLAMPED_ARRAY => MAY_BE_NULL_UINT8_CLAMPED_ARRAY,
        FLOAT32_ARRAY => MAY_BE_NULL_FLOAT32_ARRAY,
        FLOAT64_ARRAY => MAY_BE_NULL_FLOAT64_ARRAY,
        ARRAY_BUFFER_VIEW => MAY_BE_NULL_ARRAY_BUFFER_VIEW,
        BUFFER_SOURCE => MAY_BE_NULL_BUFFER_SOURCE,
        FROZEN_ARRAY_TYPE => MAY_BE_NULL_FROZEN_ARRAY_TYPE,
        RECORD_TYPE => MAY_BE_NULL_RECORD_TYPE,
        _ => NONE,
    }
}

/// The rule that reads items of one rule with separators of another between them.
pub const fn punctuated(first: u16, second: u16) -> u16 {
    match (first, second) {
        (IDENTIFIER, COMMA) => IDENTIFIER_LIST,
        (UNION_MEMBER_TYPE, OR) => LIST_UNION_MEMBER_TYPE_OR,
        (ARGUMENT, COMMA) => ARGUMENT_LIST,
        (EXTENDED_ATTRIBUTE, COMMA) => LIST_EXTENDED_ATTRIBUTE_COMMA,
        _ => NONE,
    }
}

/// The same with one item at least, and perhaps a separator behind them.
pub const fn punctuated_non_empty(first: u16, second: u16) -> u16 {
    match (first, second) {
        (ENUM_VARIANT, COMMA) => ENUM_VALUE_LIST,
        _ => NONE,
    }
}

/// The rule that reads what another one reads, between parentheses.
pub const fn parenthesized(item: u16) -> u16 {
    match item {
        IDENTIFIER_LIST => PARENTHESIZED_IDENTIFIER_LIST,
        LIST_UNION_MEMBER_TYPE_OR => UNION_TYPE,
        ARGUMENT_LIST => PARENTHESIZED_ARGUMENT_LIST,
        _ => NONE,
    }
}

/// The rule that reads what another one reads, between square brackets.
pub const fn bracketed(item: u16) -> u16 {
    match item {
        LIST_EXTENDED_ATTRIBUTE_COMMA => EXTENDED_ATTRIBUTE_LIST,
        _ => NONE,
    }
}

/// The rule that reads what another one reads, between braces.
pub const fn braced(item: u16) -> u16 {
    match item {
        INTERFACE_MEMBERS => BRACED_INTERFACE_MEMBERS,
        MIXIN_MEMBERS => BRACED_MIXIN_MEMBERS,
        NAMESPACE_MEMBERS => BRACED_NAMESPACE_MEMBERS,
        DICTIONARY_MEMBERS => BRACED_DICTIONARY_MEMBERS,
        ENUM_VALUE_LIST => BRACED_ENUM_VALUE_LIST,
        _ => NONE,
    }
}

/// The rule that reads what another one reads, between angle brackets.
pub const fn generics(item: u16) -> u16 {
    match item {
        TYPE => GENERICS_TYPE,
        RETURN_TYPE => GENERICS_RETURN_TYPE,
        RECORD_TYPES => GENERICS_RECORD_TYPES,
        ATTRIBUTED_TYPE => GENERICS_ATTRIBUTED_TYPE,
        KEY_AND_VALUE_TYPES => GENERICS_KEY_AND_VALUE_TYPES,
        _ => NONE,
    }
}

/// The names of the rules, by their numbers.
pub const NAMES: [&str; 520] = [
    "bytes_lf",
    "not_next_any",
    "line_end",
    "bytes_slash_slash",
    "not_next_slash",
    "run_not_line_feed",
    "line_comment",
    "one_of_blank",
    "run_blank",
    "blanks",
    "bytes_slash_star",
    "past_star_slash",
    "block_comment",
    "piece",
    "trivia",
    "bytes_open_paren",
    "open_paren",
    "bytes_close_paren",
    "close_paren",
    "bytes_open_bracket",
    "open_bracket",
    "bytes_close_bracket",
    "close_bracket",
    "bytes_open_brace",
    "open_brace",
    "bytes_close_brace",
    "close_brace",
    "bytes_comma",
    "comma",
    "bytes_minus",
    "minus",
    "bytes_dot",
    "dot",
    "bytes_ellipsis",
    "ellipsis",
    "bytes_colon",
    "colon",
    "bytes_semi_colon",
    "semi_colon",
    "bytes_less_than",
    "less_than",
    "bytes_assign",
    "assign",
    "bytes_greater_than",
    "greater_than",
    "bytes_q_mark",
    "q_mark",
    "bytes_or",
    "not_next_name",
    "or",
    "bytes_optional",
    "optional",
    "bytes_async",
    "async",
    "bytes_attribute",
    "attribute",
    "bytes_callback",
    "callback",
    "bytes_const",
    "const",
    "bytes_deleter",
    "deleter",
    "bytes_dictionary",
    "dictionary",
    "bytes_enum",
    "enum",
    "bytes_getter",
    "getter",
    "bytes_includes",
    "includes",
    "bytes_inherit",
    "inherit",
    "bytes_interface",
    "interface",
    "bytes_iterable",
    "iterable",
    "bytes_maplike",
    "maplike",
    "bytes_namespace",
    "namespace",
    "bytes_partial",
    "partial",
    "bytes_required",
    "required",
    "bytes_setlike",
    "setlike",
    "bytes_setter",
    "setter",
    "bytes_static",
    "static",
    "bytes_stringifier",
    "stringifier",
    "bytes_typedef",
    "typedef",
    "bytes_unrestricted",
    "unrestricted",
    "bytes_symbol",
    "symbol",
    "bytes_any",
    "any",
    "bytes_boolean",
    "boolean",
    "bytes_byte",
    "byte",
    "bytes_double",
    "double",
    "bytes_false",
    "false",
    "bytes_float",
    "float",
    "bytes_long",
    "long",
    "bytes_null",
    "null",
    "bytes_object",
    "object",
    "bytes_octet",
    "octet",
    "bytes_sequence",
    "sequence",
    "bytes_short",
    "short",
    "bytes_true",
    "true",
    "bytes_unsigned",
    "unsigned",
    "bytes_undefined",
    "undefined",
    "bytes_record",
    "record",
    "bytes_read_only",
    "read_only",
    "bytes_mixin",
    "mixin",
    "bytes_implements",
    "implements",
    "bytes_legacy_caller",
    "legacy_caller",
    "bytes_constructor",
    "constructor",
    "bytes_byte_string",
    "byte_string",
    "bytes_dom_string",
    "dom_string",
    "bytes_frozen_array",
    "frozen_array",
    "bytes_infinity",
    "infinity",
    "bytes_nan",
    "nan",
    "bytes_usv_string",
    "usv_string",
    "bytes_array_buffer",
    "array_buffer",
    "bytes_data_view",
    "data_view",
    "bytes_int8_array",
    "int8_array",
    "bytes_int16_array",
    "int16_array",
    "bytes_int32_array",
    "int32_array",
    "bytes_uint8_array",
    "uint8_array",
    "bytes_uint16_array",
    "uint16_array",
    "bytes_uint32_array",
    "uint32_array",
    "bytes_uint8_clamped_array",
    "uint8_clamped_array",
    "bytes_float32_array",
    "float32_array",
    "bytes_float64_array",
    "float64_array",
    "bytes_array_buffer_view",
    "array_buffer_view",
    "bytes_buffer_source",
    "buffer_source",
    "bytes_promise",
    "promise",
    "bytes_error",
    "error",
    "bytes_neg_infinity",
    "neg_infinity",
    "bytes_underscore",
    "opt_bytes_underscore",
    "one_of_letter",
    "run_name",
    "identifier_text",
    "identifier",
    "opt_bytes_minus",
    "one_of_one_to_nine",
    "run_digit",
    "dec_lit_text",
    "dec_lit",
    "bytes_zero",
    "one_of_x_letter",
    "one_of_hex",
    "run_hex",
    "hex_lit_text",
    "hex_lit",
    "run_octal",
    "oct_lit_text",
    "oct_lit",
    "one_of_digit",
    "digits",
    "one_of_e_letter",
    "one_of_sign",
    "opt_one_of_sign",
    "exponent",
    "point_after_digits",
    "point_before_digits",
    "point",
    "opt_exponent",
    "point_form",
    "exponent_form",
    "float_form",
    "float_value_lit_text",
    "float_value_lit",
    "bytes_quote",
    "run_not_quote",
    "string_lit",
    "bytes_three_slashes",
    "past_lf",
    "doc_line",
    "many_doc_line",
    "docstring",
    "boolean_lit",
    "integer_lit",
    "float_lit",
    "empty_array_lit",
    "empty_dictionary_lit",
    "default_value",
    "const_value",
    "default",
    "opt_unsigned",
    "long_long",
    "long_long_type",
    "long_type",
    "short_type",
    "integer_type",
    "opt_unrestricted",
    "float_type",
    "double_type",
    "floating_point_type",
    "opt_q_mark",
    "may_be_null_integer_type",
    "may_be_null_floating_point_type",
    "may_be_null_boolean",
    "may_be_null_byte",
    "may_be_null_octet",
    "may_be_null_identifier",
    "const_type",
    "tail_identifier_comma",
    "identifier_list",
    "parenthesized_identifier_list",
    "generics_type",
    "sequence_type",
    "frozen_array_type",
    "generics_return_type",
    "promise_type",
    "generics_record_types",
    "record_type",
    "union_type",
    "may_be_null_union_type",
    "may_be_null_byte_string",
    "may_be_null_dom_string",
    "may_be_null_usv_string",
    "may_be_null_sequence_type",
    "may_be_null_object",
    "may_be_null_symbol",
    "may_be_null_error",
    "may_be_null_array_buffer",
    "may_be_null_data_view",
    "may_be_null_int8_array",
    "may_be_null_int16_array",
    "may_be_null_int32_array",
    "may_be_null_uint8_array",
    "may_be_null_uint16_array",
    "may_be_null_uint32_array",
    "may_be_null_uint8_clamped_array",
    "may_be_null_float32_array",
    "may_be_null_float64_array",
    "may_be_null_array_buffer_view",
    "may_be_null_buffer_source",
    "may_be_null_frozen_array_type",
    "may_be_null_record_type",
    "non_any_type",
    "record_key_type",
    "record_types",
    "single_type",
    "type",
    "return_type",
    "extended_attribute_list",
    "opt_extended_attribute_list",
    "attributed_type",
    "attributed_non_any_type",
    "union_member_type",
    "tail_union_member_type_or",
    "list_union_member_type_or",
    "opt_optional",
    "opt_default",
    "single_argument",
    "variadic_argument",
    "argument",
    "tail_argument_comma",
    "argument_list",
    "parenthesized_argument_list",
    "extended_attribute_arg_list",
    "extended_attribute_named_arg_list",
    "extended_attribute_ident_list",
    "identifier_or_string",
    "extended_attribute_ident",
    "extended_attribute_no_args",
    "extended_attribute",
    "tail_extended_attribute_comma",
    "list_extended_attribute_comma",
    "opt_docstring",
    "opt_identifier",
    "opt_read_only",
    "key_and_value_types",
    "generics_attributed_type",
    "generics_key_and_value_types",
    "inheritance",
    "opt_inheritance",
    "special",
    "opt_special",
    "stringifier_or_inherit_or_static",
    "opt_stringifier_or_inherit_or_static",
    "stringifier_or_static",
    "opt_stringifier_or_static",
    "const_member",
    "attribute_interface_member",
    "constructor_interface_member",
    "operation_interface_member",
    "single_typed_iterable",
    "double_typed_iterable",
    "iterable_interface_member",
    "async_iterable",
    "opt_parenthesized_argument_list",
    "single_typed_async_iterable",
    "double_typed_async_iterable",
    "async_iterable_interface_member",
    "maplike_interface_member",
    "setlike_interface_member",
    "stringifier_member",
    "interface_member",
    "interface_members",
    "braced_interface_members",
    "opt_stringifier",
    "operation_mixin_member",
    "attribute_mixin_member",
    "mixin_member",
    "mixin_members",
    "braced_mixin_members",
    "operation_namespace_member",
    "attribute_namespace_member",
    "namespace_member",
    "namespace_members",
    "braced_namespace_members",
    "opt_required",
    "dictionary_member",
    "dictionary_members",
    "braced_dictionary_members",
    "enum_variant",
    "tail_enum_variant_comma",
    "list1_enum_variant_comma",
    "opt_comma",
    "enum_value_list",
    "braced_enum_value_list",
    "callback_definition",
    "callback_interface_definition",
    "interface_definition",
    "interface_mixin_definition",
    "namespace_definition",
    "dictionary_definition",
    "partial_interface_definition",
    "partial_interface_mixin_definition",
    "partial_dictionary_definition",
    "partial_namespace_definition",
    "enum_definition",
    "typedef_definition",
    "includes_statement_definition",
    "implements_definition",
    "definition",
    "definitions",
    "bytes_asterisk",
    "asterisk",
    "bytes_big_int",
    "big_int",
    "bytes_async_iterable_word",
    "async_iterable_word",
    "bytes_async_sequence",
    "async_sequence",
    "bytes_observable_array",
    "observable_array",
    "bytes_float16_array",
    "float16_array",
    "bytes_big_int64_array",
    "big_int64_array",
    "bytes_big_uint64_array",
    "big_uint64_array",
    "bytes_shared_array_buffer",
    "shared_array_buffer",
    "today_doc",
    "today_docs",
    "today_last_doc",
    "today_trivia",
    "today_default_value",
    "today_default",
    "opt_today_default",
    "may_be_null_big_int",
    "today_const_type",
    "tail_string_lit_comma",
    "today_string_list",
    "parenthesized_today_strings",
    "today_number",
    "tail_today_number_comma",
    "today_number_list",
    "parenthesized_today_numbers",
    "generics_today_attributed_type",
    "today_sequence_type",
    "today_async_sequence_type",
    "today_frozen_array_type",
    "today_observable_array_type",
    "generics_today_type",
    "today_promise_type",
    "generics_today_record_types",
    "today_record_type",
    "today_union_type",
    "may_be_null_today_union_type",
    "today_word_type",
    "today_generic_type",
    "may_be_null_today_word_type",
    "may_be_null_today_generic_type",
    "today_non_any_type",
    "today_key_type",
    "today_record_types",
    "today_type",
    "today_attributes",
    "today_attribute_lists",
    "today_attributed_type",
    "today_attributed_non_any_type",
    "today_union_member_type",
    "tail_today_union_member_type_or",
    "list1_today_union_member_type_or",
    "today_optional_argument",
    "opt_ellipsis",
    "today_required_argument",
    "today_argument_kind",
    "today_argument",
    "tail_today_argument_comma",
    "today_argument_list",
    "today_arguments",
    "today_attribute_arg_list",
    "today_attribute_named_arg_list",
    "today_attribute_wildcard",
    "today_attribute_number",
    "today_attribute_strings",
    "today_attribute_numbers",
    "today_attribute",
    "tail_today_attribute_comma",
    "list_today_attribute_comma",
    "today_key_and_value_types",
    "generics_today_key_and_value_types",
    "today_second_type",
    "opt_today_second_type",
    "today_iterated",
    "today_const",
    "today_attribute_member",
    "today_constructor",
    "today_operation",
    "today_iterable",
    "today_async_words",
    "opt_today_arguments",
    "today_async_iterable",
    "today_maplike",
    "today_setlike",
    "today_stringifier",
    "today_interface_member_kind",
    "today_interface_member",
    "today_mixin_operation",
    "today_mixin_attribute",
    "today_mixin_member_kind",
    "today_mixin_member",
    "today_namespace_operation",
    "today_namespace_attribute",
    "today_namespace_member_kind",
    "today_namespace_member",
    "today_dictionary_member",
    "today_enum_value",
    "tail_today_enum_value_comma",
    "list1_today_enum_value_comma",
    "today_interface_members",
    "braced_today_interface_members",
    "today_mixin_members",
    "braced_today_mixin_members",
    "today_namespace_members",
    "braced_today_namespace_members",
    "today_dictionary_members",
    "braced_today_dictionary_members",
    "braced_today_enum_values",
    "today_callback",
    "today_callback_interface",
    "today_interface",
    "today_mixin",
    "today_namespace",
    "today_dictionary",
    "today_partial_interface",
    "today_partial_mixin",
    "today_partial_dictionary",
    "today_partial_namespace",
    "today_enum",
    "today_typedef",
    "today_includes",
    "today_implements",
    "today_definition_kind",
    "today_definition",
    "today_piece",
    "today_definitions",
];
