"""The rules of the grammar. What each reads is in docs/GRAMMAR.md.

Written by tools/write/python_types.py, and not edited by hand.
"""

#: The version of the library that has these rules: a byte each for its three numbers.
VERSION = 0x000b00

#: The names of the rules, by their numbers.
RULES = (
    "bytes_lf",
    "not_next_any",
    "line_end",
    "bytes_slash_slash",
    "not_next_slash",
    "run_not_line_feed",
    "line_comment",
    "one_of_blank",
    "run_blank",
    "blanks",
    "bytes_slash_star",
    "past_star_slash",
    "block_comment",
    "piece",
    "trivia",
    "bytes_open_paren",
    "open_paren",
    "bytes_close_paren",
    "close_paren",
    "bytes_open_bracket",
    "open_bracket",
    "bytes_close_bracket",
    "close_bracket",
    "bytes_open_brace",
    "open_brace",
    "bytes_close_brace",
    "close_brace",
    "bytes_comma",
    "comma",
    "bytes_minus",
    "minus",
    "bytes_dot",
    "dot",
    "bytes_ellipsis",
    "ellipsis",
    "bytes_colon",
    "colon",
    "bytes_semi_colon",
    "semi_colon",
    "bytes_less_than",
    "less_than",
    "bytes_assign",
    "assign",
    "bytes_greater_than",
    "greater_than",
    "bytes_q_mark",
    "q_mark",
    "bytes_or",
    "not_next_name",
    "or",
    "bytes_optional",
    "optional",
    "bytes_async",
    "async",
    "bytes_attribute",
    "attribute",
    "bytes_callback",
    "callback",
    "bytes_const",
    "const",
    "bytes_deleter",
    "deleter",
    "bytes_dictionary",
    "dictionary",
    "bytes_enum",
    "enum",
    "bytes_getter",
    "getter",
    "bytes_includes",
    "includes",
    "bytes_inherit",
    "inherit",
    "bytes_interface",
    "interface",
    "bytes_iterable",
    "iterable",
    "bytes_maplike",
    "maplike",
    "bytes_namespace",
    "namespace",
    "bytes_partial",
    "partial",
    "bytes_required",
    "required",
    "bytes_setlike",
    "setlike",
    "bytes_setter",
    "setter",
    "bytes_static",
    "static",
    "bytes_stringifier",
    "stringifier",
    "bytes_typedef",
    "typedef",
    "bytes_unrestricted",
    "unrestricted",
    "bytes_symbol",
    "symbol",
    "bytes_any",
    "any",
    "bytes_boolean",
    "boolean",
    "bytes_byte",
    "byte",
    "bytes_double",
    "double",
    "bytes_false",
    "false",
    "bytes_float",
    "float",
    "bytes_long",
    "long",
    "bytes_null",
    "null",
    "bytes_object",
    "object",
    "bytes_octet",
    "octet",
    "bytes_sequence",
    "sequence",
    "bytes_short",
    "short",
    "bytes_true",
    "true",
    "bytes_unsigned",
    "unsigned",
    "bytes_undefined",
    "undefined",
    "bytes_record",
    "record",
    "bytes_read_only",
    "read_only",
    "bytes_mixin",
    "mixin",
    "bytes_implements",
    "implements",
    "bytes_legacy_caller",
    "legacy_caller",
    "bytes_constructor",
    "constructor",
    "bytes_byte_string",
    "byte_string",
    "bytes_dom_string",
    "dom_string",
    "bytes_frozen_array",
    "frozen_array",
    "bytes_infinity",
    "infinity",
    "bytes_nan",
    "nan",
    "bytes_usv_string",
    "usv_string",
    "bytes_array_buffer",
    "array_buffer",
    "bytes_data_view",
    "data_view",
    "bytes_int8_array",
    "int8_array",
    "bytes_int16_array",
    "int16_array",
    "bytes_int32_array",
    "int32_array",
    "bytes_uint8_array",
    "uint8_array",
    "bytes_uint16_array",
    "uint16_array",
    "bytes_uint32_array",
    "uint32_array",
    "bytes_uint8_clamped_array",
    "uint8_clamped_array",
    "bytes_float32_array",
    "float32_array",
    "bytes_float64_array",
    "float64_array",
    "bytes_array_buffer_view",
    "array_buffer_view",
    "bytes_buffer_source",
    "buffer_source",
    "bytes_promise",
    "promise",
    "bytes_error",
    "error",
    "bytes_neg_infinity",
    "neg_infinity",
    "bytes_underscore",
    "opt_bytes_underscore",
    "one_of_letter",
    "run_name",
    "identifier_text",
    "identifier",
    "opt_bytes_minus",
    "one_of_one_to_nine",
    "run_digit",
    "dec_lit_text",
    "dec_lit",
    "bytes_zero",
    "one_of_x_letter",
    "one_of_hex",
    "run_hex",
    "hex_lit_text",
    "hex_lit",
    "run_octal",
    "oct_lit_text",
    "oct_lit",
    "one_of_digit",
    "digits",
    "one_of_e_letter",
    "one_of_sign",
    "opt_one_of_sign",
    "exponent",
    "point_after_digits",
    "point_before_digits",
    "point",
    "opt_exponent",
    "point_form",
    "exponent_form",
    "float_form",
    "float_value_lit_text",
    "float_value_lit",
    "bytes_quote",
    "run_not_quote",
    "string_lit",
    "bytes_three_slashes",
    "past_lf",
    "doc_line",
    "many_doc_line",
    "docstring",
    "boolean_lit",
    "integer_lit",
    "float_lit",
    "empty_array_lit",
    "empty_dictionary_lit",
    "default_value",
    "const_value",
    "default",
    "opt_unsigned",
    "long_long",
    "long_long_type",
    "long_type",
    "short_type",
    "integer_type",
    "opt_unrestricted",
    "float_type",
    "double_type",
    "floating_point_type",
    "opt_q_mark",
    "may_be_null_integer_type",
    "may_be_null_floating_point_type",
    "may_be_null_boolean",
    "may_be_null_byte",
    "may_be_null_octet",
    "may_be_null_identifier",
    "const_type",
    "tail_identifier_comma",
    "identifier_list",
    "parenthesized_identifier_list",
    "generics_type",
    "sequence_type",
    "frozen_array_type",
    "generics_return_type",
    "promise_type",
    "generics_record_types",
    "record_type",
    "union_type",
    "may_be_null_union_type",
    "may_be_null_byte_string",
    "may_be_null_dom_string",
    "may_be_null_usv_string",
    "may_be_null_sequence_type",
    "may_be_null_object",
    "may_be_null_symbol",
    "may_be_null_error",
    "may_be_null_array_buffer",
    "may_be_null_data_view",
    "may_be_null_int8_array",
    "may_be_null_int16_array",
    "may_be_null_int32_array",
    "may_be_null_uint8_array",
    "may_be_null_uint16_array",
    "may_be_null_uint32_array",
    "may_be_null_uint8_clamped_array",
    "may_be_null_float32_array",
    "may_be_null_float64_array",
    "may_be_null_array_buffer_view",
    "may_be_null_buffer_source",
    "may_be_null_frozen_array_type",
    "may_be_null_record_type",
    "non_any_type",
    "record_key_type",
    "record_types",
    "single_type",
    "type",
    "return_type",
    "extended_attribute_list",
    "opt_extended_attribute_list",
    "attributed_type",
    "attributed_non_any_type",
    "union_member_type",
    "tail_union_member_type_or",
    "list_union_member_type_or",
    "opt_optional",
    "opt_default",
    "single_argument",
    "variadic_argument",
    "argument",
    "tail_argument_comma",
    "argument_list",
    "parenthesized_argument_list",
    "extended_attribute_arg_list",
    "extended_attribute_named_arg_list",
    "extended_attribute_ident_list",
    "identifier_or_string",
    "extended_attribute_ident",
    "extended_attribute_no_args",
    "extended_attribute",
    "tail_extended_attribute_comma",
    "list_extended_attribute_comma",
    "opt_docstring",
    "opt_identifier",
    "opt_read_only",
    "key_and_value_types",
    "generics_attributed_type",
    "generics_key_and_value_types",
    "inheritance",
    "opt_inheritance",
    "special",
    "opt_special",
    "stringifier_or_inherit_or_static",
    "opt_stringifier_or_inherit_or_static",
    "stringifier_or_static",
    "opt_stringifier_or_static",
    "const_member",
    "attribute_interface_member",
    "constructor_interface_member",
    "operation_interface_member",
    "single_typed_iterable",
    "double_typed_iterable",
    "iterable_interface_member",
    "async_iterable",
    "opt_parenthesized_argument_list",
    "single_typed_async_iterable",
    "double_typed_async_iterable",
    "async_iterable_interface_member",
    "maplike_interface_member",
    "setlike_interface_member",
    "stringifier_member",
    "interface_member",
    "interface_members",
    "braced_interface_members",
    "opt_stringifier",
    "operation_mixin_member",
    "attribute_mixin_member",
    "mixin_member",
    "mixin_members",
    "braced_mixin_members",
    "operation_namespace_member",
    "attribute_namespace_member",
    "namespace_member",
    "namespace_members",
    "braced_namespace_members",
    "opt_required",
    "dictionary_member",
    "dictionary_members",
    "braced_dictionary_members",
    "enum_variant",
    "tail_enum_variant_comma",
    "list1_enum_variant_comma",
    "opt_comma",
    "enum_value_list",
    "braced_enum_value_list",
    "callback_definition",
    "callback_interface_definition",
    "interface_definition",
    "interface_mixin_definition",
    "namespace_definition",
    "dictionary_definition",
    "partial_interface_definition",
    "partial_interface_mixin_definition",
    "partial_dictionary_definition",
    "partial_namespace_definition",
    "enum_definition",
    "typedef_definition",
    "includes_statement_definition",
    "implements_definition",
    "definition",
    "definitions",
    "bytes_asterisk",
    "asterisk",
    "bytes_big_int",
    "big_int",
    "bytes_async_iterable_word",
    "async_iterable_word",
    "bytes_async_sequence",
    "async_sequence",
    "bytes_observable_array",
    "observable_array",
    "bytes_float16_array",
    "float16_array",
    "bytes_big_int64_array",
    "big_int64_array",
    "bytes_big_uint64_array",
    "big_uint64_array",
    "bytes_shared_array_buffer",
    "shared_array_buffer",
    "today_doc",
    "today_docs",
    "today_last_doc",
    "today_trivia",
    "today_default_value",
    "today_default",
    "opt_today_default",
    "may_be_null_big_int",
    "today_const_type",
    "tail_string_lit_comma",
    "today_string_list",
    "parenthesized_today_strings",
    "today_number",
    "tail_today_number_comma",
    "today_number_list",
    "parenthesized_today_numbers",
    "generics_today_attributed_type",
    "today_sequence_type",
    "today_async_sequence_type",
    "today_frozen_array_type",
    "today_observable_array_type",
    "generics_today_type",
    "today_promise_type",
    "generics_today_record_types",
    "today_record_type",
    "today_union_type",
    "may_be_null_today_union_type",
    "today_word_type",
    "today_generic_type",
    "may_be_null_today_word_type",
    "may_be_null_today_generic_type",
    "today_non_any_type",
    "today_key_type",
    "today_record_types",
    "today_type",
    "today_attributes",
    "today_attribute_lists",
    "today_attributed_type",
    "today_attributed_non_any_type",
    "today_union_member_type",
    "tail_today_union_member_type_or",
    "list1_today_union_member_type_or",
    "today_optional_argument",
    "opt_ellipsis",
    "today_required_argument",
    "today_argument_kind",
    "today_argument",
    "tail_today_argument_comma",
    "today_argument_list",
    "today_arguments",
    "today_attribute_arg_list",
    "today_attribute_named_arg_list",
    "today_attribute_wildcard",
    "today_attribute_number",
    "today_attribute_strings",
    "today_attribute_numbers",
    "today_attribute",
    "tail_today_attribute_comma",
    "list_today_attribute_comma",
    "today_key_and_value_types",
    "generics_today_key_and_value_types",
    "today_second_type",
    "opt_today_second_type",
    "today_iterated",
    "today_const",
    "today_attribute_member",
    "today_constructor",
    "today_operation",
    "today_iterable",
    "today_async_words",
    "opt_today_arguments",
    "today_async_iterable",
    "today_maplike",
    "today_setlike",
    "today_stringifier",
    "today_interface_member_kind",
    "today_interface_member",
    "today_mixin_operation",
    "today_mixin_attribute",
    "today_mixin_member_kind",
    "today_mixin_member",
    "today_namespace_operation",
    "today_namespace_attribute",
    "today_namespace_member_kind",
    "today_namespace_member",
    "today_dictionary_member",
    "today_enum_value",
    "tail_today_enum_value_comma",
    "list1_today_enum_value_comma",
    "today_interface_members",
    "braced_today_interface_members",
    "today_mixin_members",
    "braced_today_mixin_members",
    "today_namespace_members",
    "braced_today_namespace_members",
    "today_dictionary_members",
    "braced_today_dictionary_members",
    "braced_today_enum_values",
    "today_callback",
    "today_callback_interface",
    "today_interface",
    "today_mixin",
    "today_namespace",
    "today_dictionary",
    "today_partial_interface",
    "today_partial_mixin",
    "today_partial_dictionary",
    "today_partial_namespace",
    "today_enum",
    "today_typedef",
    "today_includes",
    "today_implements",
    "today_definition_kind",
    "today_definition",
    "today_piece",
    "today_definitions",
)

#: The numbers of the rules, by their names.
NUMBERS = {name: number for number, name in enumerate(RULES)}

#: The words of the grammar that have the letters of a name.
KEYWORDS = frozenset(
        "ArrayBuffer ArrayBufferView BufferSource ByteString DOMString DataView Error "
        "Float32Array Float64Array FrozenArray Infinity Int16Array Int32Array Int8Array "
        "NaN Promise USVString Uint16Array Uint32Array Uint8Array Uint8ClampedArray any "
        "async attribute boolean byte callback const constructor deleter dictionary "
        "double enum false float getter implements includes inherit interface iterable "
        "legacycaller long maplike mixin namespace null object octet optional or partial "
        "readonly record required sequence setlike setter short static stringifier symbol "
        "true typedef undefined unrestricted unsigned".split()
)

#: Which of them are read behind which word, where a name could be too. The word is `a` for any
#: name.
READ_BEHIND = {
    "(": frozenset(
        "ArrayBuffer ArrayBufferView BufferSource ByteString DOMString DataView Error "
        "Float32Array Float64Array FrozenArray Int16Array Int32Array Int8Array Promise "
        "USVString Uint16Array Uint32Array Uint8Array Uint8ClampedArray any boolean byte "
        "double float long object octet optional record sequence short symbol "
        "unrestricted unsigned".split()
    ),
    ")": frozenset(["or"]),
    "]": frozenset(
        "ArrayBuffer ArrayBufferView BufferSource ByteString DOMString DataView Error "
        "Float32Array Float64Array FrozenArray Int16Array Int32Array Int8Array Promise "
        "USVString Uint16Array Uint32Array Uint8Array Uint8ClampedArray any async "
        "attribute boolean byte callback const constructor deleter dictionary double enum "
        "float getter inherit interface iterable legacycaller long maplike namespace "
        "object octet optional partial readonly record required sequence setlike setter "
        "short static stringifier symbol typedef undefined unrestricted unsigned".split()
    ),
    "{": frozenset(
        "ArrayBuffer ArrayBufferView BufferSource ByteString DOMString DataView Error "
        "Float32Array Float64Array FrozenArray Int16Array Int32Array Int8Array Promise "
        "USVString Uint16Array Uint32Array Uint8Array Uint8ClampedArray any async "
        "attribute boolean byte const constructor deleter double float getter inherit "
        "iterable legacycaller long maplike object octet readonly record required "
        "sequence setlike setter short static stringifier symbol undefined unrestricted "
        "unsigned".split()
    ),
    ",": frozenset(
        "ArrayBuffer ArrayBufferView BufferSource ByteString DOMString DataView Error "
        "Float32Array Float64Array FrozenArray Int16Array Int32Array Int8Array Promise "
        "USVString Uint16Array Uint32Array Uint8Array Uint8ClampedArray any boolean byte "
        "double float long object octet optional record sequence short symbol "
        "unrestricted unsigned".split()
    ),
    ";": frozenset(
        "ArrayBuffer ArrayBufferView BufferSource ByteString DOMString DataView Error "
        "Float32Array Float64Array FrozenArray Int16Array Int32Array Int8Array Promise "
        "USVString Uint16Array Uint32Array Uint8Array Uint8ClampedArray any async "
        "attribute boolean byte callback const constructor deleter dictionary double enum "
        "float getter inherit interface iterable legacycaller long maplike namespace "
        "object octet partial readonly record required sequence setlike setter short "
        "static stringifier symbol typedef undefined unrestricted unsigned".split()
    ),
    "<": frozenset(
        "ArrayBuffer ArrayBufferView BufferSource ByteString DOMString DataView Error "
        "Float32Array Float64Array FrozenArray Int16Array Int32Array Int8Array Promise "
        "USVString Uint16Array Uint32Array Uint8Array Uint8ClampedArray any boolean byte "
        "double float long object octet record sequence short symbol undefined "
        "unrestricted unsigned".split()
    ),
    "=": frozenset(
        "ArrayBuffer ArrayBufferView BufferSource ByteString DOMString DataView Error "
        "Float32Array Float64Array FrozenArray Infinity Int16Array Int32Array Int8Array "
        "NaN Promise USVString Uint16Array Uint32Array Uint8Array Uint8ClampedArray any "
        "boolean byte double false float long null object octet record sequence short "
        "symbol true undefined unrestricted unsigned".split()
    ),
    ">": frozenset(["or"]),
    "?": frozenset(["or"]),
    "or": frozenset(
        "ArrayBuffer ArrayBufferView BufferSource ByteString DOMString DataView Error "
        "Float32Array Float64Array FrozenArray Int16Array Int32Array Int8Array Promise "
        "USVString Uint16Array Uint32Array Uint8Array Uint8ClampedArray boolean byte "
        "double float long object octet record sequence short symbol unrestricted "
        "unsigned".split()
    ),
    "optional": frozenset(
        "ArrayBuffer ArrayBufferView BufferSource ByteString DOMString DataView Error "
        "Float32Array Float64Array FrozenArray Int16Array Int32Array Int8Array Promise "
        "USVString Uint16Array Uint32Array Uint8Array Uint8ClampedArray any boolean byte "
        "double float long object octet record sequence short symbol unrestricted "
        "unsigned".split()
    ),
    "attribute": frozenset(
        "ArrayBuffer ArrayBufferView BufferSource ByteString DOMString DataView Error "
        "Float32Array Float64Array FrozenArray Int16Array Int32Array Int8Array Promise "
        "USVString Uint16Array Uint32Array Uint8Array Uint8ClampedArray any boolean byte "
        "double float long object octet record sequence short symbol unrestricted "
        "unsigned".split()
    ),
    "callback": frozenset(["interface"]),
    "const": frozenset(
        "boolean byte double float long octet short unrestricted unsigned".split()
    ),
    "deleter": frozenset(
        "ArrayBuffer ArrayBufferView BufferSource ByteString DOMString DataView Error "
        "Float32Array Float64Array FrozenArray Int16Array Int32Array Int8Array Promise "
        "USVString Uint16Array Uint32Array Uint8Array Uint8ClampedArray any boolean byte "
        "double float long object octet record sequence short symbol undefined "
        "unrestricted unsigned".split()
    ),
    "getter": frozenset(
        "ArrayBuffer ArrayBufferView BufferSource ByteString DOMString DataView Error "
        "Float32Array Float64Array FrozenArray Int16Array Int32Array Int8Array Promise "
        "USVString Uint16Array Uint32Array Uint8Array Uint8ClampedArray any boolean byte "
        "double float long object octet record sequence short symbol undefined "
        "unrestricted unsigned".split()
    ),
    "interface": frozenset(["mixin"]),
    "required": frozenset(
        "ArrayBuffer ArrayBufferView BufferSource ByteString DOMString DataView Error "
        "Float32Array Float64Array FrozenArray Int16Array Int32Array Int8Array Promise "
        "USVString Uint16Array Uint32Array Uint8Array Uint8ClampedArray any boolean byte "
        "double float long object octet record sequence short symbol unrestricted "
        "unsigned".split()
    ),
    "setter": frozenset(
        "ArrayBuffer ArrayBufferView BufferSource ByteString DOMString DataView Error "
        "Float32Array Float64Array FrozenArray Int16Array Int32Array Int8Array Promise "
        "USVString Uint16Array Uint32Array Uint8Array Uint8ClampedArray any boolean byte "
        "double float long object octet record sequence short symbol undefined "
        "unrestricted unsigned".split()
    ),
    "static": frozenset(
        "ArrayBuffer ArrayBufferView BufferSource ByteString DOMString DataView Error "
        "Float32Array Float64Array FrozenArray Int16Array Int32Array Int8Array Promise "
        "USVString Uint16Array Uint32Array Uint8Array Uint8ClampedArray any attribute "
        "boolean byte deleter double float getter legacycaller long object octet readonly "
        "record sequence setter short symbol undefined unrestricted unsigned".split()
    ),
    "stringifier": frozenset(
        "ArrayBuffer ArrayBufferView BufferSource ByteString DOMString DataView Error "
        "Float32Array Float64Array FrozenArray Int16Array Int32Array Int8Array Promise "
        "USVString Uint16Array Uint32Array Uint8Array Uint8ClampedArray any attribute "
        "boolean byte deleter double float getter legacycaller long object octet readonly "
        "record sequence setter short symbol undefined unrestricted unsigned".split()
    ),
    "typedef": frozenset(
        "ArrayBuffer ArrayBufferView BufferSource ByteString DOMString DataView Error "
        "Float32Array Float64Array FrozenArray Int16Array Int32Array Int8Array Promise "
        "USVString Uint16Array Uint32Array Uint8Array Uint8ClampedArray any boolean byte "
        "double float long object octet record sequence short symbol unrestricted "
        "unsigned".split()
    ),
    "symbol": frozenset(["or"]),
    "boolean": frozenset(["or"]),
    "byte": frozenset(["or"]),
    "double": frozenset(["or"]),
    "float": frozenset(["or"]),
    "long": frozenset(["long", "or"]),
    "object": frozenset(["or"]),
    "octet": frozenset(["or"]),
    "short": frozenset(["or"]),
    "legacycaller": frozenset(
        "ArrayBuffer ArrayBufferView BufferSource ByteString DOMString DataView Error "
        "Float32Array Float64Array FrozenArray Int16Array Int32Array Int8Array Promise "
        "USVString Uint16Array Uint32Array Uint8Array Uint8ClampedArray any boolean byte "
        "double float long object octet record sequence short symbol undefined "
        "unrestricted unsigned".split()
    ),
    "ByteString": frozenset(["or"]),
    "DOMString": frozenset(["or"]),
    "USVString": frozenset(["or"]),
    "ArrayBuffer": frozenset(["or"]),
    "DataView": frozenset(["or"]),
    "Int8Array": frozenset(["or"]),
    "Int16Array": frozenset(["or"]),
    "Int32Array": frozenset(["or"]),
    "Uint8Array": frozenset(["or"]),
    "Uint16Array": frozenset(["or"]),
    "Uint32Array": frozenset(["or"]),
    "Uint8ClampedArray": frozenset(["or"]),
    "Float32Array": frozenset(["or"]),
    "Float64Array": frozenset(["or"]),
    "ArrayBufferView": frozenset(["or"]),
    "BufferSource": frozenset(["or"]),
    "Error": frozenset(["or"]),
    "a": frozenset(["implements", "includes", "or"]),
}

#: The words of today's grammar that have the letters of a name.
TODAY_KEYWORDS = frozenset(
        "ArrayBuffer ArrayBufferView BigInt64Array BigUint64Array BufferSource ByteString "
        "DOMString DataView Error Float16Array Float32Array Float64Array FrozenArray "
        "Infinity Int16Array Int32Array Int8Array NaN ObservableArray Promise "
        "SharedArrayBuffer USVString Uint16Array Uint32Array Uint8Array Uint8ClampedArray "
        "any async async_iterable async_sequence attribute bigint boolean byte callback "
        "const constructor deleter dictionary double enum false float getter implements "
        "includes inherit interface iterable legacycaller long maplike mixin namespace "
        "null object octet optional or partial readonly record required sequence setlike "
        "setter short static stringifier symbol true typedef undefined unrestricted "
        "unsigned".split()
)

#: Which of them are read behind which word.
TODAY_READ_BEHIND = {
    "(": frozenset(
        "ArrayBuffer ArrayBufferView BigInt64Array BigUint64Array BufferSource ByteString "
        "DOMString DataView Error Float16Array Float32Array Float64Array FrozenArray "
        "Infinity Int16Array Int32Array Int8Array NaN ObservableArray Promise "
        "SharedArrayBuffer USVString Uint16Array Uint32Array Uint8Array Uint8ClampedArray "
        "any async_sequence bigint boolean byte double float long object octet optional "
        "record sequence short symbol undefined unrestricted unsigned".split()
    ),
    ")": frozenset(["or"]),
    "]": frozenset(
        "ArrayBuffer ArrayBufferView BigInt64Array BigUint64Array BufferSource ByteString "
        "DOMString DataView Error Float16Array Float32Array Float64Array FrozenArray "
        "Int16Array Int32Array Int8Array ObservableArray Promise SharedArrayBuffer "
        "USVString Uint16Array Uint32Array Uint8Array Uint8ClampedArray any async "
        "async_iterable async_sequence attribute bigint boolean byte callback const "
        "constructor deleter dictionary double enum float getter inherit interface "
        "iterable legacycaller long maplike namespace object octet optional partial "
        "readonly record required sequence setlike setter short static stringifier symbol "
        "typedef undefined unrestricted unsigned".split()
    ),
    "{": frozenset(
        "ArrayBuffer ArrayBufferView BigInt64Array BigUint64Array BufferSource ByteString "
        "DOMString DataView Error Float16Array Float32Array Float64Array FrozenArray "
        "Int16Array Int32Array Int8Array ObservableArray Promise SharedArrayBuffer "
        "USVString Uint16Array Uint32Array Uint8Array Uint8ClampedArray any async "
        "async_iterable async_sequence attribute bigint boolean byte const constructor "
        "deleter double float getter inherit iterable legacycaller long maplike object "
        "octet readonly record required sequence setlike setter short static stringifier "
        "symbol undefined unrestricted unsigned".split()
    ),
    ",": frozenset(
        "ArrayBuffer ArrayBufferView BigInt64Array BigUint64Array BufferSource ByteString "
        "DOMString DataView Error Float16Array Float32Array Float64Array FrozenArray "
        "Infinity Int16Array Int32Array Int8Array NaN ObservableArray Promise "
        "SharedArrayBuffer USVString Uint16Array Uint32Array Uint8Array Uint8ClampedArray "
        "any async_sequence bigint boolean byte double float long object octet optional "
        "record sequence short symbol undefined unrestricted unsigned".split()
    ),
    ";": frozenset(
        "ArrayBuffer ArrayBufferView BigInt64Array BigUint64Array BufferSource ByteString "
        "DOMString DataView Error Float16Array Float32Array Float64Array FrozenArray "
        "Int16Array Int32Array Int8Array ObservableArray Promise SharedArrayBuffer "
        "USVString Uint16Array Uint32Array Uint8Array Uint8ClampedArray any async "
        "async_iterable async_sequence attribute bigint boolean byte callback const "
        "constructor deleter dictionary double enum float getter inherit interface "
        "iterable legacycaller long maplike namespace object octet partial readonly "
        "record required sequence setlike setter short static stringifier symbol typedef "
        "undefined unrestricted unsigned".split()
    ),
    "<": frozenset(
        "ArrayBuffer ArrayBufferView BigInt64Array BigUint64Array BufferSource ByteString "
        "DOMString DataView Error Float16Array Float32Array Float64Array FrozenArray "
        "Int16Array Int32Array Int8Array ObservableArray Promise SharedArrayBuffer "
        "USVString Uint16Array Uint32Array Uint8Array Uint8ClampedArray any "
        "async_sequence bigint boolean byte double float long object octet record "
        "sequence short symbol undefined unrestricted unsigned".split()
    ),
    "=": frozenset(
        "ArrayBuffer ArrayBufferView BigInt64Array BigUint64Array BufferSource ByteString "
        "DOMString DataView Error Float16Array Float32Array Float64Array FrozenArray "
        "Infinity Int16Array Int32Array Int8Array NaN ObservableArray Promise "
        "SharedArrayBuffer USVString Uint16Array Uint32Array Uint8Array Uint8ClampedArray "
        "any async_sequence bigint boolean byte double false float long null object octet "
        "record sequence short symbol true undefined unrestricted unsigned".split()
    ),
    ">": frozenset(["or"]),
    "?": frozenset(["or"]),
    "or": frozenset(
        "ArrayBuffer ArrayBufferView BigInt64Array BigUint64Array BufferSource ByteString "
        "DOMString DataView Error Float16Array Float32Array Float64Array FrozenArray "
        "Int16Array Int32Array Int8Array ObservableArray Promise SharedArrayBuffer "
        "USVString Uint16Array Uint32Array Uint8Array Uint8ClampedArray async_sequence "
        "bigint boolean byte double float long object octet record sequence short symbol "
        "undefined unrestricted unsigned".split()
    ),
    "optional": frozenset(
        "ArrayBuffer ArrayBufferView BigInt64Array BigUint64Array BufferSource ByteString "
        "DOMString DataView Error Float16Array Float32Array Float64Array FrozenArray "
        "Int16Array Int32Array Int8Array ObservableArray Promise SharedArrayBuffer "
        "USVString Uint16Array Uint32Array Uint8Array Uint8ClampedArray any "
        "async_sequence bigint boolean byte double float long object octet record "
        "sequence short symbol undefined unrestricted unsigned".split()
    ),
    "attribute": frozenset(
        "ArrayBuffer ArrayBufferView BigInt64Array BigUint64Array BufferSource ByteString "
        "DOMString DataView Error Float16Array Float32Array Float64Array FrozenArray "
        "Int16Array Int32Array Int8Array ObservableArray Promise SharedArrayBuffer "
        "USVString Uint16Array Uint32Array Uint8Array Uint8ClampedArray any "
        "async_sequence bigint boolean byte double float long object octet record "
        "sequence short symbol undefined unrestricted unsigned".split()
    ),
    "callback": frozenset(["interface"]),
    "const": frozenset(
        "bigint boolean byte double float long octet short unrestricted unsigned".split()
    ),
    "deleter": frozenset(
        "ArrayBuffer ArrayBufferView BigInt64Array BigUint64Array BufferSource ByteString "
        "DOMString DataView Error Float16Array Float32Array Float64Array FrozenArray "
        "Int16Array Int32Array Int8Array ObservableArray Promise SharedArrayBuffer "
        "USVString Uint16Array Uint32Array Uint8Array Uint8ClampedArray any "
        "async_sequence bigint boolean byte double float long object octet record "
        "sequence short symbol undefined unrestricted unsigned".split()
    ),
    "getter": frozenset(
        "ArrayBuffer ArrayBufferView BigInt64Array BigUint64Array BufferSource ByteString "
        "DOMString DataView Error Float16Array Float32Array Float64Array FrozenArray "
        "Int16Array Int32Array Int8Array ObservableArray Promise SharedArrayBuffer "
        "USVString Uint16Array Uint32Array Uint8Array Uint8ClampedArray any "
        "async_sequence bigint boolean byte double float long object octet record "
        "sequence short symbol undefined unrestricted unsigned".split()
    ),
    "interface": frozenset(["mixin"]),
    "required": frozenset(
        "ArrayBuffer ArrayBufferView BigInt64Array BigUint64Array BufferSource ByteString "
        "DOMString DataView Error Float16Array Float32Array Float64Array FrozenArray "
        "Int16Array Int32Array Int8Array ObservableArray Promise SharedArrayBuffer "
        "USVString Uint16Array Uint32Array Uint8Array Uint8ClampedArray any "
        "async_sequence bigint boolean byte double float long object octet record "
        "sequence short symbol undefined unrestricted unsigned".split()
    ),
    "setter": frozenset(
        "ArrayBuffer ArrayBufferView BigInt64Array BigUint64Array BufferSource ByteString "
        "DOMString DataView Error Float16Array Float32Array Float64Array FrozenArray "
        "Int16Array Int32Array Int8Array ObservableArray Promise SharedArrayBuffer "
        "USVString Uint16Array Uint32Array Uint8Array Uint8ClampedArray any "
        "async_sequence bigint boolean byte double float long object octet record "
        "sequence short symbol undefined unrestricted unsigned".split()
    ),
    "static": frozenset(
        "ArrayBuffer ArrayBufferView BigInt64Array BigUint64Array BufferSource ByteString "
        "DOMString DataView Error Float16Array Float32Array Float64Array FrozenArray "
        "Int16Array Int32Array Int8Array ObservableArray Promise SharedArrayBuffer "
        "USVString Uint16Array Uint32Array Uint8Array Uint8ClampedArray any "
        "async_sequence attribute bigint boolean byte deleter double float getter "
        "legacycaller long object octet readonly record sequence setter short symbol "
        "undefined unrestricted unsigned".split()
    ),
    "stringifier": frozenset(
        "ArrayBuffer ArrayBufferView BigInt64Array BigUint64Array BufferSource ByteString "
        "DOMString DataView Error Float16Array Float32Array Float64Array FrozenArray "
        "Int16Array Int32Array Int8Array ObservableArray Promise SharedArrayBuffer "
        "USVString Uint16Array Uint32Array Uint8Array Uint8ClampedArray any "
        "async_sequence attribute bigint boolean byte deleter double float getter "
        "legacycaller long object octet readonly record sequence setter short symbol "
        "undefined unrestricted unsigned".split()
    ),
    "typedef": frozenset(
        "ArrayBuffer ArrayBufferView BigInt64Array BigUint64Array BufferSource ByteString "
        "DOMString DataView Error Float16Array Float32Array Float64Array FrozenArray "
        "Int16Array Int32Array Int8Array ObservableArray Promise SharedArrayBuffer "
        "USVString Uint16Array Uint32Array Uint8Array Uint8ClampedArray any "
        "async_sequence bigint boolean byte double float long object octet record "
        "sequence short symbol undefined unrestricted unsigned".split()
    ),
    "symbol": frozenset(["or"]),
    "boolean": frozenset(["or"]),
    "byte": frozenset(["or"]),
    "double": frozenset(["or"]),
    "float": frozenset(["or"]),
    "long": frozenset(["long", "or"]),
    "object": frozenset(["or"]),
    "octet": frozenset(["or"]),
    "short": frozenset(["or"]),
    "undefined": frozenset(["or"]),
    "legacycaller": frozenset(
        "ArrayBuffer ArrayBufferView BigInt64Array BigUint64Array BufferSource ByteString "
        "DOMString DataView Error Float16Array Float32Array Float64Array FrozenArray "
        "Int16Array Int32Array Int8Array ObservableArray Promise SharedArrayBuffer "
        "USVString Uint16Array Uint32Array Uint8Array Uint8ClampedArray any "
        "async_sequence bigint boolean byte double float long object octet record "
        "sequence short symbol undefined unrestricted unsigned".split()
    ),
    "ByteString": frozenset(["or"]),
    "DOMString": frozenset(["or"]),
    "USVString": frozenset(["or"]),
    "ArrayBuffer": frozenset(["or"]),
    "DataView": frozenset(["or"]),
    "Int8Array": frozenset(["or"]),
    "Int16Array": frozenset(["or"]),
    "Int32Array": frozenset(["or"]),
    "Uint8Array": frozenset(["or"]),
    "Uint16Array": frozenset(["or"]),
    "Uint32Array": frozenset(["or"]),
    "Uint8ClampedArray": frozenset(["or"]),
    "Float32Array": frozenset(["or"]),
    "Float64Array": frozenset(["or"]),
    "ArrayBufferView": frozenset(["or"]),
    "BufferSource": frozenset(["or"]),
    "Error": frozenset(["or"]),
    "a": frozenset(["implements", "includes", "or"]),
    "bigint": frozenset(["or"]),
    "Float16Array": frozenset(["or"]),
    "BigInt64Array": frozenset(["or"]),
    "BigUint64Array": frozenset(["or"]),
    "SharedArrayBuffer": frozenset(["or"]),
    "///": frozenset(
        "callback dictionary enum interface namespace partial typedef".split()
    ),
}
