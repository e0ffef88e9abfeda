/*
 * What names stand for.
 *
 * Written by tools/write/javascript_types.py, and not edited by hand.
 */

"use strict";

/** What a name stands for, by the rule that reads it. */
const ROLES = Object.freeze({
  callback_definition: "Callback",
  callback_interface_definition: "CallbackInterface",
  interface_definition: "Interface",
  interface_mixin_definition: "Mixin",
  namespace_definition: "Namespace",
  dictionary_definition: "Dictionary",
  partial_interface_definition: "PartialInterface",
  partial_interface_mixin_definition: "PartialMixin",
  partial_dictionary_definition: "PartialDictionary",
  partial_namespace_definition: "PartialNamespace",
  enum_definition: "Enum",
  typedef_definition: "Typedef",
  includes_statement_definition: "Includer",
  implements_definition: "Implementer",
  const_member: "Const",
  attribute_interface_member: "Attribute",
  attribute_mixin_member: "Attribute",
  attribute_namespace_member: "Attribute",
  opt_identifier: "Operation",
  dictionary_member: "DictionaryMember",
  single_argument: "Argument",
  variadic_argument: "Argument",
  may_be_null_identifier: "Type",
  inheritance: "Inherited",
  extended_attribute_arg_list: "ExtendedAttribute",
  extended_attribute_named_arg_list: "ExtendedAttribute",
  extended_attribute_ident_list: "ExtendedAttribute",
  extended_attribute_ident: "ExtendedAttribute",
  extended_attribute_no_args: "ExtendedAttribute",
  identifier_list: "ExtendedAttributeValue",
  tail_identifier_comma: "ExtendedAttributeValue",
  identifier_or_string: "ExtendedAttributeValue",
  today_callback: "Callback",
  today_callback_interface: "CallbackInterface",
  today_interface: "Interface",
  today_mixin: "Mixin",
  today_namespace: "Namespace",
  today_dictionary: "Dictionary",
  today_partial_interface: "PartialInterface",
  today_partial_mixin: "PartialMixin",
  today_partial_dictionary: "PartialDictionary",
  today_partial_namespace: "PartialNamespace",
  today_enum: "Enum",
  today_typedef: "Typedef",
  today_includes: "Includer",
  today_implements: "Implementer",
  today_const: "Const",
  today_attribute_member: "Attribute",
  today_mixin_attribute: "Attribute",
  today_namespace_attribute: "Attribute",
  today_dictionary_member: "DictionaryMember",
  today_optional_argument: "Argument",
  today_required_argument: "Argument",
  today_attribute_arg_list: "ExtendedAttribute",
  today_attribute_named_arg_list: "ExtendedAttribute",
  today_attribute_wildcard: "ExtendedAttribute",
  today_attribute_number: "ExtendedAttribute",
  today_attribute_strings: "ExtendedAttribute",
  today_attribute_numbers: "ExtendedAttribute",
});

/** What a name stands for, by that rule, where it has read a name before. */
const LATER = Object.freeze({
  extended_attribute_named_arg_list: "ExtendedAttributeValue",
  includes_statement_definition: "Included",
  implements_definition: "Implemented",
  today_attribute_named_arg_list: "ExtendedAttributeValue",
  today_includes: "Included",
  today_implements: "Implemented",
});

module.exports = { LATER, ROLES };
