/*
 * Today's tree: the types that weedle2's hasn't. What both have is in the other modules.
 *
 * Written by tools/write/javascript_types.py, and not edited by hand.
 */

"use strict";

const { Choice, Chosen, Factored, Leaf, Terminal, Value, chosenPart, part } = require("../value.js");

/** The symbol `*`. */
class Asterisk extends Terminal {}

/** The keyword `bigint`. */
class BigInt extends Terminal {}

/** The keyword `async_iterable`. */
class AsyncIterableWord extends Terminal {}

/** The keyword `async_sequence`. */
class AsyncSequence extends Terminal {}

/** The keyword `ObservableArray`. */
class ObservableArray extends Terminal {}

/** The keyword `Float16Array`. */
class Float16Array extends Terminal {}

/** The keyword `BigInt64Array`. */
class BigInt64Array extends Terminal {}

/** The keyword `BigUint64Array`. */
class BigUint64Array extends Terminal {}

/** The keyword `SharedArrayBuffer`. */
class SharedArrayBuffer extends Terminal {}

/** A docstring's line that the text ends in, which has no line end. */
class LastDocstring extends Leaf {
  static kept = 2;
}

/** A body in braces, as `{ .. }`, with docstrings in front of the `}`. */
class Braced extends Value {
  static fields = {
    openBrace: "open_brace",
    body: "body",
    docstrings: "docstrings",
    closeBrace: "close_brace",
  };

  get openBrace() {
    return part(this, 0);
  }

  get body() {
    return part(this, 1);
  }

  get docstrings() {
    return part(this, 2);
  }

  get closeBrace() {
    return part(this, 3);
  }
}

/** A default, as `= 5`. */
class Default extends Value {
  static fields = {
    assign: "assign",
    value: "value",
  };

  get assign() {
    return part(this, 0);
  }

  get value() {
    return part(this, 1);
  }
}

/** A sequence, as `sequence<[Clamp] octet>`. */
class SequenceType extends Value {
  static fields = {
    sequence: "sequence",
    generics: "generics",
  };

  get sequence() {
    return part(this, 0);
  }

  get generics() {
    return part(this, 1);
  }
}

/** An asynchronous sequence, as `async_sequence<long>`. */
class AsyncSequenceType extends Value {
  static fields = {
    asyncSequence: "async_sequence",
    generics: "generics",
  };

  get asyncSequence() {
    return part(this, 0);
  }

  get generics() {
    return part(this, 1);
  }
}

/** A frozen array, as `FrozenArray<long>`. */
class FrozenArrayType extends Value {
  static fields = {
    frozenArray: "frozen_array",
    generics: "generics",
  };

  get frozenArray() {
    return part(this, 0);
  }

  get generics() {
    return part(this, 1);
  }
}

/** An observable array, as `ObservableArray<Node>`. */
class ObservableArrayType extends Value {
  static fields = {
    observableArray: "observable_array",
    generics: "generics",
  };

  get observableArray() {
    return part(this, 0);
  }

  get generics() {
    return part(this, 1);
  }
}

/** A promise, as `Promise<undefined>`. */
class PromiseType extends Value {
  static fields = {
    promise: "promise",
    generics: "generics",
  };

  get promise() {
    return part(this, 0);
  }

  get generics() {
    return part(this, 1);
  }
}

/** A record, as `record<DOMString, [Clamp] octet>`. */
class RecordType extends Value {
  static fields = {
    record: "record_",
    generics: "generics",
  };

  get record() {
    return part(this, 0);
  }

  get generics() {
    return part(this, 1);
  }
}

/** A type with extended attributes, as `[Clamp] long`. */
class AttributedType extends Value {
  static fields = {
    attributes: "attributes",
    type: "type_",
  };

  get attributes() {
    return part(this, 0);
  }

  get type() {
    return part(this, 1);
  }
}

/** A type that is neither `any` nor a union, with extended attributes. */
class AttributedNonAnyType extends Value {
  static fields = {
    attributes: "attributes",
    type: "type_",
  };

  get attributes() {
    return part(this, 0);
  }

  get type() {
    return part(this, 1);
  }
}

/** An argument that may be left out, as `optional long x = 5`. */
class OptionalArgument extends Chosen {
  static fields = {
    attributes: "attributes",
    optional: "optional",
    type: "type_",
    identifier: "identifier",
    default: "default",
  };

  get attributes() {
    return chosenPart(this, 0);
  }

  get optional() {
    return chosenPart(this, 1);
  }

  get type() {
    return chosenPart(this, 2);
  }

  get identifier() {
    return chosenPart(this, 3);
  }

  get default() {
    return chosenPart(this, 4);
  }
}

/** An argument that has to be given, as `long x`, or any number of them, as `long... xs`. */
class RequiredArgument extends Chosen {
  static fields = {
    attributes: "attributes",
    type: "type_",
    ellipsis: "ellipsis",
    identifier: "identifier",
  };

  get attributes() {
    return chosenPart(this, 0);
  }

  get type() {
    return chosenPart(this, 1);
  }

  get ellipsis() {
    return chosenPart(this, 2);
  }

  get identifier() {
    return chosenPart(this, 3);
  }
}

/** An extended attribute with arguments, as `LegacyFactory(long x)`. */
class ExtendedAttributeArgList extends Value {
  static fields = {
    identifier: "identifier",
    args: "args",
  };

  get identifier() {
    return part(this, 0);
  }

  get args() {
    return part(this, 1);
  }
}

/** An extended attribute with a name and arguments, as `LegacyFactoryFunction=Image(long x)`. */
class ExtendedAttributeNamedArgList extends Value {
  static fields = {
    lhsIdentifier: "lhs_identifier",
    assign: "assign",
    rhsIdentifier: "rhs_identifier",
    args: "args",
  };

  get lhsIdentifier() {
    return part(this, 0);
  }

  get assign() {
    return part(this, 1);
  }

  get rhsIdentifier() {
    return part(this, 2);
  }

  get args() {
    return part(this, 3);
  }
}

/** An extended attribute with a `*`, as `Exposed=*`. */
class ExtendedAttributeWildcard extends Value {
  static fields = {
    identifier: "identifier",
    assign: "assign",
    asterisk: "asterisk",
  };

  get identifier() {
    return part(this, 0);
  }

  get assign() {
    return part(this, 1);
  }

  get asterisk() {
    return part(this, 2);
  }
}

/** An extended attribute with a number, as `ReflectDefault=2`. */
class ExtendedAttributeNumber extends Value {
  static fields = {
    identifier: "identifier",
    assign: "assign",
    number: "number",
  };

  get identifier() {
    return part(this, 0);
  }

  get assign() {
    return part(this, 1);
  }

  get number() {
    return part(this, 2);
  }
}

/** An extended attribute with strings, as `A=("a", "b")`. */
class ExtendedAttributeStrings extends Value {
  static fields = {
    identifier: "identifier",
    assign: "assign",
    list: "list",
  };

  get identifier() {
    return part(this, 0);
  }

  get assign() {
    return part(this, 1);
  }

  get list() {
    return part(this, 2);
  }
}

/** An extended attribute with numbers, as `ReflectRange=(2, 8)`. */
class ExtendedAttributeNumbers extends Value {
  static fields = {
    identifier: "identifier",
    assign: "assign",
    list: "list",
  };

  get identifier() {
    return part(this, 0);
  }

  get assign() {
    return part(this, 1);
  }

  get list() {
    return part(this, 2);
  }
}

/** The second type of what is iterated, as `, long`. */
class SecondType extends Value {
  static fields = {
    comma: "comma",
    type: "type_",
  };

  get comma() {
    return part(this, 0);
  }

  get type() {
    return part(this, 1);
  }
}

/** What is iterated, one type or two, as `<DOMString, long>`. */
class Iterated extends Value {
  static fields = {
    openAngle: "open_angle",
    type: "type_",
    second: "second",
    closeAngle: "close_angle",
  };

  get openAngle() {
    return part(this, 0);
  }

  get type() {
    return part(this, 1);
  }

  get second() {
    return part(this, 2);
  }

  get closeAngle() {
    return part(this, 3);
  }
}

/** A constant, as `const long X = 5;`. */
class ConstMember extends Chosen {
  static fields = {
    docstrings: "docstrings",
    attributes: "attributes",
    const: "const_",
    constType: "const_type",
    identifier: "identifier",
    assign: "assign",
    constValue: "const_value",
    semiColon: "semi_colon",
  };

  get docstrings() {
    return chosenPart(this, 0);
  }

  get attributes() {
    return chosenPart(this, 1);
  }

  get const() {
    return chosenPart(this, 2);
  }

  get constType() {
    return chosenPart(this, 3);
  }

  get identifier() {
    return chosenPart(this, 4);
  }

  get assign() {
    return chosenPart(this, 5);
  }

  get constValue() {
    return chosenPart(this, 6);
  }

  get semiColon() {
    return chosenPart(this, 7);
  }
}

/** An attribute, as `readonly attribute long x;`. */
class AttributeInterfaceMember extends Chosen {
  static fields = {
    docstrings: "docstrings",
    attributes: "attributes",
    modifier: "modifier",
    readonly: "readonly",
    attribute: "attribute",
    type: "type_",
    identifier: "identifier",
    semiColon: "semi_colon",
  };

  get docstrings() {
    return chosenPart(this, 0);
  }

  get attributes() {
    return chosenPart(this, 1);
  }

  get modifier() {
    return chosenPart(this, 2);
  }

  get readonly() {
    return chosenPart(this, 3);
  }

  get attribute() {
    return chosenPart(this, 4);
  }

  get type() {
    return chosenPart(this, 5);
  }

  get identifier() {
    return chosenPart(this, 6);
  }

  get semiColon() {
    return chosenPart(this, 7);
  }
}

/** A constructor, as `constructor(long x);`. */
class ConstructorInterfaceMember extends Chosen {
  static fields = {
    docstrings: "docstrings",
    attributes: "attributes",
    constructor_: "constructor",
    args: "args",
    semiColon: "semi_colon",
  };

  get docstrings() {
    return chosenPart(this, 0);
  }

  get attributes() {
    return chosenPart(this, 1);
  }

  get constructor_() {
    return chosenPart(this, 2);
  }

  get args() {
    return chosenPart(this, 3);
  }

  get semiColon() {
    return chosenPart(this, 4);
  }
}

/** An operation, as `undefined f(long x);`. */
class OperationInterfaceMember extends Chosen {
  static fields = {
    docstrings: "docstrings",
    attributes: "attributes",
    modifier: "modifier",
    special: "special",
    returnType: "return_type",
    identifier: "identifier",
    args: "args",
    semiColon: "semi_colon",
  };

  get docstrings() {
    return chosenPart(this, 0);
  }

  get attributes() {
    return chosenPart(this, 1);
  }

  get modifier() {
    return chosenPart(this, 2);
  }

  get special() {
    return chosenPart(this, 3);
  }

  get returnType() {
    return chosenPart(this, 4);
  }

  get identifier() {
    return chosenPart(this, 5);
  }

  get args() {
    return chosenPart(this, 6);
  }

  get semiColon() {
    return chosenPart(this, 7);
  }
}

/** An iteration, as `iterable<long>;`. */
class IterableInterfaceMember extends Chosen {
  static fields = {
    docstrings: "docstrings",
    attributes: "attributes",
    iterable: "iterable",
    generics: "generics",
    semiColon: "semi_colon",
  };

  get docstrings() {
    return chosenPart(this, 0);
  }

  get attributes() {
    return chosenPart(this, 1);
  }

  get iterable() {
    return chosenPart(this, 2);
  }

  get generics() {
    return chosenPart(this, 3);
  }

  get semiColon() {
    return chosenPart(this, 4);
  }
}

/** An asynchronous iteration, as `async_iterable<long>;`. */
class AsyncIterableInterfaceMember extends Chosen {
  static fields = {
    docstrings: "docstrings",
    attributes: "attributes",
    asyncIterable: "async_iterable",
    generics: "generics",
    args: "args",
    semiColon: "semi_colon",
  };

  get docstrings() {
    return chosenPart(this, 0);
  }

  get attributes() {
    return chosenPart(this, 1);
  }

  get asyncIterable() {
    return chosenPart(this, 2);
  }

  get generics() {
    return chosenPart(this, 3);
  }

  get args() {
    return chosenPart(this, 4);
  }

  get semiColon() {
    return chosenPart(this, 5);
  }
}

/** A map, as `maplike<DOMString, long>;`. */
class MaplikeInterfaceMember extends Chosen {
  static fields = {
    docstrings: "docstrings",
    attributes: "attributes",
    readonly: "readonly",
    maplike: "maplike",
    generics: "generics",
    semiColon: "semi_colon",
  };

  get docstrings() {
    return chosenPart(this, 0);
  }

  get attributes() {
    return chosenPart(this, 1);
  }

  get readonly() {
    return chosenPart(this, 2);
  }

  get maplike() {
    return chosenPart(this, 3);
  }

  get generics() {
    return chosenPart(this, 4);
  }

  get semiColon() {
    return chosenPart(this, 5);
  }
}

/** A set, as `setlike<long>;`. */
class SetlikeInterfaceMember extends Chosen {
  static fields = {
    docstrings: "docstrings",
    attributes: "attributes",
    readonly: "readonly",
    setlike: "setlike",
    generics: "generics",
    semiColon: "semi_colon",
  };

  get docstrings() {
    return chosenPart(this, 0);
  }

  get attributes() {
    return chosenPart(this, 1);
  }

  get readonly() {
    return chosenPart(this, 2);
  }

  get setlike() {
    return chosenPart(this, 3);
  }

  get generics() {
    return chosenPart(this, 4);
  }

  get semiColon() {
    return chosenPart(this, 5);
  }
}

/** A stringifier, as `stringifier;`. */
class StringifierMember extends Chosen {
  static fields = {
    docstrings: "docstrings",
    attributes: "attributes",
    stringifier: "stringifier",
    semiColon: "semi_colon",
  };

  get docstrings() {
    return chosenPart(this, 0);
  }

  get attributes() {
    return chosenPart(this, 1);
  }

  get stringifier() {
    return chosenPart(this, 2);
  }

  get semiColon() {
    return chosenPart(this, 3);
  }
}

/** An operation of a mixin. */
class OperationMixinMember extends Chosen {
  static fields = {
    docstrings: "docstrings",
    attributes: "attributes",
    stringifier: "stringifier",
    returnType: "return_type",
    identifier: "identifier",
    args: "args",
    semiColon: "semi_colon",
  };

  get docstrings() {
    return chosenPart(this, 0);
  }

  get attributes() {
    return chosenPart(this, 1);
  }

  get stringifier() {
    return chosenPart(this, 2);
  }

  get returnType() {
    return chosenPart(this, 3);
  }

  get identifier() {
    return chosenPart(this, 4);
  }

  get args() {
    return chosenPart(this, 5);
  }

  get semiColon() {
    return chosenPart(this, 6);
  }
}

/** An attribute of a mixin. */
class AttributeMixinMember extends Chosen {
  static fields = {
    docstrings: "docstrings",
    attributes: "attributes",
    stringifier: "stringifier",
    readonly: "readonly",
    attribute: "attribute",
    type: "type_",
    identifier: "identifier",
    semiColon: "semi_colon",
  };

  get docstrings() {
    return chosenPart(this, 0);
  }

  get attributes() {
    return chosenPart(this, 1);
  }

  get stringifier() {
    return chosenPart(this, 2);
  }

  get readonly() {
    return chosenPart(this, 3);
  }

  get attribute() {
    return chosenPart(this, 4);
  }

  get type() {
    return chosenPart(this, 5);
  }

  get identifier() {
    return chosenPart(this, 6);
  }

  get semiColon() {
    return chosenPart(this, 7);
  }
}

/** An operation of a namespace. */
class OperationNamespaceMember extends Chosen {
  static fields = {
    docstrings: "docstrings",
    attributes: "attributes",
    returnType: "return_type",
    identifier: "identifier",
    args: "args",
    semiColon: "semi_colon",
  };

  get docstrings() {
    return chosenPart(this, 0);
  }

  get attributes() {
    return chosenPart(this, 1);
  }

  get returnType() {
    return chosenPart(this, 2);
  }

  get identifier() {
    return chosenPart(this, 3);
  }

  get args() {
    return chosenPart(this, 4);
  }

  get semiColon() {
    return chosenPart(this, 5);
  }
}

/** An attribute of a namespace. */
class AttributeNamespaceMember extends Chosen {
  static fields = {
    docstrings: "docstrings",
    attributes: "attributes",
    readonly: "readonly",
    attribute: "attribute",
    type: "type_",
    identifier: "identifier",
    semiColon: "semi_colon",
  };

  get docstrings() {
    return chosenPart(this, 0);
  }

  get attributes() {
    return chosenPart(this, 1);
  }

  get readonly() {
    return chosenPart(this, 2);
  }

  get attribute() {
    return chosenPart(this, 3);
  }

  get type() {
    return chosenPart(this, 4);
  }

  get identifier() {
    return chosenPart(this, 5);
  }

  get semiColon() {
    return chosenPart(this, 6);
  }
}

/** A member of a dictionary, as `required [Clamp] long x;`. */
class DictionaryMember extends Value {
  static fields = {
    docstrings: "docstrings",
    attributes: "attributes",
    required: "required",
    type: "type_",
    identifier: "identifier",
    default: "default",
    semiColon: "semi_colon",
  };

  get docstrings() {
    return part(this, 0);
  }

  get attributes() {
    return part(this, 1);
  }

  get required() {
    return part(this, 2);
  }

  get type() {
    return part(this, 3);
  }

  get identifier() {
    return part(this, 4);
  }

  get default() {
    return part(this, 5);
  }

  get semiColon() {
    return part(this, 6);
  }
}

/** A value of an enum, as `"a"`. */
class EnumVariant extends Value {
  static fields = {
    docstrings: "docstrings",
    value: "value",
  };

  get docstrings() {
    return part(this, 0);
  }

  get value() {
    return part(this, 1);
  }
}

/** The values of an enum in braces, as `{"a", "b",}`, with docstrings in front of the `}`. */
class BracedEnumValues extends Value {
  static fields = {
    openBrace: "open_brace",
    body: "body",
    comma: "comma",
    docstrings: "docstrings",
    closeBrace: "close_brace",
  };

  get openBrace() {
    return part(this, 0);
  }

  get body() {
    return part(this, 1);
  }

  get comma() {
    return part(this, 2);
  }

  get docstrings() {
    return part(this, 3);
  }

  get closeBrace() {
    return part(this, 4);
  }
}

/** A callback, as `callback F = undefined (long x);`. */
class CallbackDefinition extends Chosen {
  static fields = {
    docstrings: "docstrings",
    attributes: "attributes",
    callback: "callback",
    identifier: "identifier",
    assign: "assign",
    returnType: "return_type",
    arguments: "arguments",
    semiColon: "semi_colon",
  };

  get docstrings() {
    return chosenPart(this, 0);
  }

  get attributes() {
    return chosenPart(this, 1);
  }

  get callback() {
    return chosenPart(this, 2);
  }

  get identifier() {
    return chosenPart(this, 3);
  }

  get assign() {
    return chosenPart(this, 4);
  }

  get returnType() {
    return chosenPart(this, 5);
  }

  get arguments() {
    return chosenPart(this, 6);
  }

  get semiColon() {
    return chosenPart(this, 7);
  }
}

/** A callback interface, as `callback interface A {};`. */
class CallbackInterfaceDefinition extends Chosen {
  static fields = {
    docstrings: "docstrings",
    attributes: "attributes",
    callback: "callback",
    interface: "interface",
    identifier: "identifier",
    inheritance: "inheritance",
    members: "members",
    semiColon: "semi_colon",
  };

  get docstrings() {
    return chosenPart(this, 0);
  }

  get attributes() {
    return chosenPart(this, 1);
  }

  get callback() {
    return chosenPart(this, 2);
  }

  get interface() {
    return chosenPart(this, 3);
  }

  get identifier() {
    return chosenPart(this, 4);
  }

  get inheritance() {
    return chosenPart(this, 5);
  }

  get members() {
    return chosenPart(this, 6);
  }

  get semiColon() {
    return chosenPart(this, 7);
  }
}

/** An interface, as `interface A : B {};`. */
class InterfaceDefinition extends Chosen {
  static fields = {
    docstrings: "docstrings",
    attributes: "attributes",
    interface: "interface",
    identifier: "identifier",
    inheritance: "inheritance",
    members: "members",
    semiColon: "semi_colon",
  };

  get docstrings() {
    return chosenPart(this, 0);
  }

  get attributes() {
    return chosenPart(this, 1);
  }

  get interface() {
    return chosenPart(this, 2);
  }

  get identifier() {
    return chosenPart(this, 3);
  }

  get inheritance() {
    return chosenPart(this, 4);
  }

  get members() {
    return chosenPart(this, 5);
  }

  get semiColon() {
    return chosenPart(this, 6);
  }
}

/** A mixin, as `interface mixin A {};`. */
class InterfaceMixinDefinition extends Chosen {
  static fields = {
    docstrings: "docstrings",
    attributes: "attributes",
    interface: "interface",
    mixin: "mixin",
    identifier: "identifier",
    members: "members",
    semiColon: "semi_colon",
  };

  get docstrings() {
    return chosenPart(this, 0);
  }

  get attributes() {
    return chosenPart(this, 1);
  }

  get interface() {
    return chosenPart(this, 2);
  }

  get mixin() {
    return chosenPart(this, 3);
  }

  get identifier() {
    return chosenPart(this, 4);
  }

  get members() {
    return chosenPart(this, 5);
  }

  get semiColon() {
    return chosenPart(this, 6);
  }
}

/** A namespace, as `namespace A {};`. */
class NamespaceDefinition extends Chosen {
  static fields = {
    docstrings: "docstrings",
    attributes: "attributes",
    namespace: "namespace",
    identifier: "identifier",
    members: "members",
    semiColon: "semi_colon",
  };

  get docstrings() {
    return chosenPart(this, 0);
  }

  get attributes() {
    return chosenPart(this, 1);
  }

  get namespace() {
    return chosenPart(this, 2);
  }

  get identifier() {
    return chosenPart(this, 3);
  }

  get members() {
    return chosenPart(this, 4);
  }

  get semiColon() {
    return chosenPart(this, 5);
  }
}

/** A dictionary, as `dictionary A : B {};`. */
class DictionaryDefinition extends Chosen {
  static fields = {
    docstrings: "docstrings",
    attributes: "attributes",
    dictionary: "dictionary",
    identifier: "identifier",
    inheritance: "inheritance",
    members: "members",
    semiColon: "semi_colon",
  };

  get docstrings() {
    return chosenPart(this, 0);
  }

  get attributes() {
    return chosenPart(this, 1);
  }

  get dictionary() {
    return chosenPart(this, 2);
  }

  get identifier() {
    return chosenPart(this, 3);
  }

  get inheritance() {
    return chosenPart(this, 4);
  }

  get members() {
    return chosenPart(this, 5);
  }

  get semiColon() {
    return chosenPart(this, 6);
  }
}

/** A part of an interface. */
class PartialInterfaceDefinition extends Chosen {
  static fields = {
    docstrings: "docstrings",
    attributes: "attributes",
    partial: "partial",
    interface: "interface",
    identifier: "identifier",
    members: "members",
    semiColon: "semi_colon",
  };

  get docstrings() {
    return chosenPart(this, 0);
  }

  get attributes() {
    return chosenPart(this, 1);
  }

  get partial() {
    return chosenPart(this, 2);
  }

  get interface() {
    return chosenPart(this, 3);
  }

  get identifier() {
    return chosenPart(this, 4);
  }

  get members() {
    return chosenPart(this, 5);
  }

  get semiColon() {
    return chosenPart(this, 6);
  }
}

/** A part of a mixin. */
class PartialInterfaceMixinDefinition extends Chosen {
  static fields = {
    docstrings: "docstrings",
    attributes: "attributes",
    partial: "partial",
    interface: "interface",
    mixin: "mixin",
    identifier: "identifier",
    members: "members",
    semiColon: "semi_colon",
  };

  get docstrings() {
    return chosenPart(this, 0);
  }

  get attributes() {
    return chosenPart(this, 1);
  }

  get partial() {
    return chosenPart(this, 2);
  }

  get interface() {
    return chosenPart(this, 3);
  }

  get mixin() {
    return chosenPart(this, 4);
  }

  get identifier() {
    return chosenPart(this, 5);
  }

  get members() {
    return chosenPart(this, 6);
  }

  get semiColon() {
    return chosenPart(this, 7);
  }
}

/** A part of a dictionary. */
class PartialDictionaryDefinition extends Chosen {
  static fields = {
    docstrings: "docstrings",
    attributes: "attributes",
    partial: "partial",
    dictionary: "dictionary",
    identifier: "identifier",
    members: "members",
    semiColon: "semi_colon",
  };

  get docstrings() {
    return chosenPart(this, 0);
  }

  get attributes() {
    return chosenPart(this, 1);
  }

  get partial() {
    return chosenPart(this, 2);
  }

  get dictionary() {
    return chosenPart(this, 3);
  }

  get identifier() {
    return chosenPart(this, 4);
  }

  get members() {
    return chosenPart(this, 5);
  }

  get semiColon() {
    return chosenPart(this, 6);
  }
}

/** A part of a namespace. */
class PartialNamespaceDefinition extends Chosen {
  static fields = {
    docstrings: "docstrings",
    attributes: "attributes",
    partial: "partial",
    namespace: "namespace",
    identifier: "identifier",
    members: "members",
    semiColon: "semi_colon",
  };

  get docstrings() {
    return chosenPart(this, 0);
  }

  get attributes() {
    return chosenPart(this, 1);
  }

  get partial() {
    return chosenPart(this, 2);
  }

  get namespace() {
    return chosenPart(this, 3);
  }

  get identifier() {
    return chosenPart(this, 4);
  }

  get members() {
    return chosenPart(this, 5);
  }

  get semiColon() {
    return chosenPart(this, 6);
  }
}

/** An enum, as `enum A {"a"};`. */
class EnumDefinition extends Chosen {
  static fields = {
    docstrings: "docstrings",
    attributes: "attributes",
    enum: "enum_",
    identifier: "identifier",
    values: "values",
    semiColon: "semi_colon",
  };

  get docstrings() {
    return chosenPart(this, 0);
  }

  get attributes() {
    return chosenPart(this, 1);
  }

  get enum() {
    return chosenPart(this, 2);
  }

  get identifier() {
    return chosenPart(this, 3);
  }

  get values() {
    return chosenPart(this, 4);
  }

  get semiColon() {
    return chosenPart(this, 5);
  }
}

/** A name for a type, as `typedef long A;`. */
class TypedefDefinition extends Chosen {
  static fields = {
    docstrings: "docstrings",
    attributes: "attributes",
    typedef: "typedef",
    type: "type_",
    identifier: "identifier",
    semiColon: "semi_colon",
  };

  get docstrings() {
    return chosenPart(this, 0);
  }

  get attributes() {
    return chosenPart(this, 1);
  }

  get typedef() {
    return chosenPart(this, 2);
  }

  get type() {
    return chosenPart(this, 3);
  }

  get identifier() {
    return chosenPart(this, 4);
  }

  get semiColon() {
    return chosenPart(this, 5);
  }
}

/** The use of a mixin, as `A includes B;`. */
class IncludesStatementDefinition extends Chosen {
  static fields = {
    docstrings: "docstrings",
    attributes: "attributes",
    lhsIdentifier: "lhs_identifier",
    includes: "includes",
    rhsIdentifier: "rhs_identifier",
    semiColon: "semi_colon",
  };

  get docstrings() {
    return chosenPart(this, 0);
  }

  get attributes() {
    return chosenPart(this, 1);
  }

  get lhsIdentifier() {
    return chosenPart(this, 2);
  }

  get includes() {
    return chosenPart(this, 3);
  }

  get rhsIdentifier() {
    return chosenPart(this, 4);
  }

  get semiColon() {
    return chosenPart(this, 5);
  }
}

/** The older form of it, as `A implements B;`. */
class ImplementsDefinition extends Chosen {
  static fields = {
    docstrings: "docstrings",
    attributes: "attributes",
    lhsIdentifier: "lhs_identifier",
    includes: "includes",
    rhsIdentifier: "rhs_identifier",
    semiColon: "semi_colon",
  };

  get docstrings() {
    return chosenPart(this, 0);
  }

  get attributes() {
    return chosenPart(this, 1);
  }

  get lhsIdentifier() {
    return chosenPart(this, 2);
  }

  get includes() {
    return chosenPart(this, 3);
  }

  get rhsIdentifier() {
    return chosenPart(this, 4);
  }

  get semiColon() {
    return chosenPart(this, 5);
  }
}

/** The value of a default, as `"blob"` or `[]`. */
class DefaultValue extends Choice {
  static Boolean = this.variant("Boolean");
  static EmptyArray = this.variant("EmptyArray");
  static EmptyDictionary = this.variant("EmptyDictionary");
  static Float = this.variant("Float");
  static Integer = this.variant("Integer");
  static Null = this.variant("Null");
  static Undefined = this.variant("Undefined");
  static String = this.variant("String");
}

/** The type of a constant, as `long?`. */
class ConstType extends Choice {
  static Integer = this.variant("Integer");
  static FloatingPoint = this.variant("FloatingPoint");
  static Boolean = this.variant("Boolean");
  static Byte = this.variant("Byte");
  static Octet = this.variant("Octet");
  static BigInt = this.variant("BigInt");
  static Identifier = this.variant("Identifier");
}

/** A number. */
class Number extends Choice {
  static Float = this.variant("Float");
  static Integer = this.variant("Integer");
}

/** A word that is a type, and is none in weedle2's rules, as `bigint`. */
class WordType extends Choice {
  static BigInt = this.variant("BigInt");
  static Float16Array = this.variant("Float16Array");
  static BigInt64Array = this.variant("BigInt64Array");
  static BigUint64Array = this.variant("BigUint64Array");
  static SharedArrayBuffer = this.variant("SharedArrayBuffer");
  static Undefined = this.variant("Undefined");
}

/** A type over others, as `sequence<long>`. */
class GenericType extends Choice {
  static Sequence = this.variant("Sequence");
  static AsyncSequence = this.variant("AsyncSequence");
  static FrozenArray = this.variant("FrozenArray");
  static ObservableArray = this.variant("ObservableArray");
  static Record = this.variant("Record");
}

/** A type that is neither `any` nor a union, as `long?`. */
class NonAnyType extends Choice {
  static Promise = this.variant("Promise");
  static Integer = this.variant("Integer");
  static FloatingPoint = this.variant("FloatingPoint");
  static Boolean = this.variant("Boolean");
  static Byte = this.variant("Byte");
  static Octet = this.variant("Octet");
  static ByteString = this.variant("ByteString");
  static DOMString = this.variant("DOMString");
  static USVString = this.variant("USVString");
  static Object = this.variant("Object");
  static Symbol = this.variant("Symbol");
  static Error = this.variant("Error");
  static ArrayBuffer = this.variant("ArrayBuffer");
  static DataView = this.variant("DataView");
  static Int8Array = this.variant("Int8Array");
  static Int16Array = this.variant("Int16Array");
  static Int32Array = this.variant("Int32Array");
  static Uint8Array = this.variant("Uint8Array");
  static Uint16Array = this.variant("Uint16Array");
  static Uint32Array = this.variant("Uint32Array");
  static Uint8ClampedArray = this.variant("Uint8ClampedArray");
  static Float32Array = this.variant("Float32Array");
  static Float64Array = this.variant("Float64Array");
  static ArrayBufferView = this.variant("ArrayBufferView");
  static BufferSource = this.variant("BufferSource");
  static Word = this.variant("Word");
  static Generic = this.variant("Generic");
  static Identifier = this.variant("Identifier");
}

/** The type of a record's keys, as `DOMString`. */
class RecordKeyType extends Choice {
  static Byte = this.variant("Byte");
  static DOM = this.variant("DOM");
  static USV = this.variant("USV");
  static NonAny = this.variant("NonAny");
}

/** A type, as `long`, `any` or `(long or DOMString)?`. */
class Type extends Choice {
  static Any = this.variant("Any");
  static NonAny = this.variant("NonAny");
  static Union = this.variant("Union");
}

/** A member of a union, as `[Clamp] octet` or `(long or DOMString)`. */
class UnionMemberType extends Choice {
  static Single = this.variant("Single");
  static Union = this.variant("Union");
}

/** An extended attribute, as `Exposed=Window` or `Constructor(long x)`. */
class ExtendedAttribute extends Choice {
  static ArgList = this.variant("ArgList");
  static NamedArgList = this.variant("NamedArgList");
  static IdentList = this.variant("IdentList");
  static Wildcard = this.variant("Wildcard");
  static Strings = this.variant("Strings");
  static Numbers = this.variant("Numbers");
  static Number = this.variant("Number");
  static Ident = this.variant("Ident");
  static NoArgs = this.variant("NoArgs");
}

/** `async_iterable`, or the older `async iterable`. */
class AsyncWords extends Choice {
  static One = this.variant("One");
  static Two = this.variant("Two");
}

/** An argument, as `long x`, or `long... xs` for any number of them. */
class Argument extends Factored {
  static Optional = this.variant("Optional");
  static Required = this.variant("Required");
}

/** A member of an interface, as `attribute long length;`. */
class InterfaceMember extends Factored {
  static Const = this.variant("Const");
  static Attribute = this.variant("Attribute");
  static Constructor = this.variant("Constructor");
  static Operation = this.variant("Operation");
  static Iterable = this.variant("Iterable");
  static AsyncIterable = this.variant("AsyncIterable");
  static Maplike = this.variant("Maplike");
  static Setlike = this.variant("Setlike");
  static Stringifier = this.variant("Stringifier");
}

/** A member of a mixin, as `readonly attribute long x;`. */
class MixinMember extends Factored {
  static Const = this.variant("Const");
  static Operation = this.variant("Operation");
  static Attribute = this.variant("Attribute");
  static Stringifier = this.variant("Stringifier");
}

/** A member of a namespace, as `long f(long x);`. */
class NamespaceMember extends Factored {
  static Const = this.variant("Const");
  static Operation = this.variant("Operation");
  static Attribute = this.variant("Attribute");
}

/** A definition, as `interface A {};`. */
class Definition extends Factored {
  static Callback = this.variant("Callback");
  static CallbackInterface = this.variant("CallbackInterface");
  static Interface = this.variant("Interface");
  static InterfaceMixin = this.variant("InterfaceMixin");
  static Namespace = this.variant("Namespace");
  static Dictionary = this.variant("Dictionary");
  static PartialInterface = this.variant("PartialInterface");
  static PartialInterfaceMixin = this.variant("PartialInterfaceMixin");
  static PartialDictionary = this.variant("PartialDictionary");
  static PartialNamespace = this.variant("PartialNamespace");
  static Enum = this.variant("Enum");
  static Typedef = this.variant("Typedef");
  static IncludesStatement = this.variant("IncludesStatement");
  static Implements = this.variant("Implements");
}

module.exports = {
  Argument,
  Asterisk,
  AsyncIterableInterfaceMember,
  AsyncIterableWord,
  AsyncSequence,
  AsyncSequenceType,
  AsyncWords,
  AttributeInterfaceMember,
  AttributeMixinMember,
  AttributeNamespaceMember,
  AttributedNonAnyType,
  AttributedType,
  BigInt,
  BigInt64Array,
  BigUint64Array,
  Braced,
  BracedEnumValues,
  CallbackDefinition,
  CallbackInterfaceDefinition,
  ConstMember,
  ConstType,
  ConstructorInterfaceMember,
  Default,
  DefaultValue,
  Definition,
  DictionaryDefinition,
  DictionaryMember,
  EnumDefinition,
  EnumVariant,
  ExtendedAttribute,
  ExtendedAttributeArgList,
  ExtendedAttributeNamedArgList,
  ExtendedAttributeNumber,
  ExtendedAttributeNumbers,
  ExtendedAttributeStrings,
  ExtendedAttributeWildcard,
  Float16Array,
  FrozenArrayType,
  GenericType,
  ImplementsDefinition,
  IncludesStatementDefinition,
  InterfaceDefinition,
  InterfaceMember,
  InterfaceMixinDefinition,
  IterableInterfaceMember,
  Iterated,
  LastDocstring,
  MaplikeInterfaceMember,
  MixinMember,
  NamespaceDefinition,
  NamespaceMember,
  NonAnyType,
  Number,
  ObservableArray,
  ObservableArrayType,
  OperationInterfaceMember,
  OperationMixinMember,
  OperationNamespaceMember,
  OptionalArgument,
  PartialDictionaryDefinition,
  PartialInterfaceDefinition,
  PartialInterfaceMixinDefinition,
  PartialNamespaceDefinition,
  PromiseType,
  RecordKeyType,
  RecordType,
  RequiredArgument,
  SecondType,
  SequenceType,
  SetlikeInterfaceMember,
  SharedArrayBuffer,
  StringifierMember,
  Type,
  TypedefDefinition,
  UnionMemberType,
  WordType,
};
