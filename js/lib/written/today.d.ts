/*
 * Today's tree: the types that weedle2's hasn't. What both have is in the other modules.
 *
 * Written by tools/write/javascript_types.py, and not edited by hand.
 */

import { Choice, Kind, Terminal, Value } from "../value.js";
import type * as term from "./term.js";
import type * as today from "./today.js";
import type * as values from "./values.js";

/** The symbol `*`. */
export abstract class Asterisk extends Terminal {
  readonly kind: "Asterisk";
}

/** The keyword `bigint`. */
export abstract class BigInt extends Terminal {
  readonly kind: "BigInt";
}

/** The keyword `async_iterable`. */
export abstract class AsyncIterableWord extends Terminal {
  readonly kind: "AsyncIterableWord";
}

/** The keyword `async_sequence`. */
export abstract class AsyncSequence extends Terminal {
  readonly kind: "AsyncSequence";
}

/** The keyword `ObservableArray`. */
export abstract class ObservableArray extends Terminal {
  readonly kind: "ObservableArray";
}

/** The keyword `Float16Array`. */
export abstract class Float16Array extends Terminal {
  readonly kind: "Float16Array";
}

/** The keyword `BigInt64Array`. */
export abstract class BigInt64Array extends Terminal {
  readonly kind: "BigInt64Array";
}

/** The keyword `BigUint64Array`. */
export abstract class BigUint64Array extends Terminal {
  readonly kind: "BigUint64Array";
}

/** The keyword `SharedArrayBuffer`. */
export abstract class SharedArrayBuffer extends Terminal {
  readonly kind: "SharedArrayBuffer";
}

/** A docstring's line that the text ends in, which has no line end. */
export abstract class LastDocstring extends Value {
  readonly kind: "LastDocstring";
  readonly value: string;
}

/** A body in braces, as `{ .. }`, with docstrings in front of the `}`. */
export abstract class Braced<T> extends Value {
  readonly kind: "Braced";
  /** The `{`. */
  readonly openBrace: term.OpenBrace;
  /** What is between the braces. */
  readonly body: T;
  /** The docstrings in front of the `}`, behind the last member, none included. */
  readonly docstrings: readonly values.Docstring[];
  /** The `}`. */
  readonly closeBrace: term.CloseBrace;
}

/** A default, as `= 5`. */
export abstract class Default extends Value {
  readonly kind: "Default";
  /** The `=`. */
  readonly assign: term.Assign;
  /** The value, as `5`. */
  readonly value: today.DefaultValue;
}

/** A sequence, as `sequence<[Clamp] octet>`. */
export abstract class SequenceType extends Value {
  readonly kind: "SequenceType";
  /** The word `sequence`. */
  readonly sequence: term.Sequence;
  /** The type of its items in angle brackets, as `<long>`. */
  readonly generics: values.Generics<today.AttributedType>;
}

/** An asynchronous sequence, as `async_sequence<long>`. */
export abstract class AsyncSequenceType extends Value {
  readonly kind: "AsyncSequenceType";
  /** The word `async_sequence`. */
  readonly asyncSequence: today.AsyncSequence;
  /** The type, or the types, in angle brackets, as `<long>`. */
  readonly generics: values.Generics<today.AttributedType>;
}

/** A frozen array, as `FrozenArray<long>`. */
export abstract class FrozenArrayType extends Value {
  readonly kind: "FrozenArrayType";
  /** The word `FrozenArray`. */
  readonly frozenArray: term.FrozenArray;
  /** The type of its items in angle brackets, as `<long>`. */
  readonly generics: values.Generics<today.AttributedType>;
}

/** An observable array, as `ObservableArray<Node>`. */
export abstract class ObservableArrayType extends Value {
  readonly kind: "ObservableArrayType";
  /** The word `ObservableArray`. */
  readonly observableArray: today.ObservableArray;
  /** The type, or the types, in angle brackets, as `<long>`. */
  readonly generics: values.Generics<today.AttributedType>;
}

/** A promise, as `Promise<undefined>`. */
export abstract class PromiseType extends Value {
  readonly kind: "PromiseType";
  /** The word `Promise`. */
  readonly promise: term.Promise;
  /** The type of its result in angle brackets, as `<undefined>`. */
  readonly generics: values.Generics<today.Type>;
}

/** A record, as `record<DOMString, [Clamp] octet>`. */
export abstract class RecordType extends Value {
  readonly kind: "RecordType";
  /** The word `record`. */
  readonly record: term.Record;
  /** The types of its keys and values in angle brackets, as `<DOMString, long>`. */
  readonly generics: values.Generics<readonly [today.RecordKeyType, term.Comma, today.AttributedType]>;
}

/** A type with extended attributes, as `[Clamp] long`. */
export abstract class AttributedType extends Value {
  readonly kind: "AttributedType";
  /** The lists of extended attributes, each in brackets, as `[Clamp]`, none included. */
  readonly attributes: readonly today.ExtendedAttributeList[];
  /** The type, as `octet`. */
  readonly type: today.Type;
}

/** A type that is neither `any` nor a union, with extended attributes. */
export abstract class AttributedNonAnyType extends Value {
  readonly kind: "AttributedNonAnyType";
  /** The lists of extended attributes, each in brackets, as `[Clamp]`, none included. */
  readonly attributes: readonly today.ExtendedAttributeList[];
  /** The type, as `octet`. */
  readonly type: today.NonAnyType;
}

/** An argument that may be left out, as `optional long x = 5`. */
export abstract class OptionalArgument extends Value {
  readonly kind: "OptionalArgument";
  /** The lists of extended attributes in front, each in brackets, as `[Exposed=*]`, none included. */
  readonly attributes: readonly today.ExtendedAttributeList[];
  /** The word `optional`. */
  readonly optional: term.Optional;
  /** Its type, as `long`, with the extended attributes before it. */
  readonly type: today.AttributedType;
  /** Its name. */
  readonly identifier: values.Identifier;
  /** Its default, as `= 5`, where present. */
  readonly default: today.Default | null;
}

/** An argument that has to be given, as `long x`, or any number of them, as `long... xs`. */
export abstract class RequiredArgument extends Value {
  readonly kind: "RequiredArgument";
  /** The lists of extended attributes in front, each in brackets, as `[Exposed=*]`, none included. */
  readonly attributes: readonly today.ExtendedAttributeList[];
  /** Its type, as `long`. */
  readonly type: today.Type;
  /** The `...` of any number of arguments, where present. */
  readonly ellipsis: term.Ellipsis | null;
  /** Its name. */
  readonly identifier: values.Identifier;
}

/** An extended attribute with arguments, as `LegacyFactory(long x)`. */
export abstract class ExtendedAttributeArgList extends Value {
  readonly kind: "ExtendedAttributeArgList";
  /** Its name. */
  readonly identifier: values.Identifier;
  /** Its arguments, between parentheses. */
  readonly args: values.Parenthesized<today.ArgumentList>;
}

/** An extended attribute with a name and arguments, as `LegacyFactoryFunction=Image(long x)`. */
export abstract class ExtendedAttributeNamedArgList extends Value {
  readonly kind: "ExtendedAttributeNamedArgList";
  /** Its name, before the `=`. */
  readonly lhsIdentifier: values.Identifier;
  /** The `=`. */
  readonly assign: term.Assign;
  /** The name behind the `=`. */
  readonly rhsIdentifier: values.Identifier;
  /** Its arguments, between parentheses. */
  readonly args: values.Parenthesized<today.ArgumentList>;
}

/** An extended attribute with a `*`, as `Exposed=*`. */
export abstract class ExtendedAttributeWildcard extends Value {
  readonly kind: "ExtendedAttributeWildcard";
  /** Its name. */
  readonly identifier: values.Identifier;
  /** The `=`. */
  readonly assign: term.Assign;
  /** The `*`. */
  readonly asterisk: today.Asterisk;
}

/** An extended attribute with a number, as `ReflectDefault=2`. */
export abstract class ExtendedAttributeNumber extends Value {
  readonly kind: "ExtendedAttributeNumber";
  /** Its name. */
  readonly identifier: values.Identifier;
  /** The `=`. */
  readonly assign: term.Assign;
  /** The number behind the `=`. */
  readonly number: today.Number;
}

/** An extended attribute with strings, as `A=("a", "b")`. */
export abstract class ExtendedAttributeStrings extends Value {
  readonly kind: "ExtendedAttributeStrings";
  /** Its name. */
  readonly identifier: values.Identifier;
  /** The `=`. */
  readonly assign: term.Assign;
  /** The strings behind the `=`, between parentheses. */
  readonly list: values.Parenthesized<values.Punctuated<values.StringLit, term.Comma>>;
}

/** An extended attribute with numbers, as `ReflectRange=(2, 8)`. */
export abstract class ExtendedAttributeNumbers extends Value {
  readonly kind: "ExtendedAttributeNumbers";
  /** Its name. */
  readonly identifier: values.Identifier;
  /** The `=`. */
  readonly assign: term.Assign;
  /** The numbers behind the `=`, between parentheses. */
  readonly list: values.Parenthesized<values.Punctuated<today.Number, term.Comma>>;
}

/** The second type of what is iterated, as `, long`. */
export abstract class SecondType extends Value {
  readonly kind: "SecondType";
  /** The `,`. */
  readonly comma: term.Comma;
  /** The type, as `long`. */
  readonly type: today.AttributedType;
}

/** What is iterated, one type or two, as `<DOMString, long>`. */
export abstract class Iterated extends Value {
  readonly kind: "Iterated";
  /** The `<`. */
  readonly openAngle: term.LessThan;
  /** The first type, as `long`, or the only one. */
  readonly type: today.AttributedType;
  /** The second type with the `,` in front, as `, long`, where there are two. */
  readonly second: today.SecondType | null;
  /** The `>`. */
  readonly closeAngle: term.GreaterThan;
}

/** A constant, as `const long X = 5;`. */
export abstract class ConstMember extends Value {
  readonly kind: "ConstMember";
  /** The docstrings in front, none included. */
  readonly docstrings: readonly values.Docstring[];
  /** The lists of extended attributes in front, each in brackets, as `[Exposed=*]`, none included. */
  readonly attributes: readonly today.ExtendedAttributeList[];
  /** The word `const`. */
  readonly const: term.Const;
  /** Its type, as `long`. */
  readonly constType: today.ConstType;
  /** Its name. */
  readonly identifier: values.Identifier;
  /** The `=`. */
  readonly assign: term.Assign;
  /** Its value, as `5`. */
  readonly constValue: values.ConstValue;
  /** The `;` at the end. */
  readonly semiColon: term.SemiColon;
}

/** An attribute, as `readonly attribute long x;`. */
export abstract class AttributeInterfaceMember extends Value {
  readonly kind: "AttributeInterfaceMember";
  /** The docstrings in front, none included. */
  readonly docstrings: readonly values.Docstring[];
  /** The lists of extended attributes in front, each in brackets, as `[Exposed=*]`, none included. */
  readonly attributes: readonly today.ExtendedAttributeList[];
  /** The word `stringifier`, `inherit` or `static`, where one of them is present. */
  readonly modifier: values.StringifierOrInheritOrStatic | null;
  /** The word `readonly`, where present. */
  readonly readonly: term.ReadOnly | null;
  /** The word `attribute`. */
  readonly attribute: term.Attribute;
  /** Its type, as `long`, with the extended attributes before it. */
  readonly type: today.AttributedType;
  /** Its name. */
  readonly identifier: values.Identifier;
  /** The `;` at the end. */
  readonly semiColon: term.SemiColon;
}

/** A constructor, as `constructor(long x);`. */
export abstract class ConstructorInterfaceMember extends Value {
  readonly kind: "ConstructorInterfaceMember";
  /** The docstrings in front, none included. */
  readonly docstrings: readonly values.Docstring[];
  /** The lists of extended attributes in front, each in brackets, as `[Exposed=*]`, none included. */
  readonly attributes: readonly today.ExtendedAttributeList[];
  /** The word `constructor`. */
  readonly constructor_: term.Constructor;
  /** Its arguments, between parentheses. */
  readonly args: values.Parenthesized<today.ArgumentList>;
  /** The `;` at the end. */
  readonly semiColon: term.SemiColon;
}

/** An operation, as `undefined f(long x);`. */
export abstract class OperationInterfaceMember extends Value {
  readonly kind: "OperationInterfaceMember";
  /** The docstrings in front, none included. */
  readonly docstrings: readonly values.Docstring[];
  /** The lists of extended attributes in front, each in brackets, as `[Exposed=*]`, none included. */
  readonly attributes: readonly today.ExtendedAttributeList[];
  /** The word `stringifier` or `static`, where one of them is present. */
  readonly modifier: values.StringifierOrStatic | null;
  /** The word `getter`, `setter`, `deleter` or `legacycaller`, where one of them is present. */
  readonly special: values.Special | null;
  /** The type of its result, as `undefined` or `long`. */
  readonly returnType: today.Type;
  /** Its name, where it has one. */
  readonly identifier: values.Identifier | null;
  /** Its arguments, between parentheses. */
  readonly args: values.Parenthesized<today.ArgumentList>;
  /** The `;` at the end. */
  readonly semiColon: term.SemiColon;
}

/** An iteration, as `iterable<long>;`. */
export abstract class IterableInterfaceMember extends Value {
  readonly kind: "IterableInterfaceMember";
  /** The docstrings in front, none included. */
  readonly docstrings: readonly values.Docstring[];
  /** The lists of extended attributes in front, each in brackets, as `[Exposed=*]`, none included. */
  readonly attributes: readonly today.ExtendedAttributeList[];
  /** The word `iterable`. */
  readonly iterable: term.Iterable;
  /** The type, or the types, in angle brackets, as `<long>`. */
  readonly generics: today.Iterated;
  /** The `;` at the end. */
  readonly semiColon: term.SemiColon;
}

/** An asynchronous iteration, as `async_iterable<long>;`. */
export abstract class AsyncIterableInterfaceMember extends Value {
  readonly kind: "AsyncIterableInterfaceMember";
  /** The docstrings in front, none included. */
  readonly docstrings: readonly values.Docstring[];
  /** The lists of extended attributes in front, each in brackets, as `[Exposed=*]`, none included. */
  readonly attributes: readonly today.ExtendedAttributeList[];
  /** The word `async_iterable`, or the words `async` and `iterable`. */
  readonly asyncIterable: today.AsyncWords;
  /** The type, or the types, in angle brackets, as `<long>`. */
  readonly generics: today.Iterated;
  /** The arguments between parentheses, as `(long x)`, where present. */
  readonly args: values.Parenthesized<today.ArgumentList> | null;
  /** The `;` at the end. */
  readonly semiColon: term.SemiColon;
}

/** A map, as `maplike<DOMString, long>;`. */
export abstract class MaplikeInterfaceMember extends Value {
  readonly kind: "MaplikeInterfaceMember";
  /** The docstrings in front, none included. */
  readonly docstrings: readonly values.Docstring[];
  /** The lists of extended attributes in front, each in brackets, as `[Exposed=*]`, none included. */
  readonly attributes: readonly today.ExtendedAttributeList[];
  /** The word `readonly`, where present. */
  readonly readonly: term.ReadOnly | null;
  /** The word `maplike`. */
  readonly maplike: term.Maplike;
  /** The types of its keys and values in angle brackets, as `<DOMString, long>`. */
  readonly generics: values.Generics<readonly [today.AttributedType, term.Comma, today.AttributedType]>;
  /** The `;` at the end. */
  readonly semiColon: term.SemiColon;
}

/** A set, as `setlike<long>;`. */
export abstract class SetlikeInterfaceMember extends Value {
  readonly kind: "SetlikeInterfaceMember";
  /** The docstrings in front, none included. */
  readonly docstrings: readonly values.Docstring[];
  /** The lists of extended attributes in front, each in brackets, as `[Exposed=*]`, none included. */
  readonly attributes: readonly today.ExtendedAttributeList[];
  /** The word `readonly`, where present. */
  readonly readonly: term.ReadOnly | null;
  /** The word `setlike`. */
  readonly setlike: term.Setlike;
  /** The type of its values in angle brackets, as `<long>`. */
  readonly generics: values.Generics<today.AttributedType>;
  /** The `;` at the end. */
  readonly semiColon: term.SemiColon;
}

/** A stringifier, as `stringifier;`. */
export abstract class StringifierMember extends Value {
  readonly kind: "StringifierMember";
  /** The docstrings in front, none included. */
  readonly docstrings: readonly values.Docstring[];
  /** The lists of extended attributes in front, each in brackets, as `[Exposed=*]`, none included. */
  readonly attributes: readonly today.ExtendedAttributeList[];
  /** The word `stringifier`. */
  readonly stringifier: term.Stringifier;
  /** The `;` at the end. */
  readonly semiColon: term.SemiColon;
}

/** An operation of a mixin. */
export abstract class OperationMixinMember extends Value {
  readonly kind: "OperationMixinMember";
  /** The docstrings in front, none included. */
  readonly docstrings: readonly values.Docstring[];
  /** The lists of extended attributes in front, each in brackets, as `[Exposed=*]`, none included. */
  readonly attributes: readonly today.ExtendedAttributeList[];
  /** The word `stringifier`, where present. */
  readonly stringifier: term.Stringifier | null;
  /** The type of its result, as `undefined` or `long`. */
  readonly returnType: today.Type;
  /** Its name, where it has one. */
  readonly identifier: values.Identifier | null;
  /** Its arguments, between parentheses. */
  readonly args: values.Parenthesized<today.ArgumentList>;
  /** The `;` at the end. */
  readonly semiColon: term.SemiColon;
}

/** An attribute of a mixin. */
export abstract class AttributeMixinMember extends Value {
  readonly kind: "AttributeMixinMember";
  /** The docstrings in front, none included. */
  readonly docstrings: readonly values.Docstring[];
  /** The lists of extended attributes in front, each in brackets, as `[Exposed=*]`, none included. */
  readonly attributes: readonly today.ExtendedAttributeList[];
  /** The word `stringifier`, where present. */
  readonly stringifier: term.Stringifier | null;
  /** The word `readonly`, where present. */
  readonly readonly: term.ReadOnly | null;
  /** The word `attribute`. */
  readonly attribute: term.Attribute;
  /** Its type, as `long`, with the extended attributes before it. */
  readonly type: today.AttributedType;
  /** Its name. */
  readonly identifier: values.Identifier;
  /** The `;` at the end. */
  readonly semiColon: term.SemiColon;
}

/** An operation of a namespace. */
export abstract class OperationNamespaceMember extends Value {
  readonly kind: "OperationNamespaceMember";
  /** The docstrings in front, none included. */
  readonly docstrings: readonly values.Docstring[];
  /** The lists of extended attributes in front, each in brackets, as `[Exposed=*]`, none included. */
  readonly attributes: readonly today.ExtendedAttributeList[];
  /** The type of its result, as `undefined` or `long`. */
  readonly returnType: today.Type;
  /** Its name, where it has one. */
  readonly identifier: values.Identifier | null;
  /** Its arguments, between parentheses. */
  readonly args: values.Parenthesized<today.ArgumentList>;
  /** The `;` at the end. */
  readonly semiColon: term.SemiColon;
}

/** An attribute of a namespace. */
export abstract class AttributeNamespaceMember extends Value {
  readonly kind: "AttributeNamespaceMember";
  /** The docstrings in front, none included. */
  readonly docstrings: readonly values.Docstring[];
  /** The lists of extended attributes in front, each in brackets, as `[Exposed=*]`, none included. */
  readonly attributes: readonly today.ExtendedAttributeList[];
  /** The word `readonly`, which always is here. */
  readonly readonly: term.ReadOnly;
  /** The word `attribute`. */
  readonly attribute: term.Attribute;
  /** Its type, as `long`, with the extended attributes before it. */
  readonly type: today.AttributedType;
  /** Its name. */
  readonly identifier: values.Identifier;
  /** The `;` at the end. */
  readonly semiColon: term.SemiColon;
}

/** A member of a dictionary, as `required [Clamp] long x;`. */
export abstract class DictionaryMember extends Value {
  readonly kind: "DictionaryMember";
  /** The docstrings in front, none included. */
  readonly docstrings: readonly values.Docstring[];
  /** The lists of extended attributes in front, each in brackets, as `[Exposed=*]`, none included. */
  readonly attributes: readonly today.ExtendedAttributeList[];
  /** The word `required`, where present. */
  readonly required: term.Required | null;
  /** Its type, as `long`, with the extended attributes before it. */
  readonly type: today.AttributedType;
  /** Its name. */
  readonly identifier: values.Identifier;
  /** Its default, as `= 5`, where present. */
  readonly default: today.Default | null;
  /** The `;` at the end. */
  readonly semiColon: term.SemiColon;
}

/** A value of an enum, as `"a"`. */
export abstract class EnumVariant extends Value {
  readonly kind: "EnumVariant";
  /** The docstrings in front, none included. */
  readonly docstrings: readonly values.Docstring[];
  /** The value in quotes, as `"blob"`. */
  readonly value: values.StringLit;
}

/** The values of an enum in braces, as `{"a", "b",}`, with docstrings in front of the `}`. */
export abstract class BracedEnumValues extends Value {
  readonly kind: "BracedEnumValues";
  /** The `{`. */
  readonly openBrace: term.OpenBrace;
  /** The values, one at least. */
  readonly body: values.Punctuated<today.EnumVariant, term.Comma>;
  /** The `,` behind the last value, where present. */
  readonly comma: term.Comma | null;
  /** The docstrings in front of the `}`, behind the last value, none included. */
  readonly docstrings: readonly values.Docstring[];
  /** The `}`. */
  readonly closeBrace: term.CloseBrace;
}

/** A callback, as `callback F = undefined (long x);`. */
export abstract class CallbackDefinition extends Value {
  readonly kind: "CallbackDefinition";
  /** The docstrings in front, none included. */
  readonly docstrings: readonly values.Docstring[];
  /** The lists of extended attributes in front, each in brackets, as `[Exposed=*]`, none included. */
  readonly attributes: readonly today.ExtendedAttributeList[];
  /** The word `callback`. */
  readonly callback: term.Callback;
  /** Its name. */
  readonly identifier: values.Identifier;
  /** The `=`. */
  readonly assign: term.Assign;
  /** The type of its result, as `undefined` or `long`. */
  readonly returnType: today.Type;
  /** Its arguments, between parentheses. */
  readonly arguments: values.Parenthesized<today.ArgumentList>;
  /** The `;` at the end. */
  readonly semiColon: term.SemiColon;
}

/** A callback interface, as `callback interface A {};`. */
export abstract class CallbackInterfaceDefinition extends Value {
  readonly kind: "CallbackInterfaceDefinition";
  /** The docstrings in front, none included. */
  readonly docstrings: readonly values.Docstring[];
  /** The lists of extended attributes in front, each in brackets, as `[Exposed=*]`, none included. */
  readonly attributes: readonly today.ExtendedAttributeList[];
  /** The word `callback`. */
  readonly callback: term.Callback;
  /** The word `interface`. */
  readonly interface: term.Interface;
  /** Its name. */
  readonly identifier: values.Identifier;
  /** The interface that it inherits from, as `: EventTarget`, where one is named. */
  readonly inheritance: values.Inheritance | null;
  /** Its members, between braces. */
  readonly members: today.Braced<today.InterfaceMembers>;
  /** The `;` at the end. */
  readonly semiColon: term.SemiColon;
}

/** An interface, as `interface A : B {};`. */
export abstract class InterfaceDefinition extends Value {
  readonly kind: "InterfaceDefinition";
  /** The docstrings in front, none included. */
  readonly docstrings: readonly values.Docstring[];
  /** The lists of extended attributes in front, each in brackets, as `[Exposed=*]`, none included. */
  readonly attributes: readonly today.ExtendedAttributeList[];
  /** The word `interface`. */
  readonly interface: term.Interface;
  /** Its name. */
  readonly identifier: values.Identifier;
  /** The interface that it inherits from, as `: EventTarget`, where one is named. */
  readonly inheritance: values.Inheritance | null;
  /** Its members, between braces. */
  readonly members: today.Braced<today.InterfaceMembers>;
  /** The `;` at the end. */
  readonly semiColon: term.SemiColon;
}

/** A mixin, as `interface mixin A {};`. */
export abstract class InterfaceMixinDefinition extends Value {
  readonly kind: "InterfaceMixinDefinition";
  /** The docstrings in front, none included. */
  readonly docstrings: readonly values.Docstring[];
  /** The lists of extended attributes in front, each in brackets, as `[Exposed=*]`, none included. */
  readonly attributes: readonly today.ExtendedAttributeList[];
  /** The word `interface`. */
  readonly interface: term.Interface;
  /** The word `mixin`. */
  readonly mixin: term.Mixin;
  /** Its name. */
  readonly identifier: values.Identifier;
  /** Its members, between braces. */
  readonly members: today.Braced<today.MixinMembers>;
  /** The `;` at the end. */
  readonly semiColon: term.SemiColon;
}

/** A namespace, as `namespace A {};`. */
export abstract class NamespaceDefinition extends Value {
  readonly kind: "NamespaceDefinition";
  /** The docstrings in front, none included. */
  readonly docstrings: readonly values.Docstring[];
  /** The lists of extended attributes in front, each in brackets, as `[Exposed=*]`, none included. */
  readonly attributes: readonly today.ExtendedAttributeList[];
  /** The word `namespace`. */
  readonly namespace: term.Namespace;
  /** Its name. */
  readonly identifier: values.Identifier;
  /** Its members, between braces. */
  readonly members: today.Braced<today.NamespaceMembers>;
  /** The `;` at the end. */
  readonly semiColon: term.SemiColon;
}

/** A dictionary, as `dictionary A : B {};`. */
export abstract class DictionaryDefinition extends Value {
  readonly kind: "DictionaryDefinition";
  /** The docstrings in front, none included. */
  readonly docstrings: readonly values.Docstring[];
  /** The lists of extended attributes in front, each in brackets, as `[Exposed=*]`, none included. */
  readonly attributes: readonly today.ExtendedAttributeList[];
  /** The word `dictionary`. */
  readonly dictionary: term.Dictionary;
  /** Its name. */
  readonly identifier: values.Identifier;
  /** The dictionary that it inherits from, as `: EventInit`, where one is named. */
  readonly inheritance: values.Inheritance | null;
  /** Its members, between braces. */
  readonly members: today.Braced<today.DictionaryMembers>;
  /** The `;` at the end. */
  readonly semiColon: term.SemiColon;
}

/** A part of an interface. */
export abstract class PartialInterfaceDefinition extends Value {
  readonly kind: "PartialInterfaceDefinition";
  /** The docstrings in front, none included. */
  readonly docstrings: readonly values.Docstring[];
  /** The lists of extended attributes in front, each in brackets, as `[Exposed=*]`, none included. */
  readonly attributes: readonly today.ExtendedAttributeList[];
  /** The word `partial`. */
  readonly partial: term.Partial;
  /** The word `interface`. */
  readonly interface: term.Interface;
  /** The name of the interface that it is a part of. */
  readonly identifier: values.Identifier;
  /** Its members, between braces. */
  readonly members: today.Braced<today.InterfaceMembers>;
  /** The `;` at the end. */
  readonly semiColon: term.SemiColon;
}

/** A part of a mixin. */
export abstract class PartialInterfaceMixinDefinition extends Value {
  readonly kind: "PartialInterfaceMixinDefinition";
  /** The docstrings in front, none included. */
  readonly docstrings: readonly values.Docstring[];
  /** The lists of extended attributes in front, each in brackets, as `[Exposed=*]`, none included. */
  readonly attributes: readonly today.ExtendedAttributeList[];
  /** The word `partial`. */
  readonly partial: term.Partial;
  /** The word `interface`. */
  readonly interface: term.Interface;
  /** The word `mixin`. */
  readonly mixin: term.Mixin;
  /** The name of the mixin that it is a part of. */
  readonly identifier: values.Identifier;
  /** Its members, between braces. */
  readonly members: today.Braced<today.MixinMembers>;
  /** The `;` at the end. */
  readonly semiColon: term.SemiColon;
}

/** A part of a dictionary. */
export abstract class PartialDictionaryDefinition extends Value {
  readonly kind: "PartialDictionaryDefinition";
  /** The docstrings in front, none included. */
  readonly docstrings: readonly values.Docstring[];
  /** The lists of extended attributes in front, each in brackets, as `[Exposed=*]`, none included. */
  readonly attributes: readonly today.ExtendedAttributeList[];
  /** The word `partial`. */
  readonly partial: term.Partial;
  /** The word `dictionary`. */
  readonly dictionary: term.Dictionary;
  /** The name of the dictionary that it is a part of. */
  readonly identifier: values.Identifier;
  /** Its members, between braces. */
  readonly members: today.Braced<today.DictionaryMembers>;
  /** The `;` at the end. */
  readonly semiColon: term.SemiColon;
}

/** A part of a namespace. */
export abstract class PartialNamespaceDefinition extends Value {
  readonly kind: "PartialNamespaceDefinition";
  /** The docstrings in front, none included. */
  readonly docstrings: readonly values.Docstring[];
  /** The lists of extended attributes in front, each in brackets, as `[Exposed=*]`, none included. */
  readonly attributes: readonly today.ExtendedAttributeList[];
  /** The word `partial`. */
  readonly partial: term.Partial;
  /** The word `namespace`. */
  readonly namespace: term.Namespace;
  /** The name of the namespace that it is a part of. */
  readonly identifier: values.Identifier;
  /** Its members, between braces. */
  readonly members: today.Braced<today.NamespaceMembers>;
  /** The `;` at the end. */
  readonly semiColon: term.SemiColon;
}

/** An enum, as `enum A {"a"};`. */
export abstract class EnumDefinition extends Value {
  readonly kind: "EnumDefinition";
  /** The docstrings in front, none included. */
  readonly docstrings: readonly values.Docstring[];
  /** The lists of extended attributes in front, each in brackets, as `[Exposed=*]`, none included. */
  readonly attributes: readonly today.ExtendedAttributeList[];
  /** The word `enum`. */
  readonly enum: term.Enum;
  /** Its name. */
  readonly identifier: values.Identifier;
  /** Its values, between braces. */
  readonly values: today.BracedEnumValues;
  /** The `;` at the end. */
  readonly semiColon: term.SemiColon;
}

/** A name for a type, as `typedef long A;`. */
export abstract class TypedefDefinition extends Value {
  readonly kind: "TypedefDefinition";
  /** The docstrings in front, none included. */
  readonly docstrings: readonly values.Docstring[];
  /** The lists of extended attributes in front, each in brackets, as `[Exposed=*]`, none included. */
  readonly attributes: readonly today.ExtendedAttributeList[];
  /** The word `typedef`. */
  readonly typedef: term.Typedef;
  /** The type that is named, as `long`, with the extended attributes before it. */
  readonly type: today.AttributedType;
  /** The name that the type gets. */
  readonly identifier: values.Identifier;
  /** The `;` at the end. */
  readonly semiColon: term.SemiColon;
}

/** The use of a mixin, as `A includes B;`. */
export abstract class IncludesStatementDefinition extends Value {
  readonly kind: "IncludesStatementDefinition";
  /** The docstrings in front, none included. */
  readonly docstrings: readonly values.Docstring[];
  /** The lists of extended attributes in front, each in brackets, as `[Exposed=*]`, none included. */
  readonly attributes: readonly today.ExtendedAttributeList[];
  /** The name of the interface, before `includes`. */
  readonly lhsIdentifier: values.Identifier;
  /** The word `includes`. */
  readonly includes: term.Includes;
  /** The name of the mixin that it uses, behind `includes`. */
  readonly rhsIdentifier: values.Identifier;
  /** The `;` at the end. */
  readonly semiColon: term.SemiColon;
}

/** The older form of it, as `A implements B;`. */
export abstract class ImplementsDefinition extends Value {
  readonly kind: "ImplementsDefinition";
  /** The docstrings in front, none included. */
  readonly docstrings: readonly values.Docstring[];
  /** The lists of extended attributes in front, each in brackets, as `[Exposed=*]`, none included. */
  readonly attributes: readonly today.ExtendedAttributeList[];
  /** The name of the interface, before `implements`. */
  readonly lhsIdentifier: values.Identifier;
  /** The word `implements`. */
  readonly includes: term.Implements;
  /** The name of the interface that it implements, behind `implements`. */
  readonly rhsIdentifier: values.Identifier;
  /** The `;` at the end. */
  readonly semiColon: term.SemiColon;
}

/** The value of a default, as `"blob"` or `[]`. */
export type DefaultValue =
  | DefaultValue.Boolean | DefaultValue.EmptyArray | DefaultValue.EmptyDictionary | DefaultValue.Float |
  DefaultValue.Integer | DefaultValue.Null | DefaultValue.Undefined | DefaultValue.String;
export declare namespace DefaultValue {
  /** A boolean, as `true`. */
  interface Boolean extends Choice<"DefaultValue", "Boolean", values.BooleanLit> {}
  /** An empty list, as `[]`. */
  interface EmptyArray extends Choice<"DefaultValue", "EmptyArray", values.EmptyArrayLit> {}
  /** An empty dictionary, as `{}`. */
  interface EmptyDictionary extends Choice<"DefaultValue", "EmptyDictionary", values.EmptyDictionaryLit> {}
  /** A float, as `1.5` or `NaN`. */
  interface Float extends Choice<"DefaultValue", "Float", values.FloatLit> {}
  /** A whole number, as `-12`. */
  interface Integer extends Choice<"DefaultValue", "Integer", values.IntegerLit> {}
  /** The word `null`. */
  interface Null extends Choice<"DefaultValue", "Null", term.Null> {}
  /** The keyword `undefined`. */
  interface Undefined extends Choice<"DefaultValue", "Undefined", term.Undefined> {}
  /** A text in quotes, as `"blob"`. */
  interface String extends Choice<"DefaultValue", "String", values.StringLit> {}
}
export declare const DefaultValue: Kind<DefaultValue> & {
  /** A boolean, as `true`. */
  readonly Boolean: Kind<DefaultValue.Boolean>;
  /** An empty list, as `[]`. */
  readonly EmptyArray: Kind<DefaultValue.EmptyArray>;
  /** An empty dictionary, as `{}`. */
  readonly EmptyDictionary: Kind<DefaultValue.EmptyDictionary>;
  /** A float, as `1.5` or `NaN`. */
  readonly Float: Kind<DefaultValue.Float>;
  /** A whole number, as `-12`. */
  readonly Integer: Kind<DefaultValue.Integer>;
  /** The word `null`. */
  readonly Null: Kind<DefaultValue.Null>;
  /** The keyword `undefined`. */
  readonly Undefined: Kind<DefaultValue.Undefined>;
  /** A text in quotes, as `"blob"`. */
  readonly String: Kind<DefaultValue.String>;
};

/** The type of a constant, as `long?`. */
export type ConstType =
  | ConstType.Integer | ConstType.FloatingPoint | ConstType.Boolean | ConstType.Byte | ConstType.Octet |
  ConstType.BigInt | ConstType.Identifier;
export declare namespace ConstType {
  /** `short?`, `long?` or `long long?`, each also with `unsigned` in front. */
  interface Integer extends Choice<"ConstType", "Integer", values.MayBeNull<values.IntegerType>> {}
  /** `float?` or `double?`, each also with `unrestricted` in front. */
  interface FloatingPoint extends Choice<"ConstType", "FloatingPoint", values.MayBeNull<values.FloatingPointType>> {}
  /** `boolean?`. */
  interface Boolean extends Choice<"ConstType", "Boolean", values.MayBeNull<term.Boolean>> {}
  /** `byte?`. */
  interface Byte extends Choice<"ConstType", "Byte", values.MayBeNull<term.Byte>> {}
  /** `octet?`. */
  interface Octet extends Choice<"ConstType", "Octet", values.MayBeNull<term.Octet>> {}
  /** The word `bigint`. */
  interface BigInt extends Choice<"ConstType", "BigInt", values.MayBeNull<today.BigInt>> {}
  /** `name?`. */
  interface Identifier extends Choice<"ConstType", "Identifier", values.MayBeNull<values.Identifier>> {}
}
export declare const ConstType: Kind<ConstType> & {
  /** `short?`, `long?` or `long long?`, each also with `unsigned` in front. */
  readonly Integer: Kind<ConstType.Integer>;
  /** `float?` or `double?`, each also with `unrestricted` in front. */
  readonly FloatingPoint: Kind<ConstType.FloatingPoint>;
  /** `boolean?`. */
  readonly Boolean: Kind<ConstType.Boolean>;
  /** `byte?`. */
  readonly Byte: Kind<ConstType.Byte>;
  /** `octet?`. */
  readonly Octet: Kind<ConstType.Octet>;
  /** The word `bigint`. */
  readonly BigInt: Kind<ConstType.BigInt>;
  /** `name?`. */
  readonly Identifier: Kind<ConstType.Identifier>;
};

/** A number. */
export type Number =
  | Number.Float | Number.Integer;
export declare namespace Number {
  /** A floating point number, as `1.5` or `NaN`. */
  interface Float extends Choice<"Number", "Float", values.FloatLit> {}
  /** An integer. */
  interface Integer extends Choice<"Number", "Integer", values.IntegerLit> {}
}
export declare const Number: Kind<Number> & {
  /** A floating point number, as `1.5` or `NaN`. */
  readonly Float: Kind<Number.Float>;
  /** An integer. */
  readonly Integer: Kind<Number.Integer>;
};

/** A word that is a type, and is none in weedle2's rules, as `bigint`. */
export type WordType =
  | WordType.BigInt | WordType.Float16Array | WordType.BigInt64Array | WordType.BigUint64Array |
  WordType.SharedArrayBuffer | WordType.Undefined;
export declare namespace WordType {
  /** The word `bigint`. */
  interface BigInt extends Choice<"WordType", "BigInt", today.BigInt> {}
  /** The word `Float16Array`. */
  interface Float16Array extends Choice<"WordType", "Float16Array", today.Float16Array> {}
  /** The word `BigInt64Array`. */
  interface BigInt64Array extends Choice<"WordType", "BigInt64Array", today.BigInt64Array> {}
  /** The word `BigUint64Array`. */
  interface BigUint64Array extends Choice<"WordType", "BigUint64Array", today.BigUint64Array> {}
  /** The word `SharedArrayBuffer`. */
  interface SharedArrayBuffer extends Choice<"WordType", "SharedArrayBuffer", today.SharedArrayBuffer> {}
  /** The keyword `undefined`. */
  interface Undefined extends Choice<"WordType", "Undefined", term.Undefined> {}
}
export declare const WordType: Kind<WordType> & {
  /** The word `bigint`. */
  readonly BigInt: Kind<WordType.BigInt>;
  /** The word `Float16Array`. */
  readonly Float16Array: Kind<WordType.Float16Array>;
  /** The word `BigInt64Array`. */
  readonly BigInt64Array: Kind<WordType.BigInt64Array>;
  /** The word `BigUint64Array`. */
  readonly BigUint64Array: Kind<WordType.BigUint64Array>;
  /** The word `SharedArrayBuffer`. */
  readonly SharedArrayBuffer: Kind<WordType.SharedArrayBuffer>;
  /** The keyword `undefined`. */
  readonly Undefined: Kind<WordType.Undefined>;
};

/** A type over others, as `sequence<long>`. */
export type GenericType =
  | GenericType.Sequence | GenericType.AsyncSequence | GenericType.FrozenArray | GenericType.ObservableArray |
  GenericType.Record;
export declare namespace GenericType {
  /** A sequence, as `sequence<[Clamp] octet>`. */
  interface Sequence extends Choice<"GenericType", "Sequence", today.SequenceType> {}
  /** An asynchronous sequence, as `async_sequence<long>`. */
  interface AsyncSequence extends Choice<"GenericType", "AsyncSequence", today.AsyncSequenceType> {}
  /** A frozen array, as `FrozenArray<long>`. */
  interface FrozenArray extends Choice<"GenericType", "FrozenArray", today.FrozenArrayType> {}
  /** An observable array, as `ObservableArray<Node>`. */
  interface ObservableArray extends Choice<"GenericType", "ObservableArray", today.ObservableArrayType> {}
  /** A record, as `record<DOMString, [Clamp] octet>`. */
  interface Record extends Choice<"GenericType", "Record", today.RecordType> {}
}
export declare const GenericType: Kind<GenericType> & {
  /** A sequence, as `sequence<[Clamp] octet>`. */
  readonly Sequence: Kind<GenericType.Sequence>;
  /** An asynchronous sequence, as `async_sequence<long>`. */
  readonly AsyncSequence: Kind<GenericType.AsyncSequence>;
  /** A frozen array, as `FrozenArray<long>`. */
  readonly FrozenArray: Kind<GenericType.FrozenArray>;
  /** An observable array, as `ObservableArray<Node>`. */
  readonly ObservableArray: Kind<GenericType.ObservableArray>;
  /** A record, as `record<DOMString, [Clamp] octet>`. */
  readonly Record: Kind<GenericType.Record>;
};

/** A type that is neither `any` nor a union, as `long?`. */
export type NonAnyType =
  | NonAnyType.Promise | NonAnyType.Integer | NonAnyType.FloatingPoint | NonAnyType.Boolean | NonAnyType.Byte |
  NonAnyType.Octet | NonAnyType.ByteString | NonAnyType.DOMString | NonAnyType.USVString | NonAnyType.Object |
  NonAnyType.Symbol | NonAnyType.Error | NonAnyType.ArrayBuffer | NonAnyType.DataView | NonAnyType.Int8Array |
  NonAnyType.Int16Array | NonAnyType.Int32Array | NonAnyType.Uint8Array | NonAnyType.Uint16Array |
  NonAnyType.Uint32Array | NonAnyType.Uint8ClampedArray | NonAnyType.Float32Array | NonAnyType.Float64Array |
  NonAnyType.ArrayBufferView | NonAnyType.BufferSource | NonAnyType.Word | NonAnyType.Generic |
  NonAnyType.Identifier;
export declare namespace NonAnyType {
  /** `Promise<type>`. */
  interface Promise extends Choice<"NonAnyType", "Promise", today.PromiseType> {}
  /** `short?`, `long?` or `long long?`, each also with `unsigned` in front. */
  interface Integer extends Choice<"NonAnyType", "Integer", values.MayBeNull<values.IntegerType>> {}
  /** `float?` or `double?`, each also with `unrestricted` in front. */
  interface FloatingPoint extends Choice<"NonAnyType", "FloatingPoint", values.MayBeNull<values.FloatingPointType>> {}
  /** `boolean?`. */
  interface Boolean extends Choice<"NonAnyType", "Boolean", values.MayBeNull<term.Boolean>> {}
  /** `byte?`. */
  interface Byte extends Choice<"NonAnyType", "Byte", values.MayBeNull<term.Byte>> {}
  /** `octet?`. */
  interface Octet extends Choice<"NonAnyType", "Octet", values.MayBeNull<term.Octet>> {}
  /** `ByteString?`. */
  interface ByteString extends Choice<"NonAnyType", "ByteString", values.MayBeNull<term.ByteString>> {}
  /** `DOMString?`. */
  interface DOMString extends Choice<"NonAnyType", "DOMString", values.MayBeNull<term.DOMString>> {}
  /** `USVString?`. */
  interface USVString extends Choice<"NonAnyType", "USVString", values.MayBeNull<term.USVString>> {}
  /** `object?`. */
  interface Object extends Choice<"NonAnyType", "Object", values.MayBeNull<term.Object>> {}
  /** `symbol?`. */
  interface Symbol extends Choice<"NonAnyType", "Symbol", values.MayBeNull<term.Symbol>> {}
  /** `Error?`. */
  interface Error extends Choice<"NonAnyType", "Error", values.MayBeNull<term.Error>> {}
  /** `ArrayBuffer?`. */
  interface ArrayBuffer extends Choice<"NonAnyType", "ArrayBuffer", values.MayBeNull<term.ArrayBuffer>> {}
  /** `DataView?`. */
  interface DataView extends Choice<"NonAnyType", "DataView", values.MayBeNull<term.DataView>> {}
  /** `Int8Array?`. */
  interface Int8Array extends Choice<"NonAnyType", "Int8Array", values.MayBeNull<term.Int8Array>> {}
  /** `Int16Array?`. */
  interface Int16Array extends Choice<"NonAnyType", "Int16Array", values.MayBeNull<term.Int16Array>> {}
  /** `Int32Array?`. */
  interface Int32Array extends Choice<"NonAnyType", "Int32Array", values.MayBeNull<term.Int32Array>> {}
  /** `Uint8Array?`. */
  interface Uint8Array extends Choice<"NonAnyType", "Uint8Array", values.MayBeNull<term.Uint8Array>> {}
  /** `Uint16Array?`. */
  interface Uint16Array extends Choice<"NonAnyType", "Uint16Array", values.MayBeNull<term.Uint16Array>> {}
  /** `Uint32Array?`. */
  interface Uint32Array extends Choice<"NonAnyType", "Uint32Array", values.MayBeNull<term.Uint32Array>> {}
  /** `Uint8ClampedArray?`. */
  interface Uint8ClampedArray extends Choice<"NonAnyType", "Uint8ClampedArray", values.MayBeNull<term.Uint8ClampedArray>> {}
  /** `Float32Array?`. */
  interface Float32Array extends Choice<"NonAnyType", "Float32Array", values.MayBeNull<term.Float32Array>> {}
  /** `Float64Array?`. */
  interface Float64Array extends Choice<"NonAnyType", "Float64Array", values.MayBeNull<term.Float64Array>> {}
  /** `ArrayBufferView?`. */
  interface ArrayBufferView extends Choice<"NonAnyType", "ArrayBufferView", values.MayBeNull<term.ArrayBufferView>> {}
  /** `BufferSource?`. */
  interface BufferSource extends Choice<"NonAnyType", "BufferSource", values.MayBeNull<term.BufferSource>> {}
  /** A word that is a type, and is none in weedle2's rules, as `bigint`. */
  interface Word extends Choice<"NonAnyType", "Word", values.MayBeNull<today.WordType>> {}
  /** A type over others, as `sequence<long>`. */
  interface Generic extends Choice<"NonAnyType", "Generic", values.MayBeNull<today.GenericType>> {}
  /** `name?`. */
  interface Identifier extends Choice<"NonAnyType", "Identifier", values.MayBeNull<values.Identifier>> {}
}
export declare const NonAnyType: Kind<NonAnyType> & {
  /** `Promise<type>`. */
  readonly Promise: Kind<NonAnyType.Promise>;
  /** `short?`, `long?` or `long long?`, each also with `unsigned` in front. */
  readonly Integer: Kind<NonAnyType.Integer>;
  /** `float?` or `double?`, each also with `unrestricted` in front. */
  readonly FloatingPoint: Kind<NonAnyType.FloatingPoint>;
  /** `boolean?`. */
  readonly Boolean: Kind<NonAnyType.Boolean>;
  /** `byte?`. */
  readonly Byte: Kind<NonAnyType.Byte>;
  /** `octet?`. */
  readonly Octet: Kind<NonAnyType.Octet>;
  /** `ByteString?`. */
  readonly ByteString: Kind<NonAnyType.ByteString>;
  /** `DOMString?`. */
  readonly DOMString: Kind<NonAnyType.DOMString>;
  /** `USVString?`. */
  readonly USVString: Kind<NonAnyType.USVString>;
  /** `object?`. */
  readonly Object: Kind<NonAnyType.Object>;
  /** `symbol?`. */
  readonly Symbol: Kind<NonAnyType.Symbol>;
  /** `Error?`. */
  readonly Error: Kind<NonAnyType.Error>;
  /** `ArrayBuffer?`. */
  readonly ArrayBuffer: Kind<NonAnyType.ArrayBuffer>;
  /** `DataView?`. */
  readonly DataView: Kind<NonAnyType.DataView>;
  /** `Int8Array?`. */
  readonly Int8Array: Kind<NonAnyType.Int8Array>;
  /** `Int16Array?`. */
  readonly Int16Array: Kind<NonAnyType.Int16Array>;
  /** `Int32Array?`. */
  readonly Int32Array: Kind<NonAnyType.Int32Array>;
  /** `Uint8Array?`. */
  readonly Uint8Array: Kind<NonAnyType.Uint8Array>;
  /** `Uint16Array?`. */
  readonly Uint16Array: Kind<NonAnyType.Uint16Array>;
  /** `Uint32Array?`. */
  readonly Uint32Array: Kind<NonAnyType.Uint32Array>;
  /** `Uint8ClampedArray?`. */
  readonly Uint8ClampedArray: Kind<NonAnyType.Uint8ClampedArray>;
  /** `Float32Array?`. */
  readonly Float32Array: Kind<NonAnyType.Float32Array>;
  /** `Float64Array?`. */
  readonly Float64Array: Kind<NonAnyType.Float64Array>;
  /** `ArrayBufferView?`. */
  readonly ArrayBufferView: Kind<NonAnyType.ArrayBufferView>;
  /** `BufferSource?`. */
  readonly BufferSource: Kind<NonAnyType.BufferSource>;
  /** A word that is a type, and is none in weedle2's rules, as `bigint`. */
  readonly Word: Kind<NonAnyType.Word>;
  /** A type over others, as `sequence<long>`. */
  readonly Generic: Kind<NonAnyType.Generic>;
  /** `name?`. */
  readonly Identifier: Kind<NonAnyType.Identifier>;
};

/** The type of a record's keys, as `DOMString`. */
export type RecordKeyType =
  | RecordKeyType.Byte | RecordKeyType.DOM | RecordKeyType.USV | RecordKeyType.NonAny;
export declare namespace RecordKeyType {
  /** The word `ByteString`. */
  interface Byte extends Choice<"RecordKeyType", "Byte", term.ByteString> {}
  /** The word `DOMString`. */
  interface DOM extends Choice<"RecordKeyType", "DOM", term.DOMString> {}
  /** The word `USVString`. */
  interface USV extends Choice<"RecordKeyType", "USV", term.USVString> {}
  /** Another type that is neither `any` nor a union, as `long`. */
  interface NonAny extends Choice<"RecordKeyType", "NonAny", today.NonAnyType> {}
}
export declare const RecordKeyType: Kind<RecordKeyType> & {
  /** The word `ByteString`. */
  readonly Byte: Kind<RecordKeyType.Byte>;
  /** The word `DOMString`. */
  readonly DOM: Kind<RecordKeyType.DOM>;
  /** The word `USVString`. */
  readonly USV: Kind<RecordKeyType.USV>;
  /** Another type that is neither `any` nor a union, as `long`. */
  readonly NonAny: Kind<RecordKeyType.NonAny>;
};

/** A type, as `long`, `any` or `(long or DOMString)?`. */
export type Type =
  | Type.Any | Type.NonAny | Type.Union;
export declare namespace Type {
  /** The word `any`. */
  interface Any extends Choice<"Type", "Any", term.Any> {}
  /** Any other type that is no union, as `long?`. */
  interface NonAny extends Choice<"Type", "NonAny", today.NonAnyType> {}
  /** `(type or type)?`, also without `?`. */
  interface Union extends Choice<"Type", "Union", values.MayBeNull<today.UnionType>> {}
}
export declare const Type: Kind<Type> & {
  /** The word `any`. */
  readonly Any: Kind<Type.Any>;
  /** Any other type that is no union, as `long?`. */
  readonly NonAny: Kind<Type.NonAny>;
  /** `(type or type)?`, also without `?`. */
  readonly Union: Kind<Type.Union>;
};

/** A member of a union, as `[Clamp] octet` or `(long or DOMString)`. */
export type UnionMemberType =
  | UnionMemberType.Single | UnionMemberType.Union;
export declare namespace UnionMemberType {
  /**
   * `[extended attributes] type`, also without `[extended attributes]`, where the type is neither `any` nor a
   * union.
   */
  interface Single extends Choice<"UnionMemberType", "Single", today.AttributedNonAnyType> {}
  /** `(type or type)?`, also without `?`. */
  interface Union extends Choice<"UnionMemberType", "Union", values.MayBeNull<today.UnionType>> {}
}
export declare const UnionMemberType: Kind<UnionMemberType> & {
  /**
   * `[extended attributes] type`, also without `[extended attributes]`, where the type is neither `any` nor a
   * union.
   */
  readonly Single: Kind<UnionMemberType.Single>;
  /** `(type or type)?`, also without `?`. */
  readonly Union: Kind<UnionMemberType.Union>;
};

/** An extended attribute, as `Exposed=Window` or `Constructor(long x)`. */
export type ExtendedAttribute =
  | ExtendedAttribute.ArgList | ExtendedAttribute.NamedArgList | ExtendedAttribute.IdentList |
  ExtendedAttribute.Wildcard | ExtendedAttribute.Strings | ExtendedAttribute.Numbers | ExtendedAttribute.Number
  | ExtendedAttribute.Ident | ExtendedAttribute.NoArgs;
export declare namespace ExtendedAttribute {
  /** `name(arguments)`. */
  interface ArgList extends Choice<"ExtendedAttribute", "ArgList", today.ExtendedAttributeArgList> {}
  /** `name=name(arguments)`. */
  interface NamedArgList extends Choice<"ExtendedAttribute", "NamedArgList", today.ExtendedAttributeNamedArgList> {}
  /** `name=(names)`. */
  interface IdentList extends Choice<"ExtendedAttribute", "IdentList", values.ExtendedAttributeIdentList> {}
  /** As `Exposed=*`. */
  interface Wildcard extends Choice<"ExtendedAttribute", "Wildcard", today.ExtendedAttributeWildcard> {}
  /** As `A=("a", "b")`. */
  interface Strings extends Choice<"ExtendedAttribute", "Strings", today.ExtendedAttributeStrings> {}
  /** As `ReflectRange=(2, 8)`. */
  interface Numbers extends Choice<"ExtendedAttribute", "Numbers", today.ExtendedAttributeNumbers> {}
  /** As `ReflectDefault=2`. */
  interface Number extends Choice<"ExtendedAttribute", "Number", today.ExtendedAttributeNumber> {}
  /** `name=name` or `name="text"`. */
  interface Ident extends Choice<"ExtendedAttribute", "Ident", values.ExtendedAttributeIdent> {}
  /** `name`. */
  interface NoArgs extends Choice<"ExtendedAttribute", "NoArgs", values.ExtendedAttributeNoArgs> {}
}
export declare const ExtendedAttribute: Kind<ExtendedAttribute> & {
  /** `name(arguments)`. */
  readonly ArgList: Kind<ExtendedAttribute.ArgList>;
  /** `name=name(arguments)`. */
  readonly NamedArgList: Kind<ExtendedAttribute.NamedArgList>;
  /** `name=(names)`. */
  readonly IdentList: Kind<ExtendedAttribute.IdentList>;
  /** As `Exposed=*`. */
  readonly Wildcard: Kind<ExtendedAttribute.Wildcard>;
  /** As `A=("a", "b")`. */
  readonly Strings: Kind<ExtendedAttribute.Strings>;
  /** As `ReflectRange=(2, 8)`. */
  readonly Numbers: Kind<ExtendedAttribute.Numbers>;
  /** As `ReflectDefault=2`. */
  readonly Number: Kind<ExtendedAttribute.Number>;
  /** `name=name` or `name="text"`. */
  readonly Ident: Kind<ExtendedAttribute.Ident>;
  /** `name`. */
  readonly NoArgs: Kind<ExtendedAttribute.NoArgs>;
};

/** `async_iterable`, or the older `async iterable`. */
export type AsyncWords =
  | AsyncWords.One | AsyncWords.Two;
export declare namespace AsyncWords {
  /** The word `async_iterable`. */
  interface One extends Choice<"AsyncWords", "One", today.AsyncIterableWord> {}
  /** The words `async iterable`, as older texts have them. */
  interface Two extends Choice<"AsyncWords", "Two", readonly [term.Async, term.Iterable]> {}
}
export declare const AsyncWords: Kind<AsyncWords> & {
  /** The word `async_iterable`. */
  readonly One: Kind<AsyncWords.One>;
  /** The words `async iterable`, as older texts have them. */
  readonly Two: Kind<AsyncWords.Two>;
};

/** An argument, as `long x`, or `long... xs` for any number of them. */
export type Argument =
  | Argument.Optional | Argument.Required;
export declare namespace Argument {
  /** An argument that may be left out, as `optional long x = 5`, behind its attributes. */
  interface Optional extends Choice<"Argument", "Optional", today.OptionalArgument> {}
  /** As `long x`, or `long... x`, behind its attributes. */
  interface Required extends Choice<"Argument", "Required", today.RequiredArgument> {}
}
export declare const Argument: Kind<Argument> & {
  /** An argument that may be left out, as `optional long x = 5`, behind its attributes. */
  readonly Optional: Kind<Argument.Optional>;
  /** As `long x`, or `long... x`, behind its attributes. */
  readonly Required: Kind<Argument.Required>;
};

/** A member of an interface, as `attribute long length;`. */
export type InterfaceMember =
  | InterfaceMember.Const | InterfaceMember.Attribute | InterfaceMember.Constructor | InterfaceMember.Operation
  | InterfaceMember.Iterable | InterfaceMember.AsyncIterable | InterfaceMember.Maplike | InterfaceMember.Setlike
  | InterfaceMember.Stringifier;
export declare namespace InterfaceMember {
  /** `[extended attributes] const type name = value;`. */
  interface Const extends Choice<"InterfaceMember", "Const", today.ConstMember> {}
  /** `[extended attributes] readonly attribute type name;`, also without `readonly`. */
  interface Attribute extends Choice<"InterfaceMember", "Attribute", today.AttributeInterfaceMember> {}
  /** `docstring [extended attributes] constructor(arguments);`. */
  interface Constructor extends Choice<"InterfaceMember", "Constructor", today.ConstructorInterfaceMember> {}
  /** `docstring [extended attributes] type name(arguments);`, also without the name. */
  interface Operation extends Choice<"InterfaceMember", "Operation", today.OperationInterfaceMember> {}
  /** `[extended attributes] iterable<type>;` or `[extended attributes] iterable<type, type>;`. */
  interface Iterable extends Choice<"InterfaceMember", "Iterable", today.IterableInterfaceMember> {}
  /**
   * `[extended attributes] async iterable<type>(arguments);`, also with two types, or without `(arguments)`.
   */
  interface AsyncIterable extends Choice<"InterfaceMember", "AsyncIterable", today.AsyncIterableInterfaceMember> {}
  /** `[extended attributes] readonly maplike<type, type>;`, also without `readonly`. */
  interface Maplike extends Choice<"InterfaceMember", "Maplike", today.MaplikeInterfaceMember> {}
  /** `[extended attributes] readonly setlike<type>;`, also without `readonly`. */
  interface Setlike extends Choice<"InterfaceMember", "Setlike", today.SetlikeInterfaceMember> {}
  /** `[extended attributes] stringifier;`. */
  interface Stringifier extends Choice<"InterfaceMember", "Stringifier", today.StringifierMember> {}
}
export declare const InterfaceMember: Kind<InterfaceMember> & {
  /** `[extended attributes] const type name = value;`. */
  readonly Const: Kind<InterfaceMember.Const>;
  /** `[extended attributes] readonly attribute type name;`, also without `readonly`. */
  readonly Attribute: Kind<InterfaceMember.Attribute>;
  /** `docstring [extended attributes] constructor(arguments);`. */
  readonly Constructor: Kind<InterfaceMember.Constructor>;
  /** `docstring [extended attributes] type name(arguments);`, also without the name. */
  readonly Operation: Kind<InterfaceMember.Operation>;
  /** `[extended attributes] iterable<type>;` or `[extended attributes] iterable<type, type>;`. */
  readonly Iterable: Kind<InterfaceMember.Iterable>;
  /**
   * `[extended attributes] async iterable<type>(arguments);`, also with two types, or without `(arguments)`.
   */
  readonly AsyncIterable: Kind<InterfaceMember.AsyncIterable>;
  /** `[extended attributes] readonly maplike<type, type>;`, also without `readonly`. */
  readonly Maplike: Kind<InterfaceMember.Maplike>;
  /** `[extended attributes] readonly setlike<type>;`, also without `readonly`. */
  readonly Setlike: Kind<InterfaceMember.Setlike>;
  /** `[extended attributes] stringifier;`. */
  readonly Stringifier: Kind<InterfaceMember.Stringifier>;
};

/** A member of a mixin, as `readonly attribute long x;`. */
export type MixinMember =
  | MixinMember.Const | MixinMember.Operation | MixinMember.Attribute | MixinMember.Stringifier;
export declare namespace MixinMember {
  /** `[extended attributes] const type name = value;`. */
  interface Const extends Choice<"MixinMember", "Const", today.ConstMember> {}
  /** `[extended attributes] stringifier type name(arguments);`, also without `stringifier` or the name. */
  interface Operation extends Choice<"MixinMember", "Operation", today.OperationMixinMember> {}
  /**
   * `[extended attributes] stringifier readonly attribute type name;`, also without `stringifier` or
   * `readonly`.
   */
  interface Attribute extends Choice<"MixinMember", "Attribute", today.AttributeMixinMember> {}
  /** `[extended attributes] stringifier;`. */
  interface Stringifier extends Choice<"MixinMember", "Stringifier", today.StringifierMember> {}
}
export declare const MixinMember: Kind<MixinMember> & {
  /** `[extended attributes] const type name = value;`. */
  readonly Const: Kind<MixinMember.Const>;
  /** `[extended attributes] stringifier type name(arguments);`, also without `stringifier` or the name. */
  readonly Operation: Kind<MixinMember.Operation>;
  /**
   * `[extended attributes] stringifier readonly attribute type name;`, also without `stringifier` or
   * `readonly`.
   */
  readonly Attribute: Kind<MixinMember.Attribute>;
  /** `[extended attributes] stringifier;`. */
  readonly Stringifier: Kind<MixinMember.Stringifier>;
};

/** A member of a namespace, as `long f(long x);`. */
export type NamespaceMember =
  | NamespaceMember.Const | NamespaceMember.Operation | NamespaceMember.Attribute;
export declare namespace NamespaceMember {
  /** A constant, as `const long X = 5;`. */
  interface Const extends Choice<"NamespaceMember", "Const", today.ConstMember> {}
  /** `docstring [extended attributes] type name(arguments);`, also without the name. */
  interface Operation extends Choice<"NamespaceMember", "Operation", today.OperationNamespaceMember> {}
  /** `docstring [extended attributes] readonly attribute type name;`. */
  interface Attribute extends Choice<"NamespaceMember", "Attribute", today.AttributeNamespaceMember> {}
}
export declare const NamespaceMember: Kind<NamespaceMember> & {
  /** A constant, as `const long X = 5;`. */
  readonly Const: Kind<NamespaceMember.Const>;
  /** `docstring [extended attributes] type name(arguments);`, also without the name. */
  readonly Operation: Kind<NamespaceMember.Operation>;
  /** `docstring [extended attributes] readonly attribute type name;`. */
  readonly Attribute: Kind<NamespaceMember.Attribute>;
};

/** A definition, as `interface A {};`. */
export type Definition =
  | Definition.Callback | Definition.CallbackInterface | Definition.Interface | Definition.InterfaceMixin |
  Definition.Namespace | Definition.Dictionary | Definition.PartialInterface | Definition.PartialInterfaceMixin
  | Definition.PartialDictionary | Definition.PartialNamespace | Definition.Enum | Definition.Typedef |
  Definition.IncludesStatement | Definition.Implements;
export declare namespace Definition {
  /** `[extended attributes] callback name = type (arguments);`. */
  interface Callback extends Choice<"Definition", "Callback", today.CallbackDefinition> {}
  /** `docstring [extended attributes] callback interface name : parent { members };`. */
  interface CallbackInterface extends Choice<"Definition", "CallbackInterface", today.CallbackInterfaceDefinition> {}
  /** `docstring [extended attributes] interface name : parent { members };`. */
  interface Interface extends Choice<"Definition", "Interface", today.InterfaceDefinition> {}
  /** `[extended attributes] interface mixin name { members };`. */
  interface InterfaceMixin extends Choice<"Definition", "InterfaceMixin", today.InterfaceMixinDefinition> {}
  /** `docstring [extended attributes] namespace name { members };`. */
  interface Namespace extends Choice<"Definition", "Namespace", today.NamespaceDefinition> {}
  /** `docstring [extended attributes] dictionary name : parent { members };`. */
  interface Dictionary extends Choice<"Definition", "Dictionary", today.DictionaryDefinition> {}
  /** `[extended attributes] partial interface name { members };`. */
  interface PartialInterface extends Choice<"Definition", "PartialInterface", today.PartialInterfaceDefinition> {}
  /** `[extended attributes] partial interface mixin name { members };`. */
  interface PartialInterfaceMixin extends Choice<"Definition", "PartialInterfaceMixin", today.PartialInterfaceMixinDefinition> {}
  /** `[extended attributes] partial dictionary name { members };`. */
  interface PartialDictionary extends Choice<"Definition", "PartialDictionary", today.PartialDictionaryDefinition> {}
  /** `[extended attributes] partial namespace name { members };`. */
  interface PartialNamespace extends Choice<"Definition", "PartialNamespace", today.PartialNamespaceDefinition> {}
  /** `docstring [extended attributes] enum name { "value", "value" };`. */
  interface Enum extends Choice<"Definition", "Enum", today.EnumDefinition> {}
  /** `[extended attributes] typedef type name;`. */
  interface Typedef extends Choice<"Definition", "Typedef", today.TypedefDefinition> {}
  /** `[extended attributes] name includes name;`. */
  interface IncludesStatement extends Choice<"Definition", "IncludesStatement", today.IncludesStatementDefinition> {}
  /** `[extended attributes] name implements name;`. */
  interface Implements extends Choice<"Definition", "Implements", today.ImplementsDefinition> {}
}
export declare const Definition: Kind<Definition> & {
  /** `[extended attributes] callback name = type (arguments);`. */
  readonly Callback: Kind<Definition.Callback>;
  /** `docstring [extended attributes] callback interface name : parent { members };`. */
  readonly CallbackInterface: Kind<Definition.CallbackInterface>;
  /** `docstring [extended attributes] interface name : parent { members };`. */
  readonly Interface: Kind<Definition.Interface>;
  /** `[extended attributes] interface mixin name { members };`. */
  readonly InterfaceMixin: Kind<Definition.InterfaceMixin>;
  /** `docstring [extended attributes] namespace name { members };`. */
  readonly Namespace: Kind<Definition.Namespace>;
  /** `docstring [extended attributes] dictionary name : parent { members };`. */
  readonly Dictionary: Kind<Definition.Dictionary>;
  /** `[extended attributes] partial interface name { members };`. */
  readonly PartialInterface: Kind<Definition.PartialInterface>;
  /** `[extended attributes] partial interface mixin name { members };`. */
  readonly PartialInterfaceMixin: Kind<Definition.PartialInterfaceMixin>;
  /** `[extended attributes] partial dictionary name { members };`. */
  readonly PartialDictionary: Kind<Definition.PartialDictionary>;
  /** `[extended attributes] partial namespace name { members };`. */
  readonly PartialNamespace: Kind<Definition.PartialNamespace>;
  /** `docstring [extended attributes] enum name { "value", "value" };`. */
  readonly Enum: Kind<Definition.Enum>;
  /** `[extended attributes] typedef type name;`. */
  readonly Typedef: Kind<Definition.Typedef>;
  /** `[extended attributes] name includes name;`. */
  readonly IncludesStatement: Kind<Definition.IncludesStatement>;
  /** `[extended attributes] name implements name;`. */
  readonly Implements: Kind<Definition.Implements>;
};

/** Extended attributes, as `[Clamp, Exposed=*]`. */
export type ExtendedAttributeList = values.Bracketed<values.Punctuated<today.ExtendedAttribute, term.Comma>>;

/** Arguments, none included. */
export type ArgumentList = values.Punctuated<today.Argument, term.Comma>;

/** A union, as `(long or DOMString)`. */
export type UnionType = values.Parenthesized<values.Punctuated<today.UnionMemberType, term.Or>>;

/** The members of an interface, none included. */
export type InterfaceMembers = readonly today.InterfaceMember[];

/** The members of a mixin, none included. */
export type MixinMembers = readonly today.MixinMember[];

/** The members of a namespace, none included. */
export type NamespaceMembers = readonly today.NamespaceMember[];

/** The members of a dictionary, none included. */
export type DictionaryMembers = readonly today.DictionaryMember[];
