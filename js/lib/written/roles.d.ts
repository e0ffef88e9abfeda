/*
 * What names stand for.
 *
 * Written by tools/write/javascript_types.py, and not edited by hand.
 */

/** What a name stands for in a text. */
export type Role =
  /** A callback, as `F` in `callback F = undefined ();`. */
  | "Callback"
  /** A callback interface, as `A` in `callback interface A {};`. */
  | "CallbackInterface"
  /** An interface, as `A` in `interface A {};`. */
  | "Interface"
  /** A mixin, as `M` in `interface mixin M {};`. */
  | "Mixin"
  /** A namespace, as `N` in `namespace N {};`. */
  | "Namespace"
  /** A dictionary, as `D` in `dictionary D {};`. */
  | "Dictionary"
  /** The interface of a part, as `A` in `partial interface A {};`. */
  | "PartialInterface"
  /** The mixin of a part, as `M` in `partial interface mixin M {};`. */
  | "PartialMixin"
  /** The dictionary of a part, as `D` in `partial dictionary D {};`. */
  | "PartialDictionary"
  /** The namespace of a part, as `N` in `partial namespace N {};`. */
  | "PartialNamespace"
  /** An enum, as `E` in `enum E { "a" };`. */
  | "Enum"
  /** A name for a type, as `T` in `typedef long T;`. */
  | "Typedef"
  /** What includes a mixin, as `A` in `A includes M;`. */
  | "Includer"
  /** The mixin that is included, as `M` in `A includes M;`. */
  | "Included"
  /** What implements an interface, as `A` in `A implements B;`. */
  | "Implementer"
  /** The interface that is implemented, as `B` in `A implements B;`. */
  | "Implemented"
  /** A constant, as `X` in `const long X = 1;`. */
  | "Const"
  /** An attribute of an interface, a mixin or a namespace, as `x` in `attribute long x;`. */
  | "Attribute"
  /** An operation, as `f` in `undefined f();`. */
  | "Operation"
  /** A member of a dictionary, as `x` in `required long x;`. */
  | "DictionaryMember"
  /** An argument, as `x` in `undefined f(long x);`. */
  | "Argument"
  /** A type, as `T` in `attribute sequence<T?> x;`. */
  | "Type"
  /** What is inherited from, as `B` in `interface A : B {};`. */
  | "Inherited"
  /** An extended attribute, as `Exposed` in `[Exposed=Window]`. */
  | "ExtendedAttribute"
  /**
   * What follows the `=` of an extended attribute, as `Window` in `[Exposed=Window]` and in
   * `[Exposed=(Window,Worker)]`, and `Image` in `[NamedConstructor=Image(long x)]`.
   */
  | "ExtendedAttributeValue";
