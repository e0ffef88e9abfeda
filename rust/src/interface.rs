//! Members of interfaces.
//!
//! Written by tools/write/rust_types.py, and not edited by hand.

use crate::argument::ArgumentList;
use crate::attribute::ExtendedAttributeList;
use crate::common::{Docstring, Generics, Identifier, Parenthesized};
use crate::literal::ConstValue;
use crate::term;
use crate::types::{AttributedType, ConstType, ReturnType};

/// What an interface or a dictionary inherits from, as `: Node`.
#[derive(Clone, Copy, Debug, PartialEq, Eq, PartialOrd, Ord, Hash)]
pub struct Inheritance<'a> {
    /// The `:`.
    pub colon: term::Colon,
    /// The name of what is inherited from.
    pub identifier: Identifier<'a>,
}

record! { Inheritance<'a> = INHERITANCE { colon, identifier } }

/// The word of a special operation, as `getter`.
#[derive(Clone, Copy, Debug, PartialEq, Eq, PartialOrd, Ord, Hash)]
pub enum Special {
    /// The word `getter`.
    Getter(term::Getter),
    /// The word `setter`.
    Setter(term::Setter),
    /// The word `deleter`.
    Deleter(term::Deleter),
    /// The word `legacycaller`.
    LegacyCaller(term::LegacyCaller),
}

choice! {
    Special = SPECIAL {
        Getter(term::Getter),
        Setter(term::Setter),
        Deleter(term::Deleter),
        LegacyCaller(term::LegacyCaller),
    }
}

/// The word before an attribute, as `static`.
#[derive(Clone, Copy, Debug, PartialEq, Eq, PartialOrd, Ord, Hash)]
pub enum StringifierOrInheritOrStatic {
    /// The word `stringifier`.
    Stringifier(term::Stringifier),
    /// The word `inherit`.
    Inherit(term::Inherit),
    /// The word `static`.
    Static(term::Static),
}

choice! {
    StringifierOrInheritOrStatic = STRINGIFIER_OR_INHERIT_OR_STATIC {
        Stringifier(term::Stringifier),
        Inherit(term::Inherit),
        Static(term::Static),
    }
}

/// The word before an operation, as `stringifier` or `static`.
#[derive(Clone, Copy, Debug, PartialEq, Eq, PartialOrd, Ord, Hash)]
pub enum StringifierOrStatic {
    /// The word `stringifier`.
    Stringifier(term::Stringifier),
    /// The word `static`.
    Static(term::Static),
}

choice! {
    StringifierOrStatic = STRINGIFIER_OR_STATIC {
        Stringifier(term::Stringifier),
        Static(term::Static),
    }
}

/// An attribute of an interface, as `static readonly attribute long x;`.
#[derive(Clone, Debug, PartialEq, Eq, PartialOrd, Ord, Hash)]
pub struct AttributeInterfaceMember<'a> {
    /// The extended attributes in brackets, as `[Exposed=Window]`, where present.
    pub attributes: Option<ExtendedAttributeList<'a>>,
    /// The word `stringifier`, `inherit` or `static`, where one of them is present.
    pub modifier: Option<StringifierOrInheritOrStatic>,
    /// The word `readonly`, where present.
    pub readonly: Option<term::ReadOnly>,
    /// The word `attribute`.
    pub attribute: term::Attribute,
    /// Its type, as `long`, with the extended attributes before it.
    pub type_: AttributedType<'a>,
    /// Its name.
    pub identifier: Identifier<'a>,
    /// The `;` at the end.
    pub semi_colon: term::SemiColon,
}

record! {
    AttributeInterfaceMember<'a> = ATTRIBUTE_INTERFACE_MEMBER {
        attributes, modifier, readonly, attribute, type_, identifier, semi_colon
    }
}

/// A constant, as `const long X = 5;`.
#[derive(Clone, Debug, PartialEq, Eq, PartialOrd, Ord, Hash)]
pub struct ConstMember<'a> {
    /// The extended attributes in brackets, as `[Exposed=Window]`, where present.
    pub attributes: Option<ExtendedAttributeList<'a>>,
    /// The word `const`.
    pub const_: term::Const,
    /// Its type, as `long`.
    pub const_type: ConstType<'a>,
    /// Its name.
    pub identifier: Identifier<'a>,
    /// The `=`.
    pub assign: term::Assign,
    /// Its value, as `5`.
    pub const_value: ConstValue<'a>,
    /// The `;` at the end.
    pub semi_colon: term::SemiColon,
}

record! {
    ConstMember<'a> = CONST_MEMBER {
        attributes, const_, const_type, identifier, assign, const_value, semi_colon
    }
}

/// A constructor, as `constructor(long x);`.
#[derive(Clone, Debug, PartialEq, Eq, PartialOrd, Ord, Hash)]
pub struct ConstructorInterfaceMember<'a> {
    /// The docstring in front, where present.
    pub docstring: Option<Docstring>,
    /// The extended attributes in brackets, as `[Exposed=Window]`, where present.
    pub attributes: Option<ExtendedAttributeList<'a>>,
    /// The word `constructor`.
    pub constructor: term::Constructor,
    /// Its arguments, between parentheses.
    pub args: Parenthesized<ArgumentList<'a>>,
    /// The `;` at the end.
    pub semi_colon: term::SemiColon,
}

record! {
    ConstructorInterfaceMember<'a> = CONSTRUCTOR_INTERFACE_MEMBER {
        docstring, attributes, constructor, args, semi_colon
    }
}

/// An operation of an interface, as `getter long item(long index);`.
#[derive(Clone, Debug, PartialEq, Eq, PartialOrd, Ord, Hash)]
pub struct OperationInterfaceMember<'a> {
    /// The docstring in front, where present.
    pub docstring: Option<Docstring>,
    /// The extended attributes in brackets, as `[Exposed=Window]`, where present.
    pub attributes: Option<ExtendedAttributeList<'a>>,
    /// The word `stringifier` or `static`, where one of them is present.
    pub modifier: Option<StringifierOrStatic>,
    /// The word `getter`, `setter`, `deleter` or `legacycaller`, where one of them is present.
    pub special: Option<Special>,
    /// The type of its result, as `undefined` or `long`.
    pub return_type: ReturnType<'a>,
    /// Its name, where it has one.
    pub identifier: Option<Identifier<'a>>,
    /// Its arguments, between parentheses.
    pub args: Parenthesized<ArgumentList<'a>>,
    /// The `;` at the end.
    pub semi_colon: term::SemiColon,
}

record! {
    OperationInterfaceMember<'a> = OPERATION_INTERFACE_MEMBER {
        docstring, attributes, modifier, special, return_type, identifier, args, semi_colon
    }
}

/// A stringifier with no body, as `stringifier;`.
#[derive(Clone, Debug, Default, PartialEq, Eq, PartialOrd, Ord, Hash)]
pub struct StringifierMember<'a> {
    /// The extended attributes in brackets, as `[Exposed=Window]`, where present.
    pub attributes: Option<ExtendedAttributeList<'a>>,
    /// The word `stringifier`.
    pub stringifier: term::Stringifier,
    /// The `;` at the end.
    pub semi_colon: term::SemiColon,
}

record! { StringifierMember<'a> = STRINGIFIER_MEMBER { attributes, stringifier, semi_colon } }

/// An asynchronous iteration over values, as `async iterable<long>;`.
#[derive(Clone, Debug, PartialEq, Eq, PartialOrd, Ord, Hash)]
pub struct SingleTypedAsyncIterable<'a> {
    /// The extended attributes in brackets, as `[Exposed=Window]`, where present.
    pub attributes: Option<ExtendedAttributeList<'a>>,
    /// The words `async` and `iterable`.
    pub async_iterable: (term::Async, term::Iterable),
    /// The type of its values in angle brackets, as `<long>`.
    pub generics: Generics<AttributedType<'a>>,
    /// The arguments between parentheses, as `(long x)`, where present.
    pub args: Option<Parenthesized<ArgumentList<'a>>>,
    /// The `;` at the end.
    pub semi_colon: term::SemiColon,
}

record! {
    SingleTypedAsyncIterable<'a> = SINGLE_TYPED_ASYNC_ITERABLE {
        attributes, async_iterable, generics, args, semi_colon
    }
}

/// An asynchronous iteration over pairs, as `async iterable<DOMString, long>(long x);`.
#[derive(Clone, Debug, PartialEq, Eq, PartialOrd, Ord, Hash)]
pub struct DoubleTypedAsyncIterable<'a> {
    /// The extended attributes in brackets, as `[Exposed=Window]`, where present.
    pub attributes: Option<ExtendedAttributeList<'a>>,
    /// The words `async` and `iterable`.
    pub async_iterable: (term::Async, term::Iterable),
    /// The types of its keys and values in angle brackets, as `<DOMString, long>`.
    pub generics: Generics<(AttributedType<'a>, term::Comma, AttributedType<'a>)>,
    /// The arguments between parentheses, as `(long x)`, where present.
    pub args: Option<Parenthesized<ArgumentList<'a>>>,
    /// The `;` at the end.
    pub semi_colon: term::SemiColon,
}

record! {
    DoubleTypedAsyncIterable<'a> = DOUBLE_TYPED_ASYNC_ITERABLE {
        attributes, async_iterable, generics, args, semi_colon
    }
}

/// An asynchronous iteration over values or pairs, as `async iterable<long>;`.
#[derive(Clone, Debug, PartialEq, Eq, PartialOrd, Ord, Hash)]
pub enum AsyncIterableInterfaceMember<'a> {
    /// `[extended attributes] async iterable<type>(arguments);`, also without `(arguments)`.
    Single(SingleTypedAsyncIterable<'a>),
    /// `[extended attributes] async iterable<type, type>(arguments);`, also without `(arguments)`.
    Double(DoubleTypedAsyncIterable<'a>),
}

choice! {
    AsyncIterableInterfaceMember<'a> = ASYNC_ITERABLE_INTERFACE_MEMBER {
        Single(SingleTypedAsyncIterable<'a>),
        Double(DoubleTypedAsyncIterable<'a>),
    }
}

/// A map, as `readonly maplike<DOMString, long>;`.
#[derive(Clone, Debug, PartialEq, Eq, PartialOrd, Ord, Hash)]
pub struct MaplikeInterfaceMember<'a> {
    /// The extended attributes in brackets, as `[Exposed=Window]`, where present.
    pub attributes: Option<ExtendedAttributeList<'a>>,
    /// The word `readonly`, where present.
    pub readonly: Option<term::ReadOnly>,
    /// The word `maplike`.
    pub maplike: term::Maplike,
    /// The types of its keys and values in angle brackets, as `<DOMString, long>`.
    pub generics: Generics<(AttributedType<'a>, term::Comma, AttributedType<'a>)>,
    /// The `;` at the end.
    pub semi_colon: term::SemiColon,
}

record! {
    MaplikeInterfaceMember<'a> = MAPLIKE_INTERFACE_MEMBER {
        attributes, readonly, maplike, generics, semi_colon
    }
}

/// A set, as `readonly setlike<long>;`.
#[derive(Clone, Debug, PartialEq, Eq, PartialOrd, Ord, Hash)]
pub struct SetlikeInterfaceMember<'a> {
    /// The extended attributes in brackets, as `[Exposed=Window]`, where present.
    pub attributes: Option<ExtendedAttributeList<'a>>,
    /// The word `readonly`, where present.
    pub readonly: Option<term::ReadOnly>,
    /// The word `setlike`.
    pub setlike: term::Setlike,
    /// The type of its values in angle brackets, as `<long>`.
    pub generics: Generics<AttributedType<'a>>,
    /// The `;` at the end.
    pub semi_colon: term::SemiColon,
}

record! {
    SetlikeInterfaceMember<'a> = SETLIKE_INTERFACE_MEMBER {
        attributes, readonly, setlike, generics, semi_colon
    }
}

/// An iteration over values, as `iterable<long>;`.
#[derive(Clone, Debug, PartialEq, Eq, PartialOrd, Ord, Hash)]
pub struct SingleTypedIterable<'a> {
    /// The extended attributes in brackets, as `[Exposed=Window]`, where present.
    pub attributes: Option<ExtendedAttributeList<'a>>,
    /// The word `iterable`.
    pub iterable: term::Iterable,
    /// The type of its values in angle brackets, as `<long>`.
    pub generics: Generics<AttributedType<'a>>,
    /// The `;` at the end.
    pub semi_colon: term::SemiColon,
}

record! {
    SingleTypedIterable<'a> = SINGLE_TYPED_ITERABLE {
        attributes, iterable, generics, semi_colon
    }
}

/// An iteration over pairs, as `iterable<DOMString, long>;`.
#[derive(Clone, Debug, PartialEq, Eq, PartialOrd, Ord, Hash)]
pub struct DoubleTypedIterable<'a> {
    /// The extended attributes in brackets, as `[Exposed=Window]`, where present.
    pub attributes: Option<ExtendedAttributeList<'a>>,
    /// The word `iterable`.
    pub iterable: term::Iterable,
    /// The types of its keys and values in angle brackets, as `<DOMString, long>`.
    pub generics: Generics<(AttributedType<'a>, term::Comma, AttributedType<'a>)>,
    /// The `;` at the end.
    pub semi_colon: term::SemiColon,
}

record! {
    DoubleTypedIterable<'a> = DOUBLE_TYPED_ITERABLE {
        attributes, iterable, generics, semi_colon
    }
}

/// An iteration over values or pairs, as `iterable<long>;`.
#[derive(Clone, Debug, PartialEq, Eq, PartialOrd, Ord, Hash)]
pub enum IterableInterfaceMember<'a> {
    /// `[extended attributes] iterable<type>;`.
    Single(SingleTypedIterable<'a>),
    /// `[extended attributes] iterable<type, type>;`.
    Double(DoubleTypedIterable<'a>),
}

choice! {
    IterableInterfaceMember<'a> = ITERABLE_INTERFACE_MEMBER {
        Single(SingleTypedIterable<'a>),
        Double(DoubleTypedIterable<'a>),
    }
}

/// A member of an interface, as `attribute long length;`.
#[derive(Clone, Debug, PartialEq, Eq, PartialOrd, Ord, Hash)]
pub enum InterfaceMember<'a> {
    /// `[extended attributes] const type name = value;`.
    Const(ConstMember<'a>),
    /// `[extended attributes] readonly attribute type name;`, also without `readonly`.
    Attribute(AttributeInterfaceMember<'a>),
    /// `docstring [extended attributes] constructor(arguments);`.
    Constructor(ConstructorInterfaceMember<'a>),
    /// `docstring [extended attributes] type name(arguments);`, also without the name.
    Operation(OperationInterfaceMember<'a>),
    /// `[extended attributes] iterable<type>;` or `[extended attributes] iterable<type, type>;`.
    Iterable(IterableInterfaceMember<'a>),
    /// `[extended attributes] async iterable<type>(arguments);`, also with two types, or without
    /// `(arguments)`.
    AsyncIterable(AsyncIterableInterfaceMember<'a>),
    /// `[extended attributes] readonly maplike<type, type>;`, also without `readonly`.
    Maplike(MaplikeInterfaceMember<'a>),
    /// `[extended attributes] readonly setlike<type>;`, also without `readonly`.
    Setlike(SetlikeInterfaceMember<'a>),
    /// `[extended attributes] stringifier;`.
    Stringifier(StringifierMember<'a>),
}

choice! {
    InterfaceMember<'a> = INTERFACE_MEMBER {
        Const(ConstMember<'a>),
        Attribute(AttributeInterfaceMember<'a>),
        Constructor(ConstructorInterfaceMember<'a>),
        Operation(OperationInterfaceMember<'a>),
        Iterable(IterableInterfaceMember<'a>),
        AsyncIterable(AsyncIterableInterfaceMember<'a>),
        Maplike(MaplikeInterfaceMember<'a>),
        Setlike(SetlikeInterfaceMember<'a>),
        Stringifier(StringifierMember<'a>),
    }
}

/// The members of an interface, one after another, as `long f(); long g();`; none included.
pub type InterfaceMembers<'a> = Vec<InterfaceMember<'a>>;
