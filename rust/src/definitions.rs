//! Definitions.
//!
//! Written by tools/write/rust_types.py, and not edited by hand.

use crate::argument::ArgumentList;
use crate::attribute::ExtendedAttributeList;
use crate::common::{Braced, Docstring, Identifier, Parenthesized, PunctuatedNonEmpty};
use crate::dictionary::DictionaryMembers;
use crate::interface::{Inheritance, InterfaceMembers};
use crate::literal::StringLit;
use crate::mixin::MixinMembers;
use crate::namespace::NamespaceMembers;
use crate::term;
use crate::types::{AttributedType, ReturnType};

/// A callback interface, as `callback interface A {};`.
#[derive(Clone, Debug, PartialEq, Eq, PartialOrd, Ord, Hash)]
pub struct CallbackInterfaceDefinition<'a> {
    /// The docstring in front, where present.
    pub docstring: Option<Docstring>,
    /// The extended attributes in brackets, as `[Exposed=Window]`, where present.
    pub attributes: Option<ExtendedAttributeList<'a>>,
    /// The word `callback`.
    pub callback: term::Callback,
    /// The word `interface`.
    pub interface: term::Interface,
    /// Its name.
    pub identifier: Identifier<'a>,
    /// The interface that it inherits from, as `: EventTarget`, where one is named.
    pub inheritance: Option<Inheritance<'a>>,
    /// Its members, between braces.
    pub members: Braced<InterfaceMembers<'a>>,
    /// The `;` at the end.
    pub semi_colon: term::SemiColon,
}

record! {
    CallbackInterfaceDefinition<'a> = CALLBACK_INTERFACE_DEFINITION {
        docstring, attributes, callback, interface, identifier, inheritance, members, semi_colon
    }
}

/// An interface, as `interface A : B { attribute long x; };`.
#[derive(Clone, Debug, PartialEq, Eq, PartialOrd, Ord, Hash)]
pub struct InterfaceDefinition<'a> {
    /// The docstring in front, where present.
    pub docstring: Option<Docstring>,
    /// The extended attributes in brackets, as `[Exposed=Window]`, where present.
    pub attributes: Option<ExtendedAttributeList<'a>>,
    /// The word `interface`.
    pub interface: term::Interface,
    /// Its name.
    pub identifier: Identifier<'a>,
    /// The interface that it inherits from, as `: EventTarget`, where one is named.
    pub inheritance: Option<Inheritance<'a>>,
    /// Its members, between braces.
    pub members: Braced<InterfaceMembers<'a>>,
    /// The `;` at the end.
    pub semi_colon: term::SemiColon,
}

record! {
    InterfaceDefinition<'a> = INTERFACE_DEFINITION {
        docstring, attributes, interface, identifier, inheritance, members, semi_colon
    }
}

/// A part of an interface, as `partial interface A {};`.
#[derive(Clone, Debug, PartialEq, Eq, PartialOrd, Ord, Hash)]
pub struct PartialInterfaceDefinition<'a> {
    /// The extended attributes in brackets, as `[Exposed=Window]`, where present.
    pub attributes: Option<ExtendedAttributeList<'a>>,
    /// The word `partial`.
    pub partial: term::Partial,
    /// The word `interface`.
    pub interface: term::Interface,
    /// The name of the interface that it is a part of.
    pub identifier: Identifier<'a>,
    /// Its members, between braces.
    pub members: Braced<InterfaceMembers<'a>>,
    /// The `;` at the end.
    pub semi_colon: term::SemiColon,
}

record! {
    PartialInterfaceDefinition<'a> = PARTIAL_INTERFACE_DEFINITION {
        attributes, partial, interface, identifier, members, semi_colon
    }
}

/// A mixin, as `interface mixin A {};`.
#[derive(Clone, Debug, PartialEq, Eq, PartialOrd, Ord, Hash)]
pub struct InterfaceMixinDefinition<'a> {
    /// The extended attributes in brackets, as `[Exposed=Window]`, where present.
    pub attributes: Option<ExtendedAttributeList<'a>>,
    /// The word `interface`.
    pub interface: term::Interface,
    /// The word `mixin`.
    pub mixin: term::Mixin,
    /// Its name.
    pub identifier: Identifier<'a>,
    /// Its members, between braces.
    pub members: Braced<MixinMembers<'a>>,
    /// The `;` at the end.
    pub semi_colon: term::SemiColon,
}

record! {
    InterfaceMixinDefinition<'a> = INTERFACE_MIXIN_DEFINITION {
        attributes, interface, mixin, identifier, members, semi_colon
    }
}

/// A part of a mixin, as `partial interface mixin A {};`.
#[derive(Clone, Debug, PartialEq, Eq, PartialOrd, Ord, Hash)]
pub struct PartialInterfaceMixinDefinition<'a> {
    /// The extended attributes in brackets, as `[Exposed=Window]`, where present.
    pub attributes: Option<ExtendedAttributeList<'a>>,
    /// The word `partial`.
    pub partial: term::Partial,
    /// The word `interface`.
    pub interface: term::Interface,
    /// The word `mixin`.
    pub mixin: term::Mixin,
    /// The name of the mixin that it is a part of.
    pub identifier: Identifier<'a>,
    /// Its members, between braces.
    pub members: Braced<MixinMembers<'a>>,
    /// The `;` at the end.
    pub semi_colon: term::SemiColon,
}

record! {
    PartialInterfaceMixinDefinition<'a> = PARTIAL_INTERFACE_MIXIN_DEFINITION {
        attributes, partial, interface, mixin, identifier, members, semi_colon
    }
}

/// A dictionary, as `dictionary A : B { long x = 5; };`.
#[derive(Clone, Debug, PartialEq, Eq, PartialOrd, Ord, Hash)]
pub struct DictionaryDefinition<'a> {
    /// The docstring in front, where present.
    pub docstring: Option<Docstring>,
    /// The extended attributes in brackets, as `[Exposed=Window]`, where present.
    pub attributes: Option<ExtendedAttributeList<'a>>,
    /// The word `dictionary`.
    pub dictionary: term::Dictionary,
    /// Its name.
    pub identifier: Identifier<'a>,
    /// The dictionary that it inherits from, as `: EventInit`, where one is named.
    pub inheritance: Option<Inheritance<'a>>,
    /// Its members, between braces.
    pub members: Braced<DictionaryMembers<'a>>,
    /// The `;` at the end.
    pub semi_colon: term::SemiColon,
}

record! {
    DictionaryDefinition<'a> = DICTIONARY_DEFINITION {
        docstring, attributes, dictionary, identifier, inheritance, members, semi_colon
    }
}

/// A part of a dictionary, as `partial dictionary A {};`.
#[derive(Clone, Debug, PartialEq, Eq, PartialOrd, Ord, Hash)]
pub struct PartialDictionaryDefinition<'a> {
    /// The extended attributes in brackets, as `[Exposed=Window]`, where present.
    pub attributes: Option<ExtendedAttributeList<'a>>,
    /// The word `partial`.
    pub partial: term::Partial,
    /// The word `dictionary`.
    pub dictionary: term::Dictionary,
    /// The name of the dictionary that it is a part of.
    pub identifier: Identifier<'a>,
    /// Its members, between braces.
    pub members: Braced<DictionaryMembers<'a>>,
    /// The `;` at the end.
    pub semi_colon: term::SemiColon,
}

record! {
    PartialDictionaryDefinition<'a> = PARTIAL_DICTIONARY_DEFINITION {
        attributes, partial, dictionary, identifier, members, semi_colon
    }
}

/// A namespace, as `namespace A { long f(); };`.
#[derive(Clone, Debug, PartialEq, Eq, PartialOrd, Ord, Hash)]
pub struct NamespaceDefinition<'a> {
    /// The docstring in front, where present.
    pub docstring: Option<Docstring>,
    /// The extended attributes in brackets, as `[Exposed=Window]`, where present.
    pub attributes: Option<ExtendedAttributeList<'a>>,
    /// The word `namespace`.
    pub namespace: term::Namespace,
    /// Its name.
    pub identifier: Identifier<'a>,
    /// Its members, between braces.
    pub members: Braced<NamespaceMembers<'a>>,
    /// The `;` at the end.
    pub semi_colon: term::SemiColon,
}

record! {
    NamespaceDefinition<'a> = NAMESPACE_DEFINITION {
        docstring, attributes, namespace, identifier, members, semi_colon
    }
}

/// A part of a namespace, as `partial namespace A {};`.
#[derive(Clone, Debug, PartialEq, Eq, PartialOrd, Ord, Hash)]
pub struct PartialNamespaceDefinition<'a> {
    /// The extended attributes in brackets, as `[Exposed=Window]`, where present.
    pub attributes: Option<ExtendedAttributeList<'a>>,
    /// The word `partial`.
    pub partial: term::Partial,
    /// The word `namespace`.
    pub namespace: term::Namespace,
    /// The name of the namespace that it is a part of.
    pub identifier: Identifier<'a>,
    /// Its members, between braces.
    pub members: Braced<NamespaceMembers<'a>>,
    /// The `;` at the end.
    pub semi_colon: term::SemiColon,
}

record! {
    PartialNamespaceDefinition<'a> = PARTIAL_NAMESPACE_DEFINITION {
        attributes, partial, namespace, identifier, members, semi_colon
    }
}

/// A callback, as `callback F = undefined (long x);`.
#[derive(Clone, Debug, PartialEq, Eq, PartialOrd, Ord, Hash)]
pub struct CallbackDefinition<'a> {
    /// The extended attributes in brackets, as `[Exposed=Window]`, where present.
    pub attributes: Option<ExtendedAttributeList<'a>>,
    /// The word `callback`.
    pub callback: term::Callback,
    /// Its name.
    pub identifier: Identifier<'a>,
    /// The `=`.
    pub assign: term::Assign,
    /// The type of its result, as `undefined` or `long`.
    pub return_type: ReturnType<'a>,
    /// Its arguments, between parentheses.
    pub arguments: Parenthesized<ArgumentList<'a>>,
    /// The `;` at the end.
    pub semi_colon: term::SemiColon,
}

record! {
    CallbackDefinition<'a> = CALLBACK_DEFINITION {
        attributes, callback, identifier, assign, return_type, arguments, semi_colon
    }
}

/// A value of an enum, as `"blob"`.
#[derive(Clone, Debug, PartialEq, Eq, PartialOrd, Ord, Hash)]
pub struct EnumVariant<'a> {
    /// The docstring in front, where present.
    pub docstring: Option<Docstring>,
    /// The value in quotes, as `"blob"`.
    pub value: StringLit<'a>,
}

record! { EnumVariant<'a> = ENUM_VARIANT { docstring, value } }

/// An enum, as `enum A { "a", "b" };`.
#[derive(Clone, Debug, PartialEq, Eq, PartialOrd, Ord, Hash)]
pub struct EnumDefinition<'a> {
    /// The docstring in front, where present.
    pub docstring: Option<Docstring>,
    /// The extended attributes in brackets, as `[Exposed=Window]`, where present.
    pub attributes: Option<ExtendedAttributeList<'a>>,
    /// The word `enum`.
    pub enum_: term::Enum,
    /// Its name.
    pub identifier: Identifier<'a>,
    /// Its values, between braces.
    pub values: Braced<EnumValueList<'a>>,
    /// The `;` at the end.
    pub semi_colon: term::SemiColon,
}

record! {
    EnumDefinition<'a> = ENUM_DEFINITION {
        docstring, attributes, enum_, identifier, values, semi_colon
    }
}

/// The use of a mixin by an interface, as `A includes B;`.
#[derive(Clone, Debug, PartialEq, Eq, PartialOrd, Ord, Hash)]
pub struct IncludesStatementDefinition<'a> {
    /// The extended attributes in brackets, as `[Exposed=Window]`, where present.
    pub attributes: Option<ExtendedAttributeList<'a>>,
    /// The name of the interface, before `includes`.
    pub lhs_identifier: Identifier<'a>,
    /// The word `includes`.
    pub includes: term::Includes,
    /// The name of the mixin that it uses, behind `includes`.
    pub rhs_identifier: Identifier<'a>,
    /// The `;` at the end.
    pub semi_colon: term::SemiColon,
}

record! {
    IncludesStatementDefinition<'a> = INCLUDES_STATEMENT_DEFINITION {
        attributes, lhs_identifier, includes, rhs_identifier, semi_colon
    }
}

/// The older form of a mixin's use, as `A implements B;`.
#[derive(Clone, Debug, PartialEq, Eq, PartialOrd, Ord, Hash)]
pub struct ImplementsDefinition<'a> {
    /// The extended attributes in brackets, as `[Exposed=Window]`, where present.
    pub attributes: Option<ExtendedAttributeList<'a>>,
    /// The name of the interface, before `implements`.
    pub lhs_identifier: Identifier<'a>,
    /// The word `implements`.
    pub includes: term::Implements,
    /// The name of the interface that it implements, behind `implements`.
    pub rhs_identifier: Identifier<'a>,
    /// The `;` at the end.
    pub semi_colon: term::SemiColon,
}

record! {
    ImplementsDefinition<'a> = IMPLEMENTS_DEFINITION {
        attributes, lhs_identifier, includes, rhs_identifier, semi_colon
    }
}

/// A name for a type, as `typedef long A;`.
#[derive(Clone, Debug, PartialEq, Eq, PartialOrd, Ord, Hash)]
pub struct TypedefDefinition<'a> {
    /// The extended attributes in brackets, as `[Exposed=Window]`, where present.
    pub attributes: Option<ExtendedAttributeList<'a>>,
    /// The word `typedef`.
    pub typedef: term::Typedef,
    /// The type that is named, as `long`, with the extended attributes before it.
    pub type_: AttributedType<'a>,
    /// The name that the type gets.
    pub identifier: Identifier<'a>,
    /// The `;` at the end.
    pub semi_colon: term::SemiColon,
}

record! {
    TypedefDefinition<'a> = TYPEDEF_DEFINITION {
        attributes, typedef, type_, identifier, semi_colon
    }
}

/// A definition, as `interface A {};`.
#[derive(Clone, Debug, PartialEq, Eq, PartialOrd, Ord, Hash)]
pub enum Definition<'a> {
    /// `[extended attributes] callback name = type (arguments);`.
    Callback(CallbackDefinition<'a>),
    /// `docstring [extended attributes] callback interface name : parent { members };`.
    CallbackInterface(CallbackInterfaceDefinition<'a>),
    /// `docstring [extended attributes] interface name : parent { members };`.
    Interface(InterfaceDefinition<'a>),
    /// `[extended attributes] interface mixin name { members };`.
    InterfaceMixin(InterfaceMixinDefinition<'a>),
    /// `docstring [extended attributes] namespace name { members };`.
    Namespace(NamespaceDefinition<'a>),
    /// `docstring [extended attributes] dictionary name : parent { members };`.
    Dictionary(DictionaryDefinition<'a>),
    /// `[extended attributes] partial interface name { members };`.
    PartialInterface(PartialInterfaceDefinition<'a>),
    /// `[extended attributes] partial interface mixin name { members };`.
    PartialInterfaceMixin(PartialInterfaceMixinDefinition<'a>),
    /// `[extended attributes] partial dictionary name { members };`.
    PartialDictionary(PartialDictionaryDefinition<'a>),
    /// `[extended attributes] partial namespace name { members };`.
    PartialNamespace(PartialNamespaceDefinition<'a>),
    /// `docstring [extended attributes] enum name { "value", "value" };`.
    Enum(EnumDefinition<'a>),
    /// `[extended attributes] typedef type name;`.
    Typedef(TypedefDefinition<'a>),
    /// `[extended attributes] name includes name;`.
    IncludesStatement(IncludesStatementDefinition<'a>),
    /// `[extended attributes] name implements name;`.
    Implements(ImplementsDefinition<'a>),
}

choice! {
    Definition<'a> = DEFINITION {
        Callback(CallbackDefinition<'a>),
        CallbackInterface(CallbackInterfaceDefinition<'a>),
        Interface(InterfaceDefinition<'a>),
        InterfaceMixin(InterfaceMixinDefinition<'a>),
        Namespace(NamespaceDefinition<'a>),
        Dictionary(DictionaryDefinition<'a>),
        PartialInterface(PartialInterfaceDefinition<'a>),
        PartialInterfaceMixin(PartialInterfaceMixinDefinition<'a>),
        PartialDictionary(PartialDictionaryDefinition<'a>),
        PartialNamespace(PartialNamespaceDefinition<'a>),
        Enum(EnumDefinition<'a>),
        Typedef(TypedefDefinition<'a>),
        IncludesStatement(IncludesStatementDefinition<'a>),
        Implements(ImplementsDefinition<'a>),
    }
}

/// The values of an enum, one at least, and a comma behind the last where present, as `"a", "b",`.
pub type EnumValueList<'a> = PunctuatedNonEmpty<EnumVariant<'a>, term::Comma>;

/// Definitions one after another, as `interface A {}; interface B {};`.
pub type Definitions<'a> = Vec<Definition<'a>>;
