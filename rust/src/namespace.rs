//! Members of namespaces.
//!
//! Written by tools/write/rust_types.py, and not edited by hand.

use crate::argument::ArgumentList;
use crate::attribute::ExtendedAttributeList;
use crate::common::{Docstring, Identifier, Parenthesized};
use crate::term;
use crate::types::{AttributedType, ReturnType};

/// An operation of a namespace, as `long f(long x);`.
#[derive(Clone, Debug, PartialEq, Eq, PartialOrd, Ord, Hash)]
pub struct OperationNamespaceMember<'a> {
    /// The docstring in front, where present.
    pub docstring: Option<Docstring>,
    /// The extended attributes in brackets, as `[Exposed=Window]`, where present.
    pub attributes: Option<ExtendedAttributeList<'a>>,
    /// The type of its result, as `undefined` or `long`.
    pub return_type: ReturnType<'a>,
    /// Its name, where it has one.
    pub identifier: Option<Identifier<'a>>,
    /// Its arguments, between parentheses.
    pub args: Parenthesized<ArgumentList<'a>>,
    /// The `;` at the end.
    pub semi_colon: term::SemiColon,
}

record! {
    OperationNamespaceMember<'a> = OPERATION_NAMESPACE_MEMBER {
        docstring, attributes, return_type, identifier, args, semi_colon
    }
}

/// An attribute of a namespace, as `readonly attribute long x;`, always `readonly`.
#[derive(Clone, Debug, PartialEq, Eq, PartialOrd, Ord, Hash)]
pub struct AttributeNamespaceMember<'a> {
    /// The docstring in front, where present.
    pub docstring: Option<Docstring>,
    /// The extended attributes in brackets, as `[Exposed=Window]`, where present.
    pub attributes: Option<ExtendedAttributeList<'a>>,
    /// The word `readonly`, which always is here.
    pub readonly: term::ReadOnly,
    /// The word `attribute`.
    pub attribute: term::Attribute,
    /// Its type, as `long`, with the extended attributes before it.
    pub type_: AttributedType<'a>,
    /// Its name.
    pub identifier: Identifier<'a>,
    /// The `;` at the end.
    pub semi_colon: term::SemiColon,
}

record! {
    AttributeNamespaceMember<'a> = ATTRIBUTE_NAMESPACE_MEMBER {
        docstring, attributes, readonly, attribute, type_, identifier, semi_colon
    }
}

/// A member of a namespace, as `long f(long x);`.
#[derive(Clone, Debug, PartialEq, Eq, PartialOrd, Ord, Hash)]
pub enum NamespaceMember<'a> {
    /// `docstring [extended attributes] type name(arguments);`, also without the name.
    Operation(OperationNamespaceMember<'a>),
    /// `docstring [extended attributes] readonly attribute type name;`.
    Attribute(AttributeNamespaceMember<'a>),
}

choice! {
    NamespaceMember<'a> = NAMESPACE_MEMBER {
        Operation(OperationNamespaceMember<'a>),
        Attribute(AttributeNamespaceMember<'a>),
    }
}

/// The members of a namespace, one after another, as `long f(); long g();`; none included.
pub type NamespaceMembers<'a> = Vec<NamespaceMember<'a>>;
