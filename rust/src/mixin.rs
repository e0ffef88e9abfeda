//! Members of mixins.
//!
//! Written by tools/write/rust_types.py, and not edited by hand.

use crate::argument::ArgumentList;
use crate::attribute::ExtendedAttributeList;
use crate::common::{Identifier, Parenthesized};
use crate::interface::{ConstMember, StringifierMember};
use crate::term;
use crate::types::{AttributedType, ReturnType};

/// An operation of a mixin, as `stringifier long f(long x);`.
#[derive(Clone, Debug, PartialEq, Eq, PartialOrd, Ord, Hash)]
pub struct OperationMixinMember<'a> {
    /// The extended attributes in brackets, as `[Exposed=Window]`, where present.
    pub attributes: Option<ExtendedAttributeList<'a>>,
    /// The word `stringifier`, where present.
    pub stringifier: Option<term::Stringifier>,
    /// The type of its result, as `undefined` or `long`.
    pub return_type: ReturnType<'a>,
    /// Its name, where it has one.
    pub identifier: Option<Identifier<'a>>,
    /// Its arguments, between parentheses.
    pub args: Parenthesized<ArgumentList<'a>>,
    /// The `;` at the end.
    pub semi_colon: term::SemiColon,
}

record! {
    OperationMixinMember<'a> = OPERATION_MIXIN_MEMBER {
        attributes, stringifier, return_type, identifier, args, semi_colon
    }
}

/// An attribute of a mixin, as `readonly attribute long x;`.
#[derive(Clone, Debug, PartialEq, Eq, PartialOrd, Ord, Hash)]
pub struct AttributeMixinMember<'a> {
    /// The extended attributes in brackets, as `[Exposed=Window]`, where present.
    pub attributes: Option<ExtendedAttributeList<'a>>,
    /// The word `stringifier`, where present.
    pub stringifier: Option<term::Stringifier>,
    /// The word `readonly`, where present.
    pub readonly: Option<term::ReadOnly>,
    /// The word `attribute`.
    pub attribute: term::Attribute,
    /// Its type, as `long`, with the extended attributes before it.
    pub type_: AttributedType<'a>,
    /// Its name.
    pub identifier: Identifier<'a>,
    /// The `;` at the end.
    pub semi_colon: term::SemiColon,
}

record! {
    AttributeMixinMember<'a> = ATTRIBUTE_MIXIN_MEMBER {
        attributes, stringifier, readonly, attribute, type_, identifier, semi_colon
    }
}

/// A member of a mixin, as `readonly attribute long x;`.
#[derive(Clone, Debug, PartialEq, Eq, PartialOrd, Ord, Hash)]
pub enum MixinMember<'a> {
    /// `[extended attributes] const type name = value;`.
    Const(ConstMember<'a>),
    /// `[extended attributes] stringifier type name(arguments);`, also without `stringifier` or the
    /// name.
    Operation(OperationMixinMember<'a>),
    /// `[extended attributes] stringifier readonly attribute type name;`, also without
    /// `stringifier` or `readonly`.
    Attribute(AttributeMixinMember<'a>),
    /// `[extended attributes] stringifier;`.
    Stringifier(StringifierMember<'a>),
}

choice! {
    MixinMember<'a> = MIXIN_MEMBER {
        Const(ConstMember<'a>),
        Operation(OperationMixinMember<'a>),
        Attribute(AttributeMixinMember<'a>),
        Stringifier(StringifierMember<'a>),
    }
}

/// The members of a mixin, one after another, as `long f(); long g();`; none included.
pub type MixinMembers<'a> = Vec<MixinMember<'a>>;
