//! Extended attributes.
//!
//! Written by tools/write/rust_types.py, and not edited by hand.

use crate::argument::ArgumentList;
use crate::common::{Bracketed, Identifier, Parenthesized, Punctuated};
use crate::literal::StringLit;
use crate::term;

/// An extended attribute, as `Exposed=Window` or `Constructor(long x)`.
#[derive(Clone, Debug, PartialEq, Eq, PartialOrd, Ord, Hash)]
pub enum ExtendedAttribute<'a> {
    /// `name(arguments)`.
    ArgList(ExtendedAttributeArgList<'a>),
    /// `name=name(arguments)`.
    NamedArgList(ExtendedAttributeNamedArgList<'a>),
    /// `name=(names)`.
    IdentList(ExtendedAttributeIdentList<'a>),
    /// `name=name` or `name="text"`.
    Ident(ExtendedAttributeIdent<'a>),
    /// `name`.
    NoArgs(ExtendedAttributeNoArgs<'a>),
}

choice! {
    ExtendedAttribute<'a> = EXTENDED_ATTRIBUTE {
        ArgList(ExtendedAttributeArgList<'a>),
        NamedArgList(ExtendedAttributeNamedArgList<'a>),
        IdentList(ExtendedAttributeIdentList<'a>),
        Ident(ExtendedAttributeIdent<'a>),
        NoArgs(ExtendedAttributeNoArgs<'a>),
    }
}

/// An extended attribute with arguments, as `Constructor(long x)`.
#[derive(Clone, Debug, PartialEq, Eq, PartialOrd, Ord, Hash)]
pub struct ExtendedAttributeArgList<'a> {
    /// Its name.
    pub identifier: Identifier<'a>,
    /// Its arguments, between parentheses.
    pub args: Parenthesized<ArgumentList<'a>>,
}

record! { ExtendedAttributeArgList<'a> = EXTENDED_ATTRIBUTE_ARG_LIST { identifier, args } }

/// An extended attribute with a name and arguments, as `NamedConstructor=Image(long x)`.
#[derive(Clone, Debug, PartialEq, Eq, PartialOrd, Ord, Hash)]
pub struct ExtendedAttributeNamedArgList<'a> {
    /// Its name, before the `=`.
    pub lhs_identifier: Identifier<'a>,
    /// The `=`.
    pub assign: term::Assign,
    /// The name behind the `=`.
    pub rhs_identifier: Identifier<'a>,
    /// Its arguments, between parentheses.
    pub args: Parenthesized<ArgumentList<'a>>,
}

record! {
    ExtendedAttributeNamedArgList<'a> = EXTENDED_ATTRIBUTE_NAMED_ARG_LIST {
        lhs_identifier, assign, rhs_identifier, args
    }
}

/// An extended attribute with names, as `Exposed=(Window, Worker)`.
#[derive(Clone, Debug, PartialEq, Eq, PartialOrd, Ord, Hash)]
pub struct ExtendedAttributeIdentList<'a> {
    /// Its name.
    pub identifier: Identifier<'a>,
    /// The `=`.
    pub assign: term::Assign,
    /// The names behind the `=`, between parentheses.
    pub list: Parenthesized<IdentifierList<'a>>,
}

record! {
    ExtendedAttributeIdentList<'a> = EXTENDED_ATTRIBUTE_IDENT_LIST {
        identifier, assign, list
    }
}

/// An extended attribute with a name or a string, as `PutForwards=name`.
#[derive(Clone, Copy, Debug, PartialEq, Eq, PartialOrd, Ord, Hash)]
pub struct ExtendedAttributeIdent<'a> {
    /// Its name, before the `=`.
    pub lhs_identifier: Identifier<'a>,
    /// The `=`.
    pub assign: term::Assign,
    /// The name or the string behind the `=`.
    pub rhs: IdentifierOrString<'a>,
}

record! { ExtendedAttributeIdent<'a> = EXTENDED_ATTRIBUTE_IDENT { lhs_identifier, assign, rhs } }

/// An extended attribute that is a name alone, as `Replaceable`.
#[derive(Clone, Copy, Debug, PartialEq, Eq, PartialOrd, Ord, Hash)]
pub struct ExtendedAttributeNoArgs<'a>(pub Identifier<'a>);

wrapped!(ExtendedAttributeNoArgs<'a> = EXTENDED_ATTRIBUTE_NO_ARGS);

/// A name or a string, as `name` or `"name"`.
#[derive(Clone, Copy, Debug, PartialEq, Eq, PartialOrd, Ord, Hash)]
pub enum IdentifierOrString<'a> {
    /// A name, as `name`.
    Identifier(Identifier<'a>),
    /// A text in quotes, as `"name"`.
    String(StringLit<'a>),
}

choice! {
    IdentifierOrString<'a> = IDENTIFIER_OR_STRING {
        Identifier(Identifier<'a>),
        String(StringLit<'a>),
    }
}

/// Extended attributes in brackets, as `[Exposed=Window, SecureContext]`; `[]` too.
pub type ExtendedAttributeList<'a> = Bracketed<Punctuated<ExtendedAttribute<'a>, term::Comma>>;

/// Names, as `Window, Worker`, none included.
pub type IdentifierList<'a> = Punctuated<Identifier<'a>, term::Comma>;
