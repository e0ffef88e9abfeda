//! Arguments.
//!
//! Written by tools/write/rust_types.py, and not edited by hand.

use crate::attribute::ExtendedAttributeList;
use crate::common::{Default, Identifier, Punctuated};
use crate::term;
use crate::types::{AttributedType, Type};

/// An argument, as `long x`, or `long... xs` for any number of them.
#[derive(Clone, Debug, PartialEq, Eq, PartialOrd, Ord, Hash)]
pub enum Argument<'a> {
    /// `[extended attributes] type name` or `[extended attributes] optional type name = value`, the
    /// latter also without `= value`.
    Single(SingleArgument<'a>),
    /// `[extended attributes] type... name`.
    Variadic(VariadicArgument<'a>),
}

choice! {
    Argument<'a> = ARGUMENT {
        Single(SingleArgument<'a>),
        Variadic(VariadicArgument<'a>),
    }
}

/// An argument, as `optional long x = 5`.
#[derive(Clone, Debug, PartialEq, Eq, PartialOrd, Ord, Hash)]
pub struct SingleArgument<'a> {
    /// The extended attributes in brackets, as `[Exposed=Window]`, where present.
    pub attributes: Option<ExtendedAttributeList<'a>>,
    /// The word `optional`, where present.
    pub optional: Option<term::Optional>,
    /// Its type, as `long`, with extended attributes of its own, as in `optional [Clamp] long x`.
    pub type_: AttributedType<'a>,
    /// Its name.
    pub identifier: Identifier<'a>,
    /// Its default, as `= 5`, where present behind `optional`.
    pub default: Option<Default<'a>>,
}

record! {
    SingleArgument<'a> = SINGLE_ARGUMENT {
        attributes, optional, type_, identifier; default
    }
}

/// Any number of arguments, as `long... xs`.
#[derive(Clone, Debug, PartialEq, Eq, PartialOrd, Ord, Hash)]
pub struct VariadicArgument<'a> {
    /// The extended attributes in brackets, as `[Exposed=Window]`, where present.
    pub attributes: Option<ExtendedAttributeList<'a>>,
    /// Their type, as `long`, with no extended attributes of its own.
    pub type_: Type<'a>,
    /// The `...`.
    pub ellipsis: term::Ellipsis,
    /// Their name.
    pub identifier: Identifier<'a>,
}

record! { VariadicArgument<'a> = VARIADIC_ARGUMENT { attributes, type_, ellipsis, identifier } }

/// Arguments, as `long x, long y`, none included.
pub type ArgumentList<'a> = Punctuated<Argument<'a>, term::Comma>;
