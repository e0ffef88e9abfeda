//! Members of dictionaries.
//!
//! Written by tools/write/rust_types.py, and not edited by hand.

use crate::attribute::ExtendedAttributeList;
use crate::common::{Default, Docstring, Identifier};
use crate::term;
use crate::types::Type;

/// A member of a dictionary, as `required long x;` or `long x = 5;`.
#[derive(Clone, Debug, PartialEq, Eq, PartialOrd, Ord, Hash)]
pub struct DictionaryMember<'a> {
    /// The docstring in front, where present.
    pub docstring: Option<Docstring>,
    /// The extended attributes in brackets, as `[Exposed=Window]`, where present.
    pub attributes: Option<ExtendedAttributeList<'a>>,
    /// The word `required`, where present.
    pub required: Option<term::Required>,
    /// Its type, as `long`, with no extended attributes of its own.
    pub type_: Type<'a>,
    /// Its name.
    pub identifier: Identifier<'a>,
    /// Its default, as `= 5`, where present.
    pub default: Option<Default<'a>>,
    /// The `;` at the end.
    pub semi_colon: term::SemiColon,
}

record! {
    DictionaryMember<'a> = DICTIONARY_MEMBER {
        docstring, attributes, required, type_, identifier, default, semi_colon
    }
}

/// The members of a dictionary, one after another, as `long x; long y = 5;`; none included.
pub type DictionaryMembers<'a> = Vec<DictionaryMember<'a>>;
