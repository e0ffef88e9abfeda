//! Parts that are anywhere in the grammar: brackets, lists, names and docstrings.
//!
//! Written by tools/write/rust_types.py, and not edited by hand.

use crate::literal::DefaultValue;
use crate::term;

/// A body in parentheses, as `(a, b)`.
#[derive(Clone, Copy, Debug, Default, PartialEq, Eq, PartialOrd, Ord, Hash)]
pub struct Parenthesized<T> {
    /// The `(`.
    pub open_paren: term::OpenParen,
    /// What is between the parentheses.
    pub body: T,
    /// The `)`.
    pub close_paren: term::CloseParen,
}

generic! { Parenthesized = parenthesized { open_paren, body, close_paren } }

/// A body in square brackets, as `[Exposed]`.
#[derive(Clone, Copy, Debug, Default, PartialEq, Eq, PartialOrd, Ord, Hash)]
pub struct Bracketed<T> {
    /// The `[`.
    pub open_bracket: term::OpenBracket,
    /// What is between the square brackets.
    pub body: T,
    /// The `]`.
    pub close_bracket: term::CloseBracket,
}

generic! { Bracketed = bracketed { open_bracket, body, close_bracket } }

/// A body in braces, as `{ .. }`.
#[derive(Clone, Copy, Debug, Default, PartialEq, Eq, PartialOrd, Ord, Hash)]
pub struct Braced<T> {
    /// The `{`.
    pub open_brace: term::OpenBrace,
    /// What is between the braces.
    pub body: T,
    /// The `}`.
    pub close_brace: term::CloseBrace,
}

generic! { Braced = braced { open_brace, body, close_brace } }

/// A body in angle brackets, as `<long>`.
#[derive(Clone, Copy, Debug, Default, PartialEq, Eq, PartialOrd, Ord, Hash)]
pub struct Generics<T> {
    /// The `<`.
    pub open_angle: term::LessThan,
    /// What is between the angle brackets.
    pub body: T,
    /// The `>`.
    pub close_angle: term::GreaterThan,
}

generic! { Generics = generics { open_angle, body, close_angle } }

/// The text of a docstring.
#[derive(Clone, Debug, PartialEq, Eq, PartialOrd, Ord, Hash)]
pub struct Docstring(pub String);

lines!(Docstring = DOCSTRING);

/// A name, as `Window`, kept without the underscore that may be before it, as in `_interface`.
#[derive(Clone, Copy, Debug, PartialEq, Eq, PartialOrd, Ord, Hash)]
pub struct Identifier<'a>(pub &'a str);

kept!(Identifier<'a> = IDENTIFIER { IDENTIFIER_TEXT });

/// Items with a separator between each two, as `a, b`; none included.
#[derive(Clone, Debug, PartialEq, Eq, PartialOrd, Ord, Hash)]
pub struct Punctuated<T, S> {
    /// The items, one after another; none included.
    pub list: Vec<T>,
    /// The separator's default, not what was read.
    pub separator: S,
}

punctuated!(Punctuated);

/// Items with a separator between each two, one item at least, and one further separator where
/// present, as `a, b,`.
#[derive(Clone, Debug, PartialEq, Eq, PartialOrd, Ord, Hash)]
pub struct PunctuatedNonEmpty<T, S> {
    /// The items, one after another; one at least.
    pub list: Vec<T>,
    /// The separator's default, not what was read.
    pub separator: S,
}

punctuated_non_empty!(PunctuatedNonEmpty);

/// A default, as `= 5` behind an argument's name.
#[derive(Clone, Copy, Debug, PartialEq, Eq, PartialOrd, Ord, Hash)]
pub struct Default<'a> {
    /// The `=`.
    pub assign: term::Assign,
    /// The value, as `5`.
    pub value: DefaultValue<'a>,
}

record! { Default<'a> = DEFAULT { assign, value } }
