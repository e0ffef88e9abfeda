//! WebIDL read by a proved parser, into the types of weedle2.
//!
//! ```
//! let parsed = weedle::parse("
//!     interface Window {
//!         readonly attribute Storage sessionStorage;
//!     };
//! ").unwrap();
//! println!("{:?}", parsed);
//! ```
//!
//! This package takes the place of `weedle2` 5.0.0: its modules, types, fields, variants, derives and conversions are the
//! same, and so are [`parse`] and [`Parse`]. The text is read by a C library that is proved against a written grammar;
//! how values are made of what it reads is plain Rust, and tested against weedle2.
//!
//! It differs in this:
//! - [`parse`] gives an error where weedle2 panics, since a part of the text is left over.
//! - A name begins with a letter, a hexadecimal number has a digit, and a line comment may end with the text.
//! - A mismatch has the code [`ErrorKind::Fail`] and the whole input; weedle2 has those of one of its combinators.
//! - A text that nests too deep is [`Err::Failure`]; weedle2 overflows the stack.
//!
//! [`syntax()`] is beside that: the nodes of a text, with comments and whitespace. [`syntax::syntax_in`] gives those of
//! today's WebIDL too, as of `[Exposed=*] interface A {};`; [`parse`] and the types are weedle2's.

#![warn(missing_docs)]

use nom::error::ErrorKind;
pub use nom::{error::Error, Err, IResult};

#[macro_use]
mod macros;
#[doc(hidden)]
pub mod cursor;
mod generic;
mod library;
mod rules;

pub mod argument;
pub mod attribute;
pub mod common;
mod definitions;
pub mod dictionary;
pub mod interface;
pub mod literal;
pub mod mixin;
pub mod namespace;
pub mod syntax;
#[macro_use]
pub mod term;
pub mod types;

pub use definitions::*;
#[doc(inline)]
pub use syntax::syntax;

/// Reads a whole text as definitions, as `interface A {}; A includes B;`.
///
/// # Errors
///
/// - [`Err::Error`] with the code [`ErrorKind::Eof`]: the grammar leaves input, which is the input of the error. The
///   definitions before it are given by `Definitions::parse`.
/// - [`Err::Failure`] with the code [`ErrorKind::TooLarge`]: memory is refused, the text is longer than 4 GB, or it
///   nests too deep, as more than 1,000 times `sequence<`.
pub fn parse(raw: &str) -> Result<Definitions<'_>, Err<Error<&str>>> {
    let (rest, parsed) = Definitions::parse(raw)?;
    if rest.is_empty() {
        Ok(parsed)
    } else {
        Err(Err::Error(Error::new(rest, ErrorKind::Eof)))
    }
}

/// A value that is read at the front of a text.
///
/// A type of your own needs [`parse`](Parse::parse) alone, and can then be in `Option`, `Vec`, `Box`, tuples and
/// the generic types of [`common`].
pub trait Parse<'a>: Sized {
    /// Reads a value at the front of a text, as a type of `long? x`, and gives the rest with it.
    ///
    /// # Errors
    ///
    /// [`Err::Error`] where no value is there, and [`Err::Failure`] as [`crate::parse`] has it.
    fn parse(input: &'a str) -> IResult<&'a str, Self>;

    /// The grammar's rule that reads such a value, if there is one.
    #[doc(hidden)]
    const __RULE: u16 = rules::NONE;

    /// Makes a value of the nodes of its rule.
    #[doc(hidden)]
    fn __build(_at: &mut cursor::Cursor<'a>) -> Self {
        unreachable!("no rule reads such a value")
    }
}
