//! How `Option`, `Box`, `Vec` and tuples are read: by a rule where the grammar has one for them, else part by part.

use crate::cursor::{self, Cursor};
use crate::{rules, IResult, Parse};

/// Reads a value where one is: `None` is read everywhere.
impl<'a, T: Parse<'a>> Parse<'a> for Option<T> {
    const __RULE: u16 = rules::option(T::__RULE);

    fn parse(input: &'a str) -> IResult<&'a str, Self> {
        nom::combinator::opt(T::parse)(input)
    }

    #[inline]
    fn __build(at: &mut Cursor<'a>) -> Self {
        at.option()
    }
}

/// Reads what it holds.
impl<'a, T: Parse<'a>> Parse<'a> for Box<T> {
    const __RULE: u16 = T::__RULE;

    fn parse(input: &'a str) -> IResult<&'a str, Self> {
        nom::combinator::map(T::parse, Box::new)(input)
    }

    fn __build(at: &mut Cursor<'a>) -> Self {
        Box::new(T::__build(at))
    }
}

/// Reads values one after another, none included.
impl<'a, T: Parse<'a>> Parse<'a> for Vec<T> {
    const __RULE: u16 = rules::vec(T::__RULE);

    fn parse(input: &'a str) -> IResult<&'a str, Self> {
        if Self::__RULE != rules::NONE {
            return cursor::parse(input);
        }
        nom::multi::many0(T::parse)(input)
    }

    fn __build(at: &mut Cursor<'a>) -> Self {
        at.all()
    }
}

/// Reads two values, one behind the other.
impl<'a, T: Parse<'a>, U: Parse<'a>> Parse<'a> for (T, U) {
    const __RULE: u16 = rules::pair(T::__RULE, U::__RULE);

    fn parse(input: &'a str) -> IResult<&'a str, Self> {
        nom::sequence::tuple((T::parse, U::parse))(input)
    }

    fn __build(at: &mut Cursor<'a>) -> Self {
        at.enter();
        (T::__build(at), U::__build(at))
    }
}

/// Reads three values, one behind the other.
impl<'a, T: Parse<'a>, U: Parse<'a>, V: Parse<'a>> Parse<'a> for (T, U, V) {
    const __RULE: u16 = rules::triple(T::__RULE, U::__RULE, V::__RULE);

    fn parse(input: &'a str) -> IResult<&'a str, Self> {
        nom::sequence::tuple((T::parse, U::parse, V::parse))(input)
    }

    fn __build(at: &mut Cursor<'a>) -> Self {
        at.enter();
        (T::__build(at), U::__build(at), V::__build(at))
    }
}
