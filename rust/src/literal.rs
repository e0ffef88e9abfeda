//! Literals.
//!
//! Written by tools/write/rust_types.py, and not edited by hand.

use crate::term;

/// The word `true` or `false`.
#[derive(Clone, Copy, Debug, PartialEq, Eq, PartialOrd, Ord, Hash)]
pub struct BooleanLit(pub bool);

truth!(BooleanLit = BOOLEAN_LIT);

/// An empty list, as `[ ]`.
#[derive(Clone, Copy, Debug, Default, PartialEq, Eq, PartialOrd, Ord, Hash)]
pub struct EmptyArrayLit {
    /// The `[`.
    pub open_bracket: term::OpenBracket,
    /// The `]`.
    pub close_bracket: term::CloseBracket,
}

record! { EmptyArrayLit = EMPTY_ARRAY_LIT { open_bracket, close_bracket } }

/// An empty dictionary, as `{ }`.
#[derive(Clone, Copy, Debug, Default, PartialEq, Eq, PartialOrd, Ord, Hash)]
pub struct EmptyDictionaryLit {
    /// The `{`.
    pub open_brace: term::OpenBrace,
    /// The `}`.
    pub close_brace: term::CloseBrace,
}

record! { EmptyDictionaryLit = EMPTY_DICTIONARY_LIT { open_brace, close_brace } }

/// A number with a point or an exponent, as `-.5E+3`, `5.` or `1e3`.
#[derive(Clone, Copy, Debug, PartialEq, Eq, PartialOrd, Ord, Hash)]
pub struct FloatValueLit<'a>(pub &'a str);

kept!(FloatValueLit<'a> = FLOAT_VALUE_LIT { FLOAT_VALUE_LIT_TEXT });

/// A float, as `-.5E+3` or `-Infinity`.
#[derive(Clone, Copy, Debug, PartialEq, Eq, PartialOrd, Ord, Hash)]
pub enum FloatLit<'a> {
    /// A number with a point or an exponent, as `1.5`.
    Value(FloatValueLit<'a>),
    /// The word `-Infinity`.
    NegInfinity(term::NegInfinity),
    /// The word `Infinity`.
    Infinity(term::Infinity),
    /// The word `NaN`.
    NaN(term::NaN),
}

choice! {
    FloatLit<'a> = FLOAT_LIT {
        Value(FloatValueLit<'a>),
        NegInfinity(term::NegInfinity),
        Infinity(term::Infinity),
        NaN(term::NaN),
    }
}

/// A decimal number, as `-12`.
#[derive(Clone, Copy, Debug, PartialEq, Eq, PartialOrd, Ord, Hash)]
pub struct DecLit<'a>(pub &'a str);

kept!(DecLit<'a> = DEC_LIT { DEC_LIT_TEXT });

/// A hexadecimal number, as `-0x1F`.
#[derive(Clone, Copy, Debug, PartialEq, Eq, PartialOrd, Ord, Hash)]
pub struct HexLit<'a>(pub &'a str);

kept!(HexLit<'a> = HEX_LIT { HEX_LIT_TEXT });

/// An octal number, as `-017` or `0`.
#[derive(Clone, Copy, Debug, PartialEq, Eq, PartialOrd, Ord, Hash)]
pub struct OctLit<'a>(pub &'a str);

kept!(OctLit<'a> = OCT_LIT { OCT_LIT_TEXT });

/// A whole number, as `-12`, `0x1F` or `017`.
#[derive(Clone, Copy, Debug, PartialEq, Eq, PartialOrd, Ord, Hash)]
pub enum IntegerLit<'a> {
    /// A decimal number, as `-12`.
    Dec(DecLit<'a>),
    /// A hexadecimal number, as `0x1F`.
    Hex(HexLit<'a>),
    /// An octal number, as `017`.
    Oct(OctLit<'a>),
}

choice! {
    IntegerLit<'a> = INTEGER_LIT {
        Dec(DecLit<'a>),
        Hex(HexLit<'a>),
        Oct(OctLit<'a>),
    }
}

/// A text in quotes, as `"blob"`.
#[derive(Clone, Copy, Debug, PartialEq, Eq, PartialOrd, Ord, Hash)]
pub struct StringLit<'a>(pub &'a str);

kept!(StringLit<'a> = STRING_LIT { RUN_NOT_QUOTE });

/// The value of a default, as `"blob"` or `[]`.
#[derive(Clone, Copy, Debug, PartialEq, Eq, PartialOrd, Ord, Hash)]
pub enum DefaultValue<'a> {
    /// A boolean, as `true`.
    Boolean(BooleanLit),
    /// An empty list, as `[]`.
    EmptyArray(EmptyArrayLit),
    /// An empty dictionary, as `{}`.
    EmptyDictionary(EmptyDictionaryLit),
    /// A float, as `1.5` or `NaN`.
    Float(FloatLit<'a>),
    /// A whole number, as `-12`.
    Integer(IntegerLit<'a>),
    /// The word `null`.
    Null(term::Null),
    /// A text in quotes, as `"blob"`.
    String(StringLit<'a>),
}

choice! {
    DefaultValue<'a> = DEFAULT_VALUE {
        Boolean(BooleanLit),
        EmptyArray(EmptyArrayLit),
        EmptyDictionary(EmptyDictionaryLit),
        Float(FloatLit<'a>),
        Integer(IntegerLit<'a>),
        Null(term::Null),
        String(StringLit<'a>),
    }
}

/// The value of a constant, as `1.5` or `null`.
#[derive(Clone, Copy, Debug, PartialEq, Eq, PartialOrd, Ord, Hash)]
pub enum ConstValue<'a> {
    /// A boolean, as `true`.
    Boolean(BooleanLit),
    /// A float, as `1.5` or `NaN`.
    Float(FloatLit<'a>),
    /// A whole number, as `-12`.
    Integer(IntegerLit<'a>),
    /// The word `null`.
    Null(term::Null),
}

choice! {
    ConstValue<'a> = CONST_VALUE {
        Boolean(BooleanLit),
        Float(FloatLit<'a>),
        Integer(IntegerLit<'a>),
        Null(term::Null),
    }
}
