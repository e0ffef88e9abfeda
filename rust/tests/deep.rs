//! Texts that nest deep: they are read or refused, and end no stack. A thread of a test has 2 MB of it.
//!
//! The longest take 2 GB of memory.

use nom::error::ErrorKind;
use weedle::syntax::Fault;
use weedle::{Definitions, Err, Error};

/// A definition whose type nests.
fn nested(front: &str, levels: usize, back: &str) -> String {
    format!(
        "typedef {}long{} x;",
        front.repeat(levels),
        back.repeat(levels)
    )
}

/// What nests in a type, with what stands behind it.
const KINDS: [(&str, &str); 5] = [
    ("sequence<", ">"),
    ("FrozenArray<", ">?"),
    ("record<DOMString, ", ">"),
    ("(short or ", ")"),
    ("(short or sequence<", ">)"),
];

/// A text whose extended attributes nest.
fn attributes(levels: usize) -> String {
    let (front, back) = ("[A(".repeat(levels), ")] a b".repeat(levels - 1));
    format!("{front}a b{back})] interface I {{}};")
}

/// Whether a text is read; else it is one that nests too deep.
fn is_read(text: &str) -> bool {
    match weedle::parse(text) {
        Ok(list) => list == list.clone() && list.len() == 1,
        fault => {
            assert_eq!(fault, too_deep(text));
            false
        }
    }
}

fn too_deep(text: &str) -> Result<Definitions<'_>, Err<Error<&str>>> {
    Err(Err::Failure(Error::new(text, ErrorKind::TooLarge)))
}

/// The most levels of a kind that are read, which are more than `least` and fewer than `most`.
fn deepest(front: &str, back: &str, mut least: usize, mut most: usize) -> usize {
    while most - least > 1 {
        let levels = (least + most) / 2;
        if is_read(&nested(front, levels, back)) {
            least = levels;
        } else {
            most = levels;
        }
    }
    least
}

#[test]
fn types_that_nest_some_hundred_levels_are_read() {
    for (front, back) in KINDS {
        for levels in [1, 50, 100, 500] {
            assert!(is_read(&nested(front, levels, back)), "{front} {levels}");
        }
    }
}

#[test]
fn up_to_some_depth_all_is_read() {
    assert!(deepest("sequence<", ">", 800, 4_000) > 1_000);
    for (front, back) in KINDS {
        let most = deepest(front, back, 500, 4_000);
        assert!((501..3_999).contains(&most), "{front} {most}");
    }
}

#[test]
fn attributes_that_nest_are_read() {
    for levels in [1, 4, 30, 100, 199] {
        assert!(is_read(&attributes(levels)), "{levels}");
    }
    let few = (600..700).take_while(|it| weedle::parse(&attributes(*it)).is_ok());
    assert!((1..100).contains(&few.count()));
}

#[test]
fn a_hundred_thousand_levels_are_too_deep() {
    let text = nested("sequence<", 100_000, ">");
    assert!(!is_read(&text));
}

#[test]
fn brackets_that_stay_open_are_refused() {
    for (piece, times) in [("(", 1_000_000), ("sequence<", 10_000), ("[A(", 10_000)] {
        let text = format!("typedef {}", piece.repeat(times));
        let fault = Error::new(&text[..], ErrorKind::Eof);
        assert_eq!(weedle::parse(&text), Err(Err::Error(fault)), "{piece}");
        assert_eq!(weedle::syntax(&text), Err(Fault::Refused(0)), "{piece}");
    }
}
