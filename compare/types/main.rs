//! Reads every type at every word of texts by the Rust package, by weedle2 itself, and by weedle2 with the three rules of the
//! port, and counts where the answers are the same. `tools/measure/compare_rust_types.py` builds and runs it.

#[rustfmt::skip]
mod types;

use std::collections::BTreeMap;
use std::fmt::Debug;

/// How much of a text is given from a word on.
const MOST: usize = 200;
/// How many answers that differ are shown.
const SHOWN: usize = 20;

/// What three crates answer of a type at the front of a text.
pub struct Answers {
    here: String,
    weedle2: String,
    changed: String,
}

/// How long the rest is and what was read, or that nothing was.
pub fn said<R: AsRef<str>, T: Debug, E>(read: Result<(R, T), nom::Err<E>>) -> String {
    match read {
        Ok((rest, value)) => format!("{} {value:?}", rest.as_ref().len()),
        Err(nom::Err::Error(_)) => String::from("error"),
        Err(_) => String::from("failure"),
    }
}

/// Calls `$out` with what each crate answers of each type.
#[macro_export]
macro_rules! each_type {
    ($text:ident, $out:ident, $($name:literal: $here:ty, $weedle2:ty, $changed:ty;)+) => {
        $($out($name, $crate::Answers {
            here: $crate::said(<$here as here::Parse>::parse($text)),
            weedle2: $crate::said(<$weedle2 as weedle2::Parse>::parse($text)),
            changed: $crate::said(<$changed as changed::Parse>::parse($text)),
        });)+
    };
}

/// What was counted.
#[derive(Default)]
struct Counts {
    answers: usize,
    read: BTreeMap<&'static str, usize>,
    by_rules: usize,
    different: usize,
}

impl Counts {
    fn add(&mut self, name: &'static str, text: &str, found: &Answers) {
        self.answers += 1;
        *self.read.entry(name).or_default() += usize::from(found.here != "error");
        if found.here != found.changed {
            self.different += 1;
            if self.different <= SHOWN {
                println!(
                    "{name} of {text:?}:\n  here    {}\n  weedle2 {}",
                    found.here, found.changed
                );
            }
        } else if found.here != found.weedle2 {
            self.by_rules += 1;
        }
    }
}

/// Where words, signs and what stands between them begin.
fn places(text: &str) -> impl Iterator<Item = usize> + '_ {
    let bytes = text.as_bytes();
    let is_word = |at: usize| bytes[at].is_ascii_alphanumeric();
    let begins = move |at: &usize| *at == 0 || !is_word(*at) || is_word(*at) != is_word(*at - 1);
    (0..text.len())
        .filter(|at| text.is_char_boundary(*at))
        .filter(begins)
}

/// At most so many bytes of a text.
fn front(text: &str) -> &str {
    let end = (0..=MOST.min(text.len()))
        .rev()
        .find(|at| text.is_char_boundary(*at));
    &text[..end.unwrap_or(0)]
}

fn main() {
    let mut counts = Counts::default();
    for path in std::env::args().skip(1) {
        let text = std::fs::read_to_string(&path).expect("a file of UTF-8");
        for place in places(&text) {
            let piece = front(&text[place..]);
            types::each(piece, &mut |name, found| counts.add(name, piece, &found));
        }
    }
    let never: Vec<_> = counts
        .read
        .iter()
        .filter(|(_, count)| **count == 0)
        .collect();
    println!(
        "{} types, of which nowhere a value is read: {never:?}",
        counts.read.len()
    );
    println!(
        "{} answers, {} values, {} otherwise by the three rules, {} otherwise",
        counts.answers,
        counts.read.values().sum::<usize>(),
        counts.by_rules,
        counts.different
    );
    std::process::exit(i32::from(counts.different > 0));
}
