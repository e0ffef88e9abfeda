//! Texts that are made to be slow, deep or long, each with what the rows of the grammar say of it: those of
//! `tests/families.txt` of the repository, whose form `tools/run/families.py` tells.

use nom::error::ErrorKind;
use std::path::Path;
use std::time::{Duration, Instant};
use weedle::syntax::Fault;
use weedle::{Err, Error};

/// How long both readings of a text may take, on a machine with much other work.
const MOST: Duration = Duration::from_secs(60);
/// How deep nodes stand in the deepest text that is read into values.
const MOST_DEPTH: u32 = 6_100;

/// A text, and what has to be said of it.
struct Family {
    name: String,
    kind: String,
    text: String,
    rest: usize,
}

/// The families of texts that are UTF-8.
fn families() -> Vec<Family> {
    let place = Path::new(env!("CARGO_MANIFEST_DIR")).join("../tests/families.txt");
    let lines = std::fs::read_to_string(place).unwrap();
    let lines = lines.lines().filter(|it| !it.starts_with('#'));
    lines
        .filter(|it| !it.is_empty() && !it.contains("not UTF-8"))
        .map(family)
        .collect()
}

fn family(line: &str) -> Family {
    let mut fields = line.split('\t');
    let [name, kind, front] = [(); 3].map(|()| fields.next().unwrap());
    let (front, back) = (part(front), part(fields.next().unwrap_or("")));
    Family {
        name: name.into(),
        kind: kind.into(),
        rest: front.len(),
        text: front + &back,
    }
}

/// A part of a text, of pieces as `20*"ab"`.
fn part(mut field: &str) -> String {
    let mut text = String::new();
    while let Some(start) = field.find('"') {
        let times = field[..start].trim().trim_end_matches('*');
        let end = (start + 1..)
            .find(|at| field.as_bytes()[*at] == b'"' && !is_escaped(&field[start + 1..*at]))
            .unwrap();
        let piece = unescaped(&field[start + 1..end]);
        text += &piece.repeat(times.parse().unwrap_or(1));
        field = &field[end + 1..];
    }
    text
}

/// Whether a sign behind this text has a backslash of its own.
fn is_escaped(text: &str) -> bool {
    text.bytes().rev().take_while(|it| *it == b'\\').count() % 2 == 1
}

/// A piece, with its escapes worked out: those of Python's bytes.
fn unescaped(piece: &str) -> String {
    let (mut bytes, mut left) = (Vec::new(), piece.bytes());
    while let Some(byte) = left.next() {
        bytes.push(match byte {
            b'\\' => match left.next().unwrap() {
                b'n' => b'\n',
                b'r' => b'\r',
                b't' => b'\t',
                b'x' => hexadecimal([(); 2].map(|()| left.next().unwrap())),
                other => other,
            },
            _ => byte,
        });
    }
    String::from_utf8(bytes).unwrap()
}

fn hexadecimal(digits: [u8; 2]) -> u8 {
    u8::from_str_radix(std::str::from_utf8(&digits).unwrap(), 16).unwrap()
}

#[test]
fn each_has_its_answer() {
    let families = families();
    assert!(families.len() > 50);
    for Family {
        name,
        kind,
        text,
        rest,
    } in &families
    {
        let began = Instant::now();
        let (nodes, values) = (weedle::syntax(text), weedle::parse(text));
        if kind == "refused" {
            assert_eq!(nodes, Err(Fault::Refused(*rest)), "{name}");
            let left = Error::new(&text[*rest..], ErrorKind::Eof);
            assert!(values == Err(Err::Error(left)), "{name}");
        } else {
            let deepest = nodes.unwrap().iter().map(|it| it.depth).max();
            let is_deep = deepest > Some(MOST_DEPTH);
            assert_eq!(values.is_err(), is_deep, "{name}");
        }
        assert!(began.elapsed() < MOST, "{name}: {:?}", began.elapsed());
    }
}
