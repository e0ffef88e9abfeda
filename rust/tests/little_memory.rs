//! Texts that want more memory than a process may have: a million levels take 15 GB.

use nom::error::ErrorKind;
use weedle::syntax::Fault;
use weedle::{Err, Error};

/// The address space of a process, as Linux numbers it.
const ADDRESS_SPACE: i32 = 9;
/// How many bytes of it there may be.
const MOST: u64 = 2 << 30;

extern "C" {
    fn setrlimit(resource: i32, limit: *const [u64; 2]) -> i32;
}

#[test]
fn a_million_levels() {
    let levels = 1_000_000;
    let text = format!(
        "typedef {}long{} x;",
        "sequence<".repeat(levels),
        ">".repeat(levels)
    );
    // SAFETY: the pointer is to two numbers, which stay while the call runs.
    let status = unsafe { setrlimit(ADDRESS_SPACE, &[MOST, MOST]) };
    assert_eq!(status, 0);
    let fault = Error::new(&text[..], ErrorKind::TooLarge);
    assert_eq!(weedle::parse(&text), Err(Err::Failure(fault)));
    assert_eq!(weedle::syntax(&text), Err(Fault::NoMemory));
    assert_eq!(weedle::parse("A includes B;").unwrap().len(), 1);
}
