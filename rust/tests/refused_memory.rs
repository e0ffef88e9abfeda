//! Memory that is refused: each request of the C library in turn, and a list of nodes that finds no room.
//!
//! The library asks `malloc` and `realloc`, which stand here in front of the C library's own. What Rust asks for goes past
//! them.

use nom::error::ErrorKind;
use std::alloc::{GlobalAlloc, Layout};
use std::cell::Cell;
use std::ffi::c_void;
use std::ptr::null_mut;
use weedle::syntax::Fault;
use weedle::{Definitions, Err, Error};

extern "C" {
    fn __libc_malloc(size: usize) -> *mut c_void;
    fn __libc_realloc(old: *mut c_void, size: usize) -> *mut c_void;
    fn __libc_memalign(align: usize, size: usize) -> *mut c_void;
    fn __libc_free(old: *mut c_void);
}

thread_local! {
    /// How many requests of the library are granted before one is refused.
    static GRANTED: Cell<usize> = const { Cell::new(usize::MAX) };
    /// The most bytes that a request of Rust's gets.
    static LARGEST: Cell<usize> = const { Cell::new(usize::MAX) };
}

/// Whether a request of the library is granted. One is refused; those behind it are granted again.
fn is_granted() -> bool {
    let left = GRANTED.with(Cell::get);
    GRANTED.with(|it| it.set(left.wrapping_sub(1)));
    left != 0
}

#[no_mangle]
unsafe extern "C" fn malloc(size: usize) -> *mut c_void {
    if is_granted() {
        __libc_malloc(size)
    } else {
        null_mut()
    }
}

#[no_mangle]
unsafe extern "C" fn realloc(old: *mut c_void, size: usize) -> *mut c_void {
    if is_granted() {
        __libc_realloc(old, size)
    } else {
        null_mut()
    }
}

/// What Rust's requests go to.
struct OfRust;

// SAFETY: what it gives is of glibc, as large as is asked for and aligned as is asked for.
unsafe impl GlobalAlloc for OfRust {
    unsafe fn alloc(&self, layout: Layout) -> *mut u8 {
        if layout.size() > LARGEST.with(Cell::get) {
            return null_mut();
        }
        __libc_memalign(layout.align().max(16), layout.size()).cast()
    }

    unsafe fn dealloc(&self, old: *mut u8, _: Layout) {
        __libc_free(old.cast());
    }
}

#[global_allocator]
static OF_RUST: OfRust = OfRust;

/// What comes of a reading while the request behind so many is refused, and whether one was.
fn with_a_refusal<T>(granted: usize, read: impl Fn() -> T) -> (T, bool) {
    GRANTED.with(|it| it.set(granted));
    let got = read();
    let left = GRANTED.with(|it| it.replace(usize::MAX));
    (got, left > granted)
}

fn failure(text: &str) -> Result<Definitions<'_>, Err<Error<&str>>> {
    Err(Err::Failure(Error::new(text, ErrorKind::TooLarge)))
}

/// Refuses each request of a reading in turn, and gives how many it has.
fn refuse_each(text: &str) -> usize {
    let (whole, nodes) = (weedle::parse(text), weedle::syntax(text));
    for granted in 0.. {
        let (got, was_refused) = with_a_refusal(granted, || weedle::parse(text));
        if !was_refused {
            assert_eq!(got, whole);
            return granted;
        }
        assert!(got == failure(text) || got == whole, "{granted} of {text}");
        let (got, _) = with_a_refusal(granted, || weedle::syntax(text));
        assert!(
            got == Err(Fault::NoMemory) || got == nodes,
            "{granted} of {text}"
        );
    }
    unreachable!("a reading has an end")
}

#[test]
fn each_request_of_the_library_is_refused_in_turn() {
    let nested = format!(
        "typedef {}long{} x;",
        "sequence<".repeat(200),
        ">".repeat(200)
    );
    let texts = [
        "interface A { attribute long b; }; A includes B;",
        "interface A {}; enum",
        &nested,
    ];
    for text in texts {
        assert!(refuse_each(text) > 0, "{text}");
    }
}

#[test]
fn a_list_of_nodes_that_finds_no_room() {
    let text = "A includes B;\n".repeat(1_000);
    LARGEST.with(|it| it.set(text.len()));
    let (values, nodes) = (weedle::parse(&text), weedle::syntax(&text));
    LARGEST.with(|it| it.set(usize::MAX));
    assert_eq!(values, failure(&text));
    assert_eq!(nodes, Err(Fault::NoMemory));
    assert_eq!(weedle::parse(&text).unwrap().len(), 1_000);
}
