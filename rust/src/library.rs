//! The one call of the C library: the nodes of a rule that is read at the front of a text.

use crate::rules;
use crate::syntax::{Fault, Node};

/// What the call says beside its status.
#[repr(C)]
#[derive(Default)]
struct Answer {
    /// How many nodes there are.
    count: usize,
    /// Up to which byte the rule reads.
    rest: usize,
}

extern "C" {
    fn weedle_syntax_of(
        rule: u32,
        text: *const u8,
        length: usize,
        nodes: *mut Node,
        room: usize,
        answer: *mut Answer,
    ) -> u32;
    fn weedle_version() -> u32;
}

/// The statuses that are told apart. A text of Rust's is UTF-8, and each rule that is asked for is there.
const READ: u32 = 0;
const REFUSED: u32 = 1;
const NO_MEMORY: u32 = 3;
const NO_ROOM: u32 = 4;

/// The most nodes that have room at first, where a rule mostly reads a small part of the text.
const SHORT_ROOM: usize = 1 << 12;

/// The nodes of a rule at the front of a text, and the byte up to which it reads.
///
/// The list has room for one node more than there are.
pub(crate) fn nodes_of(rule: u16, text: &str) -> Result<(Vec<Node>, usize), Fault> {
    let mut nodes = Vec::new();
    let mut room = first_room(rule, text.len());
    loop {
        nodes
            .try_reserve_exact(room + 1)
            .map_err(|_| Fault::NoMemory)?;
        match fill(rule, text, &mut nodes, room) {
            (READ, answer) => return Ok((nodes, answer.rest)),
            (NO_ROOM, answer) => room = answer.count,
            (REFUSED, answer) => return Err(Fault::Refused(answer.rest)),
            (NO_MEMORY, _) => return Err(Fault::NoMemory),
            _ => return Err(Fault::TooLong),
        }
    }
}

/// Room for the nodes of most texts, 1.75 a byte. The system gives memory only where a node is written.
fn first_room(rule: u16, length: usize) -> usize {
    let room = length + length / 2 + length / 4 + 64;
    if rules::is_long(rule) {
        room
    } else {
        room.min(SHORT_ROOM)
    }
}

/// Reads a rule into the room of an empty list, and gives the status with what is said beside it.
fn fill(rule: u16, text: &str, nodes: &mut Vec<Node>, room: usize) -> (u32, Answer) {
    assert!(nodes.is_empty() && room <= nodes.capacity());
    let mut answer = Answer::default();
    // SAFETY: no pointer is null, each has its length or its room, and nothing else uses the nodes and the answer
    // while the call runs. It reads no node, and where it says READ it has written the first `count`, of `room` at
    // most.
    let status = unsafe {
        assert_eq!(
            weedle_version(),
            rules::VERSION,
            "libweedle.a is of another version"
        );
        weedle_syntax_of(
            rule.into(),
            text.as_ptr(),
            text.len(),
            nodes.as_mut_ptr(),
            room,
            &mut answer,
        )
    };
    if status == READ {
        assert!(answer.count <= room);
        // SAFETY: they were written, and have room.
        unsafe { nodes.set_len(answer.count) };
    }
    (status, answer)
}
