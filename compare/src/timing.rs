//! How long weedle2 takes to read a text, and how much memory the process held.

use crate::answer;
use std::hint::black_box;
use std::io::{self, Write};
use std::time::Instant;

/// Writes a file's bytes and definitions, the median nanoseconds a byte of so many readings, and the most memory that
/// the process has held so far.
///
/// The list is let go within the time, as by a caller that has read it.
pub fn write(name: &str, text: &str, rounds: u32, out: &mut impl Write) -> io::Result<()> {
    let mut times: Vec<f64> = (0..rounds).map(|_| seconds(text)).collect();
    times.sort_by(f64::total_cmp);
    let median = times[times.len() / 2] * 1e9 / text.len().max(1) as f64;
    let (rest, definitions) = answer::read(text);
    writeln!(
        out,
        "{name}: {} bytes, {} definitions, {} unread, {median:.1} ns a byte, {} kB held",
        text.len(),
        definitions.len(),
        rest.len(),
        held().map_or_else(|| String::from("?"), |size| size.to_string()),
    )
}

/// How long one reading takes.
fn seconds(text: &str) -> f64 {
    let start = Instant::now();
    drop(black_box(answer::read(black_box(text))));
    start.elapsed().as_secs_f64()
}

/// The most memory that this process held, in kB, where the system tells.
fn held() -> Option<u64> {
    let status = std::fs::read_to_string("/proc/self/status").ok()?;
    let line = status
        .lines()
        .find_map(|line| line.strip_prefix("VmHWM:"))?;
    line.split_whitespace().next()?.parse().ok()
}
