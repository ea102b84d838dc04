//! The line that the verdict program prints.

use crate::file::{load, put_into, Written};
use crate::set::Set;
use crate::verdict::{judge, Verdict};

const MOST_BYTES: usize = 8192;

/// The line for what stands on standard input, with its newline.
pub fn line(input: &[u8]) -> String {
    let file = input.get(..MOST_BYTES).unwrap_or(input);
    match load(file) {
        Err(refusal) => format!("LOAD {} {}\n", refusal.number, refusal.offset),
        Ok(set) => judged(&set, judge(&set)),
    }
}

/// The line of a set by its verdict.
pub fn judged(set: &Set, verdict: Verdict) -> String {
    let (r, n, m) = (set.reads.len(), set.outputs.len(), set.constraints.len());
    match verdict {
        Verdict::Accepted => format!("ACCEPT {r} {n} {m}\n"),
        Verdict::NoVector(word) => format!("NOVECTOR {word}\n"),
        Verdict::Clash(word, output) => format!("CLASH {word} {output}\n"),
        Verdict::NoEnd(word, request) => format!("NOEND {word} {request}\n"),
    }
}

/// Puts a line into a buffer and gives its length; where the buffer is shorter
/// it stays untouched, and the answer is 0.
pub fn put_line(line: &str, buffer: &mut [u8]) -> usize {
    match put_into(line.as_bytes(), buffer) {
        Written::Wrote(length) => length,
        Written::Short(_) => 0,
    }
}
