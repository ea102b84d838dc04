//! Long files of at most 16 read points: the longest good one, and files of more
//! than 4,096 bytes, as many as the verdict program took when these were made.
//! `fronts` has longer ones.

use crate::damage::P;
use crate::file::{put_field, write};
use crate::records::Case;
use crate::set::{Constraint, Kind, Literal, Point, ReadPoint, Set};

/// The bytes of the longest good file of at most 16 read points, and of the
/// longest of these without a rest word.
pub const LONGEST: usize = 3573;
pub const LONGEST_AT_REST_0: usize = 3568;

/// The read word of the longest files' constraints.
pub const WORD: usize = 0x2B5D;

/// 16 read points, 8 outputs, no rest word and 64 constraints of 24 literals,
/// whose read literals are true at one word alone. There vector k leads to k+1,
/// to 64; or 63 leads back to 0.
pub fn longest(word: usize, turns: bool) -> Set {
    let read = |k: usize| ReadPoint {
        kind: match k {
            9 => Kind::PastOutput(7),
            11 => Kind::PastSensor(8),
            15 => Kind::PastOutput(0),
            _ => Kind::Sensor,
        },
        name: format!("read..{k:02}").into_bytes(),
    };
    let step = |k: usize| leading(word, k, if turns { (k + 1) % 64 } else { k + 1 });
    Set {
        reads: (0..16).map(read).collect(),
        outputs: (0..8).map(|k| format!("output.{k}").into_bytes()).collect(),
        rest: Vec::new(),
        constraints: (0..64).map(step).collect(),
    }
}

/// The constraint that is true at a read word and a vector and leads from it to
/// the other.
fn leading(word: usize, from: usize, to: usize) -> Constraint {
    let bit = |word: usize, place: usize| (word >> place) % 2 == 1;
    let read = |place| Literal {
        point: Point::Read(place),
        negated: !bit(word, place),
        rank: 0,
    };
    let output = |place| Literal {
        point: Point::Output(place),
        negated: !bit(from, place),
        rank: if bit(from ^ to, place) { 100 } else { 255 },
    };
    Constraint {
        literals: (0..16).map(read).chain((0..8).map(output)).collect(),
    }
}

/// One of the longest files without its end field, then a field that ends at an
/// offset.
pub fn full_then(full: &Set, tag: u8, end: usize) -> Vec<u8> {
    let mut file = write(full);
    file.truncate(file.len() - 3);
    field_to(&mut file, tag, end);
    file
}

/// Appends a field that ends at an offset.
pub fn field_to(file: &mut Vec<u8>, tag: u8, end: usize) {
    let body = vec![b'x'; end - file.len() - 3];
    put_field(file, tag, &body);
}

/// What the verdict program was tried with when it took 4,096 bytes. Byte 3,565
/// begins an end field that runs to byte 4,097.
pub fn long_then() -> Vec<u8> {
    let mut file = full_then(&longest(WORD, false), 5, 4097);
    file.resize(8300, 0);
    file
}

/// Scans at the word of the longest file: its past points are filled from the
/// scans before, so some set them first.
fn scans() -> Vec<(u32, u16)> {
    let sensors = (WORD & !(1 << 9) & !(1 << 11) & !(1 << 15)) as u32;
    let past = [(sensors | 1 << 8, 0x80)];
    let walks = [0, 1, 62, 63, 64, 65, 255];
    let pairs = walks.map(|request| [(1 << 8, 0x80), (sensors, request)]);
    past.into_iter().chain(pairs.concat()).collect()
}

/// The longest files without a rest word, and files of more than 4,096 bytes.
pub fn cases() -> Vec<Case> {
    let case = |file: Vec<u8>, scans: Vec<(u32, u16)>| Case::File { file, scans };
    let mut cases = Vec::new();
    for turns in [false, true] {
        cases.push(case(write(&longest(WORD, turns)), scans()));
    }
    let full = longest(WORD, false);
    let mut more = write(&full);
    more.push(5);
    cases.push(case(more, scans()));
    cases.push(case(long_then(), Vec::new()));
    for tag in [3, 4, 5] {
        for end in [4095, 4096, 4097] {
            cases.push(case(full_then(&full, tag, end), Vec::new()));
        }
    }
    cases.push(case(full_then(&full, 5, 4096 + 256), Vec::new()));
    for (kept, tag) in [(0, 1), (5, 2), (13, 3), (22, 4), (36, 5), (36, 6)] {
        let mut file = P[..kept].to_vec();
        field_to(&mut file, tag, 4097);
        cases.push(case(file, Vec::new()));
    }
    // As long as a record can be.
    let mut file = P[..36].to_vec();
    field_to(&mut file, 4, 65_535);
    cases.push(case(file, Vec::new()));
    cases
}

#[cfg(test)]
mod tests {
    use super::*;
    use crate::file::{load, Refusal};
    use crate::program::line;
    use crate::verdict::{judge, Verdict};

    #[test]
    fn the_longest_files() {
        let word = WORD as u32;
        for (turns, verdict) in [(false, Verdict::Accepted), (true, Verdict::NoEnd(word, 0))] {
            let set = longest(WORD, turns);
            let file = write(&set);
            assert_eq!(file.len(), LONGEST_AT_REST_0);
            assert_eq!(judge(&set), verdict);
            assert_eq!(load(&file), Ok(set));
        }
    }

    #[test]
    fn the_program_sees_more_than_4096_bytes() {
        for file in [long_then(), full_then(&longest(WORD, false), 5, 4096)] {
            assert_eq!(line(&file), "LOAD 4 3565\n");
            let whole = Refusal {
                number: 4,
                offset: 3565,
            };
            assert_eq!(load(&file), Err(whole));
        }
    }
}
