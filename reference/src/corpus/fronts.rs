//! Long files of up to 20 read points: the longest good ones, and files of more
//! than 8,192 bytes, as many as the verdict program takes.
//!
//! A good file has at most 5,117 bytes, so that a longer one is refused at a
//! field that begins there or before, and the loader's answer to its front
//! changes only once behind byte 5,117: where that field ends. No one file tells
//! fronts of 8,191, 8,192 and 8,193 bytes apart; two files do, one with a field
//! that ends at byte 8,192 and one with a field that ends a byte later.

use super::long::{field_to, full_then};
use super::names::nearly;
use crate::chance::Chance;
use crate::damage::P;
use crate::file::{load, write};
use crate::making::step;
use crate::records::{Case, Kept, List, Words};
use crate::set::{bits, Constraint, Kind, Literal, Point, ReadPoint, Set};

/// The bytes of the longest good file, and of the longest without a rest word.
pub const LONGEST: usize = 5117;
pub const LONGEST_AT_REST_0: usize = 5112;

/// As many as the verdict program takes.
const TAKEN: usize = 8192;

/// The read words of the longest files' constraints. The first two are the same
/// modulo 65,536, and so are the last two.
pub const WORDS: [u32; 4] = [0x02B5D, 0x92B5D, 0x6_0411, 0xE_0411];

/// The outputs that rest on in the longest file.
const REST: [usize; 2] = [1, 3];

/// How the walks of the longest files end.
#[derive(Clone, Copy, Debug, PartialEq, Eq)]
pub enum End {
    /// At vector 15, at each of the four words.
    Safe,
    /// At the first word they go round, and vector 15 is safe.
    Endless,
    /// At the first word no vector is safe.
    Nowhere,
}

/// 20 read points, 4 outputs and 64 constraints of 24 literals, whose read
/// literals are true at one of four words each. There vector k leads to k + 1.
pub fn longest(chance: &mut Chance, rest: &[usize], end: End) -> Set {
    let read = |k: usize| ReadPoint {
        kind: match k {
            9 => Kind::PastOutput(3),
            11 => Kind::PastSensor(8),
            17 => Kind::PastSensor(16),
            19 => Kind::PastOutput(0),
            _ => Kind::Sensor,
        },
        name: format!("read..{k:02}").into_bytes(),
    };
    let mut constraints = Vec::new();
    for (place, word) in WORDS.into_iter().enumerate() {
        for (from, to) in steps(if place == 0 { end } else { End::Safe }) {
            constraints.push(leading(chance, word, from, to));
        }
    }
    chance.shuffle(&mut constraints);
    Set {
        reads: (0..20).map(read).collect(),
        outputs: (0..4).map(|k| format!("output.{k}").into_bytes()).collect(),
        rest: rest.to_vec(),
        constraints,
    }
}

/// Sixteen steps from vector to vector, the last of them once more where there
/// are fifteen.
fn steps(end: End) -> Vec<(usize, usize)> {
    let mut steps: Vec<(usize, usize)> = (0..14).map(|k| (k, k + 1)).collect();
    steps.extend(match end {
        End::Safe => [(14, 15), (14, 15)],
        End::Endless => [(14, 0), (14, 0)],
        End::Nowhere => [(14, 15), (15, 0)],
    });
    steps
}

/// The constraint that is true at a read word and a vector and leads from it to
/// the other.
fn leading(chance: &mut Chance, word: u32, from: usize, to: usize) -> Constraint {
    let on = bits(word, 20);
    let read = |k: usize| Literal {
        point: Point::Read(k),
        negated: !on[k],
        rank: 0,
    };
    let outputs = step(chance, from, to, 4);
    Constraint {
        literals: (0..20).map(read).chain(outputs).collect(),
    }
}

/// The verdict program's input. Byte 5,114 begins an end field that runs to
/// byte 8,193: the program, which has 8,192 bytes, answers 1 there, and one that
/// takes more 4. One that takes less than the field's first byte answers 1 at an
/// earlier field. The bytes behind make a second 8,192 bytes full.
pub fn program_input() -> Vec<u8> {
    let full = longest(&mut Chance::new(0), &REST, End::Safe);
    let mut file = full_then(&full, 5, TAKEN + 1);
    file.resize(2 * TAKEN + 116, 0);
    file
}

/// How many bytes a program may take that takes the wrong number, and how many
/// files must show it.
const WRONGLY: &[(&str, usize, usize)] = &[
    ("4,096 bytes", 4096, 30),
    ("8,191 bytes", TAKEN - 1, 12),
    ("8,193 bytes", TAKEN + 1, 12),
    ("all bytes", usize::MAX, 12),
];

/// What a file counts as by the programs that take another number of bytes and
/// load something else, or refuse it otherwise.
pub fn of_file(file: &[u8]) -> Vec<String> {
    let front = |count: usize| load(&file[..count.min(file.len())]);
    let wrong = WRONGLY.iter();
    let wrong = wrong.filter(|(_, count, _)| file.len() > 4096 && front(*count) != front(TAKEN));
    wrong.map(|(name, ..)| taking(name)).collect()
}

fn taking(name: &str) -> String {
    format!("line, other if the program took {name}")
}

/// How many of these a corpus must have.
pub fn needed() -> Vec<(String, usize)> {
    let wrong = WRONGLY.iter();
    wrong
        .map(|(name, _, least)| (format!("F {}", taking(name)), *least))
        .collect()
}

/// What a state of a set keeps at mark 1, and a sensor word, so that a read word
/// is this one, as far as past points that read the same agree.
pub fn reaching(set: &Set, word: u32) -> (Kept, u32) {
    let on = bits(word, set.reads.len());
    let mut kept = Kept {
        mark: 1,
        ..Kept::default()
    };
    let mut sensor = 0;
    for (number, point) in set.reads.iter().enumerate() {
        match point.kind {
            Kind::Sensor => sensor |= u32::from(on[number]) << number,
            Kind::PastOutput(index) => kept.past_output |= u16::from(on[number]) << index,
            Kind::PastSensor(index) => kept.past_sensor |= u32::from(on[number]) << index,
        }
    }
    (kept, sensor)
}

/// Scans from a start that come to each of the four words, if they send what is
/// requested before.
fn scans(set: &Set) -> Vec<Words> {
    let mut scans = Vec::new();
    for word in WORDS {
        let (kept, sensor) = reaching(set, word);
        for request in [0, 1, 13, 15] {
            scans.extend([(kept.past_sensor, kept.past_output), (sensor, request)]);
        }
    }
    scans
}

/// Scans at each of the four words from states made by hand.
fn states(set: &Set) -> Vec<Case> {
    let state = |word: u32| {
        let (first, sensor) = reaching(set, word);
        let scans = vec![(sensor, 16), (1 << 20, 0), (sensor, 0), (sensor, 9)];
        Case::State {
            file: write(set),
            list: Some(List { first, scans }),
        }
    };
    WORDS.map(state).to_vec()
}

fn file(file: Vec<u8>, scans: Vec<Words>) -> Case {
    Case::File { file, scans }
}

/// The longest files, and files of more than 4,096 and of more than 8,192 bytes.
pub fn cases(chance: &mut Chance) -> Vec<Case> {
    let full = longest(chance, &REST, End::Safe);
    let at_rest_0 = longest(chance, &[], End::Safe);
    let mut cases = vec![file(write(&full), scans(&full))];
    cases.extend(states(&at_rest_0));
    for rest in [[].as_slice(), &[0, 1, 2, 3]] {
        let nowhere = longest(chance, rest, End::Nowhere);
        cases.push(file(write(&nowhere), Vec::new()));
        cases.extend(states(&nowhere).into_iter().take(1));
    }
    let names = nearly(chance, b"read..19");
    cases.push(Case::Names {
        file: write(&at_rest_0),
        names: [names, vec![b"read..16".to_vec(), b"output.3".to_vec()]].concat(),
    });
    cases.extend(long_ones(&full));
    cases.extend(long_ones(&at_rest_0));
    cases.extend(short_ones());
    cases
}

/// One of the longest files, with a byte more, and with a field in its end's
/// place that ends near byte 4,096 or 8,192.
fn long_ones(full: &Set) -> Vec<Case> {
    let mut more = write(full);
    more.push(5);
    let mut files = vec![more];
    for tag in [4, 5, 7] {
        for end in [TAKEN - 1, TAKEN, TAKEN + 1] {
            files.push(full_then(full, tag, end));
        }
    }
    files.push(full_then(full, 5, TAKEN + 256));
    // Cut off around byte 4,096, and where the last fields begin and end.
    let whole = write(full);
    let length = whole.len();
    for end in [
        4095,
        4096,
        4097,
        length - 78,
        length - 4,
        length - 3,
        length - 1,
    ] {
        files.push(whole[..end].to_vec());
    }
    files.into_iter().map(|f| file(f, Vec::new())).collect()
}

/// Few good fields, and one that ends near byte 4,096 or 8,192; P and more
/// bytes behind.
fn short_ones() -> Vec<Case> {
    let mut files = Vec::new();
    for end in [4097, TAKEN - 1, TAKEN, TAKEN + 1] {
        for (kept, tag) in [(0, 1), (5, 2), (13, 3), (22, 4), (22, 7), (36, 5), (36, 6)] {
            let mut file = P[..kept].to_vec();
            field_to(&mut file, tag, end);
            files.push(file);
        }
    }
    for (high, low) in [(0x1F, 0xF9), (0x1F, 0xF8)] {
        let mut file = vec![1, 0, 2, 1, 2, 2, high, low];
        file.resize(8 + 256 * usize::from(high) + usize::from(low), b'x');
        files.push(file);
    }
    for more in [4057, 8152, 8153, 8154, 9000] {
        files.push([P.as_slice(), &vec![0; more]].concat());
    }
    files.push([P.as_slice(), &[5; 9000]].concat());
    files.push(program_input());
    files.into_iter().map(|f| file(f, Vec::new())).collect()
}

#[cfg(test)]
mod tests {
    use super::*;
    use crate::answer::answer;
    use crate::program::line;
    use crate::verdict::{judge, Verdict};

    #[test]
    fn the_longest_files() {
        let word = WORDS[0];
        for (end, verdict) in [
            (End::Safe, Verdict::Accepted),
            (End::Endless, Verdict::NoEnd(word, 0)),
            (End::Nowhere, Verdict::NoVector(word)),
        ] {
            for (rest, length) in [(REST.as_slice(), LONGEST), (&[], LONGEST_AT_REST_0)] {
                let set = longest(&mut Chance::new(1), rest, end);
                let file = write(&set);
                assert_eq!(file.len(), length);
                assert_eq!(judge(&set), verdict);
                assert_eq!(load(&file), Ok(set));
            }
        }
    }

    #[test]
    fn no_file_is_longer() {
        let most = |r: usize, n: usize| {
            let literals = if r > 16 { 3 * 24 } else { 2 * 24 };
            5 + 13 * r + 11 * n + 5 + 64 * (3 + literals) + 3
        };
        let sizes = (0..=20).flat_map(|r| (1..=12.min(24 - r)).map(move |n| (r, n)));
        assert_eq!(sizes.map(|(r, n)| most(r, n)).max(), Some(LONGEST));
    }

    #[test]
    fn walks_of_the_longest_file() {
        let full = longest(&mut Chance::new(2), &REST, End::Safe);
        let lines = answer(&file(write(&full), scans(&full)));
        let last = lines.lines().last().unwrap_or("");
        assert_eq!(last.matches(" 15/15 ").count(), 4, "{last}");
        for case in states(&full) {
            assert!(answer(&case).starts_with("STATE !32 !31 15/15 "));
        }
    }

    #[test]
    fn the_program_sees_8192_bytes() {
        let file = program_input();
        assert_eq!(line(&file), "LOAD 1 5114\n");
        for size in 0..=file.len() {
            let front = load(&file[..size]).map_err(|r| (r.number, r.offset));
            let like_the_program = front == Err((1, 5114));
            assert_eq!(like_the_program, (5114..=TAKEN).contains(&size), "{size}");
        }
        assert_eq!(
            load(&file).map_err(|r| (r.number, r.offset)),
            Err((4, 5114))
        );
    }

    #[test]
    fn fields_behind_few_others() {
        let lines: Vec<String> = short_ones()[28..33]
            .iter()
            .map(|case| answer(case).lines().take(1).collect())
            .collect();
        assert_eq!(lines[..2], ["JUDGE LOAD 1 5", "JUDGE LOAD 4 5"]);
        assert!(lines[2..].iter().all(|line| line == "JUDGE LOAD 12 39"));
    }

    #[test]
    fn fields_that_end_near_byte_8192() {
        let full = longest(&mut Chance::new(3), &[], End::Safe);
        for (end, cut) in [(TAKEN - 1, 4), (TAKEN, 4), (TAKEN + 1, 1)] {
            let file = full_then(&full, 5, end);
            assert_eq!(line(&file), format!("LOAD {cut} 5109\n"));
        }
    }
}
