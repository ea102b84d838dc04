//! Sets made by hand, as they lie in memory, and whether one is well formed:
//! "if some file loads to it". So the set is written down as well as that can
//! be done, the file is loaded, and what was loaded is laid out and compared.
//! Whatever a file cannot say is refused by the loader or lost on the way.

use crate::file::{load, write};
use crate::records::SET_BYTES;
use crate::set::{ones, Constraint, Kind, Literal, Point, ReadPoint, Set};

/// How many places there are, and the bytes of each.
pub const READS: usize = 20;
pub const OUTPUTS: usize = 12;
pub const CONSTRAINTS: usize = 64;
pub const NAME: usize = 8;

/// Where the rest word lies, and where read point k, output k and constraint k
/// begin.
pub const REST: usize = 6;

pub fn read_at(number: usize) -> usize {
    REST + 2 + 10 * number
}

pub fn output_at(number: usize) -> usize {
    read_at(READS) + NAME * number
}

pub fn constraint_at(number: usize) -> usize {
    output_at(OUTPUTS) + 24 * number
}

/// Where the parts of a constraint begin, behind its own beginning.
pub const PLAIN_READS: usize = 0;
pub const NEGATED_READS: usize = 4;
pub const PLAIN_OUTPUTS: usize = 8;
pub const NEGATED_OUTPUTS: usize = 10;
pub const RANKS: usize = 12;

/// How the bytes of a set come through being written down and loaded.
#[derive(Clone, Debug, PartialEq, Eq)]
pub enum Form {
    WellFormed(Set),
    /// A count is larger than there are places.
    NoPlaces,
    /// The file is refused, by this number.
    Refused(u8),
    /// The file loads to another set.
    Lost,
}

/// Writes a set down, loads it and compares.
pub fn form(raw: &[u8]) -> Form {
    let Some(described) = described(raw) else {
        return Form::NoPlaces;
    };
    match load(&write(&described)) {
        Err(refusal) => Form::Refused(refusal.number),
        Ok(set) if laid_out(&set) == kept(raw) => Form::WellFormed(set),
        Ok(_) => Form::Lost,
    }
}

/// The set that lies here if it is well formed; nothing is 20, and 30 of a
/// scan.
pub fn well_formed(raw: &[u8]) -> Option<Set> {
    match form(raw) {
        Form::WellFormed(set) => Some(set),
        _ => None,
    }
}

/// The bytes with what is not kept made zero: an index beside kind 0, and a
/// kind that is none of the three, which counts as 0.
fn kept(raw: &[u8]) -> Vec<u8> {
    let mut bytes = raw.to_vec();
    for number in 0..READS {
        let at = read_at(number);
        if !matches!(bytes[at], 1 | 2) {
            bytes[at] = 0;
            bytes[at + 1] = 0;
        }
    }
    bytes
}

/// What the bytes within the counts say, good or bad, as far as vectors can
/// hold it; nothing where there are not so many places.
fn described(raw: &[u8]) -> Option<Set> {
    if raw.len() != SET_BYTES {
        return None;
    }
    let r = count(raw, 0, READS)?;
    let n = count(raw, 2, OUTPUTS)?;
    let m = count(raw, 4, CONSTRAINTS)?;
    Some(Set {
        reads: (0..r).map(|k| read_point(&raw[read_at(k)..])).collect(),
        outputs: (0..n).map(|k| name(&raw[output_at(k)..])).collect(),
        rest: ones(number(&raw[REST..REST + 2]) as u16),
        constraints: (0..m)
            .map(|k| constraint(&raw[constraint_at(k)..], r, n))
            .collect(),
    })
}

fn count(raw: &[u8], at: usize, most: usize) -> Option<usize> {
    let count = number(&raw[at..at + 2]) as usize;
    (count <= most).then_some(count)
}

/// A number, high byte first.
fn number(bytes: &[u8]) -> u32 {
    bytes
        .iter()
        .fold(0, |number, &byte| 256 * number + u32::from(byte))
}

fn read_point(raw: &[u8]) -> ReadPoint {
    let index = usize::from(raw[1]);
    let kind = match raw[0] {
        1 => Kind::PastOutput(index),
        2 => Kind::PastSensor(index),
        _ => Kind::Sensor,
    };
    ReadPoint {
        kind,
        name: name(&raw[2..]),
    }
}

/// The eight places without the zeros at their end.
fn name(raw: &[u8]) -> Vec<u8> {
    let mut name = raw[..NAME].to_vec();
    while name.last() == Some(&0) {
        name.pop();
    }
    name
}

/// The literals of a constraint at the points there are, plain before negated.
fn constraint(raw: &[u8], r: usize, n: usize) -> Constraint {
    let mut literals = Vec::new();
    let named = |at: usize, length: usize, place: usize| {
        let mask = number(&raw[at..at + length]);
        (mask >> place) % 2 == 1
    };
    for place in 0..r {
        for (negated, at) in [(false, PLAIN_READS), (true, NEGATED_READS)] {
            if named(at, 4, place) {
                literals.push(Literal {
                    point: Point::Read(place),
                    negated,
                    rank: 0,
                });
            }
        }
    }
    for place in 0..n {
        for (negated, at) in [(false, PLAIN_OUTPUTS), (true, NEGATED_OUTPUTS)] {
            if named(at, 2, place) {
                literals.push(Literal {
                    point: Point::Output(place),
                    negated,
                    rank: raw[RANKS + place],
                });
            }
        }
    }
    Constraint { literals }
}

/// A set as it lies in memory, places beyond the counts zero. It has no more
/// points and constraints than there are places, and no longer names.
pub fn laid_out(set: &Set) -> Vec<u8> {
    let mut raw = vec![0; SET_BYTES];
    let counts = [set.reads.len(), set.outputs.len(), set.constraints.len()];
    for (place, count) in counts.into_iter().enumerate() {
        raw[2 * place + 1] = count as u8;
    }
    put(&mut raw, REST, &set.rest_word().to_be_bytes());
    for (k, point) in set.reads.iter().enumerate() {
        let (kind, index) = match point.kind {
            Kind::Sensor => (0, 0),
            Kind::PastOutput(index) => (1, index),
            Kind::PastSensor(index) => (2, index),
        };
        let at = read_at(k);
        raw[at] = kind;
        raw[at + 1] = index as u8;
        put(&mut raw, at + 2, &point.name);
    }
    for (k, name) in set.outputs.iter().enumerate() {
        put(&mut raw, output_at(k), name);
    }
    for (k, constraint) in set.constraints.iter().enumerate() {
        for literal in &constraint.literals {
            put_literal(&mut raw[constraint_at(k)..], literal);
        }
    }
    raw
}

/// Overwrites the bytes from a place on.
pub fn put(raw: &mut [u8], at: usize, bytes: &[u8]) {
    raw[at..at + bytes.len()].copy_from_slice(bytes);
}

fn put_literal(raw: &mut [u8], literal: &Literal) {
    let (mask_end, place) = match (literal.point, literal.negated) {
        (Point::Read(place), false) => (NEGATED_READS, place),
        (Point::Read(place), true) => (PLAIN_OUTPUTS, place),
        (Point::Output(place), false) => (NEGATED_OUTPUTS, place),
        (Point::Output(place), true) => (RANKS, place),
    };
    raw[mask_end - 1 - place / 8] |= 1 << (place % 8);
    if literal.is_output() {
        raw[RANKS + place] = literal.rank;
    }
}

#[cfg(test)]
mod tests {
    use super::*;
    use crate::chance::Chance;
    use crate::damage::P;
    use crate::making::{set, Recipe};

    fn p() -> Vec<u8> {
        laid_out(&load(&P).expect("P loads"))
    }

    /// P with some bytes overwritten.
    fn with(at: usize, bytes: &[u8]) -> Vec<u8> {
        let mut raw = p();
        put(&mut raw, at, bytes);
        raw
    }

    #[track_caller]
    fn ill(at: usize, bytes: &[u8]) {
        assert_eq!(well_formed(&with(at, bytes)), None);
    }

    #[test]
    fn places() {
        assert_eq!(read_at(0), 8);
        assert_eq!(output_at(0), 208);
        assert_eq!(constraint_at(0), 304);
        assert_eq!(constraint_at(CONSTRAINTS), SET_BYTES);
    }

    #[test]
    fn p_in_memory() {
        let raw = p();
        assert_eq!(raw[..8], *b"\0\x01\0\x02\0\x02\0\0");
        assert_eq!(raw[8..18], *b"\0\x00007\0\0\0\0\0");
        assert_eq!(raw[208..224], *b"07\0\0\0\0\0\x007\0\0\0\0\0\0\0");
        let first = [0, 0, 0, 1, 0, 0, 0, 0, 0, 2, 0, 0];
        assert_eq!(raw[304..316], first);
        let second = [0, 0, 0, 0, 0, 0, 0, 0, 0, 1, 0, 2, 0, 1];
        assert_eq!(raw[328..342], second);
        assert!(raw[342..].iter().all(|&byte| byte == 0));
        assert_eq!(well_formed(&raw), load(&P).ok());
    }

    #[test]
    fn loaded_sets_are_well_formed() {
        let mut chance = Chance::new(23);
        for _ in 0..200 {
            let (r, n) = (chance.between(0, 12), chance.between(1, 12));
            let m = chance.between(0, 64);
            let set = set(&mut chance, Recipe::Loose, r, n, m);
            assert_eq!(well_formed(&laid_out(&set)), Some(set));
        }
    }

    #[test]
    fn counts() {
        for at in [0, 2, 4] {
            for count in [[0, 0], [0, 1], [0, 2], [0, 3], [0, 65], [1, 1], [255, 255]] {
                let good = with(at, &count) == p();
                assert_eq!(well_formed(&with(at, &count)).is_some(), good);
            }
        }
        assert_eq!(well_formed(&[0; SET_BYTES]), None);
        assert_eq!(well_formed(&[255; SET_BYTES]), None);
        assert_eq!(well_formed(&[]), None);
    }

    #[test]
    fn rest_words() {
        let rests = |bytes: &[u8]| well_formed(&with(REST, bytes)).map(|set| set.rest);
        assert_eq!(rests(&[0, 0]), Some(vec![]));
        assert_eq!(rests(&[0, 1]), Some(vec![0]));
        assert_eq!(rests(&[0, 2]), Some(vec![1]));
        assert_eq!(rests(&[0, 3]), Some(vec![0, 1]));
        // Bits beyond the outputs, alone and beside good ones.
        for place in 2..16 {
            let bit: u16 = 1 << place;
            assert_eq!(rests(&bit.to_be_bytes()), None);
            assert_eq!(rests(&(bit + 1).to_be_bytes()), None);
        }
        assert_eq!(form(&with(REST, &[0, 4])), Form::Refused(54));
    }

    #[test]
    fn rest_words_of_twelve_outputs() {
        let mut set = set(&mut Chance::new(2), Recipe::Planted, 2, 12, 3);
        set.rest = vec![3, 8];
        let mut raw = laid_out(&set);
        assert_eq!(raw[REST..REST + 2], [1, 8]);
        assert_eq!(well_formed(&raw), Some(set.clone()));
        put(&mut raw, REST, &[0x0F, 0xFF]);
        set.rest = (0..12).collect();
        assert_eq!(well_formed(&raw), Some(set));
        put(&mut raw, REST, &[0x10, 0]);
        assert_eq!(form(&raw), Form::Refused(54));
    }

    #[test]
    fn too_many_points_together() {
        let mut chance = Chance::new(1);
        for (r, n, good) in [
            (12, 12, true),
            (13, 12, false),
            (16, 9, false),
            (20, 4, true),
            (20, 5, false),
        ] {
            let set = set(&mut chance, Recipe::Planted, r, n, 4);
            assert_eq!(well_formed(&laid_out(&set)).is_some(), good);
        }
    }

    #[test]
    fn kinds_and_what_is_not_kept() {
        // The past of output 2 of 2, and of the point itself.
        ill(read_at(0), &[1, 2]);
        ill(read_at(0), &[2, 0]);
        ill(read_at(0), &[2, 1]);
        assert!(well_formed(&with(read_at(0), &[1, 1])).is_some());
        // Other kinds are sensors, and a sensor's index is not kept.
        for bytes in [[0, 1], [3, 0], [3, 9], [255, 255]] {
            assert_eq!(well_formed(&with(read_at(0), &bytes)), load(&P).ok());
            assert_eq!(well_formed(&with(read_at(1), &bytes)), load(&P).ok());
        }
        // A past point beyond the count.
        ill(read_at(1), &[1, 0]);
        ill(read_at(15), &[2, 0]);
        ill(read_at(16), &[1, 0]);
        ill(read_at(19), &[2, 0]);
    }

    #[test]
    fn names() {
        let name = read_at(0) + 2;
        ill(name, b"07\0");
        ill(name, b"\x00007");
        ill(name, b"\0\0\0");
        ill(name, b"0 7");
        ill(name, b"\x7F");
        ill(name, b"007\x007");
        ill(name + 7, b"7");
        ill(output_at(1), b"07");
        ill(output_at(2), b"x");
        ill(output_at(11) + 7, b"x");
        ill(read_at(1) + 2, b"x");
        assert!(well_formed(&with(name, b"00712345")).is_some());
    }

    #[test]
    fn constraints() {
        let at = constraint_at(0);
        // Bits beyond the counts, at both ends of each mask.
        ill(at + PLAIN_READS, &[0, 0, 0, 3]);
        ill(at + PLAIN_READS, &[0x80, 0, 0, 1]);
        ill(at + NEGATED_READS, &[0, 1, 0, 0]);
        ill(at + NEGATED_READS, &[0, 16, 0, 0]);
        ill(at + PLAIN_OUTPUTS, &[0, 6]);
        ill(at + PLAIN_OUTPUTS, &[0x80, 2]);
        ill(at + NEGATED_OUTPUTS, &[0x10, 0]);
        // Plain and negated at once.
        ill(at + NEGATED_READS, &[0, 0, 0, 1]);
        ill(at + NEGATED_OUTPUTS, &[0, 2]);
        // No output, and ranks at outputs that are not named.
        ill(at + PLAIN_OUTPUTS, &[0, 0]);
        ill(at + RANKS, &[1]);
        ill(at + RANKS + 2, &[1]);
        ill(at + RANKS + 11, &[255]);
        // Beyond the count.
        ill(constraint_at(2), &[0, 0, 0, 1]);
        ill(constraint_at(63) + RANKS + 11, &[1]);
        // A lone output's rank is kept.
        let ranked = well_formed(&with(at + RANKS + 1, &[9]));
        assert_eq!(ranked.map(|s| s.constraints[0].literals[1].rank), Some(9));
    }
}
