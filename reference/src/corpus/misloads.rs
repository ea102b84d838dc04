//! A loader and a writer that may go wrong at constraints of three-byte literals
//! in one way; no answer comes from them. A file is of a sort "other if .."
//! where such a loader answers something else, and a set where such a writer
//! writes other bytes. How many there must be at least stands beside each.

use super::wide::is_high;
use crate::damage::joined;
use crate::file::{load, put_field, write, Refusal};
use crate::set::{Constraint, Literal, Point, Set};

const NARROW: u8 = 4;
const WIDE: u8 = 7;
const REST: u8 = 6;
const END: u8 = 5;

/// What the bytes of a literal say.
#[derive(Clone, Copy)]
struct Parts {
    negated: bool,
    output: bool,
    /// True if bits are set that must be zero.
    stray: bool,
    number: u8,
    rank: u8,
}

/// Where a field without a number above 15 is told.
#[derive(Clone, Copy, PartialEq, Eq)]
enum Told {
    BeforeLiterals,
    AtEachLiteral,
    AfterLiterals,
    After11,
    Never,
}

/// How constraints are loaded.
#[derive(Clone, Copy)]
struct Way {
    /// The parts of a literal of three bytes.
    parts: fn(&[u8]) -> Parts,
    /// What tags are due, by that of the field before, if that was a
    /// constraint, and the number of read points.
    is_due: fn(u8, Option<u8>, usize) -> bool,
    /// The constraints that count, of so many of each tag, for one of this tag.
    counted: fn(u8, [usize; 2]) -> usize,
    /// The longest body of three-byte literals and what it is a multiple of.
    longest: usize,
    step: usize,
    /// The number of read points, as numbers are tested by it.
    reads: fn(usize) -> usize,
    /// True if ranks at read points are tested.
    tests_ranks: bool,
    /// Where a point stands among those that have to rise.
    place: fn(&Point) -> usize,
    /// True if each 10 of a field comes behind all its 9s.
    tens_last: bool,
    told: Told,
    /// Whether literals have a number above 15.
    is_above: fn(&[Literal]) -> bool,
    /// What is kept of the literals.
    kept: fn(&Literal) -> Option<Literal>,
}

const RIGHT: Way = Way {
    parts: |bytes| parts(bytes[0], bytes[0] % 64 != 0, bytes[1], bytes[2]),
    is_due: |tag, _, _| tag == NARROW || tag == WIDE,
    counted: |_, [narrow, wide]| narrow + wide,
    longest: 72,
    step: 3,
    reads: |r| r,
    tests_ranks: true,
    place: |point| match point {
        Point::Read(number) => *number,
        Point::Output(number) => 100 + number,
    },
    tens_last: false,
    told: Told::AfterLiterals,
    is_above: |literals| literals.iter().any(is_high),
    kept: |literal| Some(*literal),
};

fn parts(marks: u8, stray: bool, number: u8, rank: u8) -> Parts {
    Parts {
        negated: marks >= 0x80,
        output: marks % 0x80 >= 0x40,
        stray,
        number,
        rank,
    }
}

/// The parts of a literal of two bytes, which every way reads alike.
fn narrow_parts(bytes: &[u8]) -> Parts {
    let first = bytes[0];
    parts(first, first % 64 >= 16, first % 16, bytes[1])
}

/// Wrong ways to load, and how many files must show each.
const LOADS: &[(&str, usize, Way)] = &[
    (
        "numbers were taken modulo 16",
        922,
        Way {
            parts: |bytes| parts(bytes[0], bytes[0] % 64 != 0, bytes[1] % 16, bytes[2]),
            ..RIGHT
        },
    ),
    (
        "numbers were taken modulo 32",
        171,
        Way {
            parts: |bytes| parts(bytes[0], bytes[0] % 64 != 0, bytes[1] % 32, bytes[2]),
            ..RIGHT
        },
    ),
    (
        "numbers were taken modulo 64",
        65,
        Way {
            parts: |bytes| parts(bytes[0], bytes[0] % 64 != 0, bytes[1] % 64, bytes[2]),
            ..RIGHT
        },
    ),
    (
        "numbers stood in the first byte",
        1065,
        Way {
            parts: |bytes| parts(bytes[0], bytes[0] % 64 >= 32, bytes[0] % 32, bytes[2]),
            ..RIGHT
        },
    ),
    (
        "bits 7 and 6 were exchanged",
        660,
        Way {
            parts: |bytes| Parts {
                negated: bytes[0] % 0x80 >= 0x40,
                output: bytes[0] >= 0x80,
                ..parts(bytes[0], bytes[0] % 64 != 0, bytes[1], bytes[2])
            },
            ..RIGHT
        },
    ),
    (
        "bit 7 were not read",
        332,
        Way {
            parts: |bytes| Parts {
                negated: false,
                ..parts(bytes[0], bytes[0] % 64 != 0, bytes[1], bytes[2])
            },
            ..RIGHT
        },
    ),
    (
        "bits 5 to 0 were not tested",
        204,
        Way {
            parts: |bytes| parts(bytes[0], false, bytes[1], bytes[2]),
            ..RIGHT
        },
    ),
    (
        "bits 5 and 4 alone were tested",
        82,
        Way {
            parts: |bytes| parts(bytes[0], bytes[0] % 64 >= 16, bytes[1], bytes[2]),
            ..RIGHT
        },
    ),
    (
        "bits 3 to 0 alone were tested",
        42,
        Way {
            parts: |bytes| parts(bytes[0], bytes[0] % 16 != 0, bytes[1], bytes[2]),
            ..RIGHT
        },
    ),
    (
        "the rank were the second byte",
        719,
        Way {
            parts: |bytes| parts(bytes[0], bytes[0] % 64 != 0, bytes[1], bytes[1]),
            ..RIGHT
        },
    ),
    (
        "number and rank were exchanged",
        727,
        Way {
            parts: |bytes| parts(bytes[0], bytes[0] % 64 != 0, bytes[2], bytes[1]),
            ..RIGHT
        },
    ),
    (
        "three-byte literals were not due up to 16 read points",
        136,
        Way {
            is_due: |tag, _, r| tag == NARROW || (tag == WIDE && r > 16),
            ..RIGHT
        },
    ),
    (
        "two-byte literals were not due above 16 read points",
        438,
        Way {
            is_due: |tag, _, r| tag == WIDE || (tag == NARROW && r <= 16),
            ..RIGHT
        },
    ),
    (
        "two-byte literals were not due behind three-byte ones",
        306,
        Way {
            is_due: |tag, before, _| match tag {
                NARROW => before != Some(WIDE),
                _ => tag == WIDE,
            },
            ..RIGHT
        },
    ),
    (
        "three-byte literals were not due behind two-byte ones",
        201,
        Way {
            is_due: |tag, before, _| match tag {
                WIDE => before != Some(NARROW),
                _ => tag == NARROW,
            },
            ..RIGHT
        },
    ),
    (
        "constraints of two-byte literals alone were counted",
        19,
        Way {
            counted: |_, [narrow, _]| narrow,
            ..RIGHT
        },
    ),
    (
        "constraints of three-byte literals alone were counted",
        12,
        Way {
            counted: |_, [_, wide]| wide,
            ..RIGHT
        },
    ),
    (
        "each tag's constraints were counted by themselves",
        17,
        Way {
            counted: |tag, [narrow, wide]| if tag == WIDE { wide } else { narrow },
            ..RIGHT
        },
    ),
    (
        "three-byte literals had at most 48 bytes",
        114,
        Way {
            longest: 48,
            ..RIGHT
        },
    ),
    (
        "three-byte literals had up to 75 bytes",
        2,
        Way {
            longest: 75,
            ..RIGHT
        },
    ),
    (
        "three-byte literals had any length",
        44,
        Way { step: 1, ..RIGHT },
    ),
    (
        "numbers were good up to 19",
        74,
        Way {
            reads: |_| 20,
            ..RIGHT
        },
    ),
    (
        "numbers were good up to 15",
        618,
        Way {
            reads: |r| r.min(16),
            ..RIGHT
        },
    ),
    (
        "numbers were good up to r",
        23,
        Way {
            reads: |r| r + 1,
            ..RIGHT
        },
    ),
    (
        "ranks at read points were not tested",
        66,
        Way {
            tests_ranks: false,
            ..RIGHT
        },
    ),
    (
        "outputs stood at 16 and their number",
        489,
        Way {
            place: |point| match point {
                Point::Read(number) => *number,
                Point::Output(number) => 16 + number,
            },
            ..RIGHT
        },
    ),
    (
        "outputs stood at their number",
        708,
        Way {
            place: |point| match point {
                Point::Read(number) | Point::Output(number) => *number,
            },
            ..RIGHT
        },
    ),
    (
        "read points stood at their number modulo 16",
        410,
        Way {
            place: |point| match point {
                Point::Read(number) => number % 16,
                Point::Output(number) => 100 + number,
            },
            ..RIGHT
        },
    ),
    (
        "10 came behind all 9s of a field",
        4,
        Way {
            tens_last: true,
            ..RIGHT
        },
    ),
    (
        "59 came before the literals",
        59,
        Way {
            told: Told::BeforeLiterals,
            ..RIGHT
        },
    ),
    (
        "59 came at each literal that has no number above 15",
        729,
        Way {
            told: Told::AtEachLiteral,
            ..RIGHT
        },
    ),
    (
        "59 came behind 11",
        15,
        Way {
            told: Told::After11,
            ..RIGHT
        },
    ),
    (
        "59 were never told",
        125,
        Way {
            told: Told::Never,
            ..RIGHT
        },
    ),
    (
        "numbers from 15 on counted as above",
        15,
        Way {
            is_above: |literals| literals.iter().any(|l| is_from(l, 15)),
            ..RIGHT
        },
    ),
    (
        "numbers from 17 on counted as above",
        315,
        Way {
            is_above: |literals| literals.iter().any(|l| is_from(l, 17)),
            ..RIGHT
        },
    ),
    (
        "the first number alone could be above",
        363,
        Way {
            is_above: |literals| literals.first().is_some_and(is_high),
            ..RIGHT
        },
    ),
    (
        "the last number alone could be above",
        551,
        Way {
            is_above: |literals| literals.last().is_some_and(is_high),
            ..RIGHT
        },
    ),
    (
        "plain numbers alone could be above",
        320,
        Way {
            is_above: |literals| literals.iter().any(|l| is_high(l) && !l.negated),
            ..RIGHT
        },
    ),
    (
        "read points above 15 were dropped",
        354,
        Way {
            kept: |literal| (!is_high(literal)).then_some(*literal),
            ..RIGHT
        },
    ),
    (
        "read points above 15 were kept modulo 16",
        354,
        Way {
            kept: |literal| {
                let point = match literal.point {
                    Point::Read(number) => Point::Read(number % 16),
                    output => output,
                };
                Some(Literal { point, ..*literal })
            },
            ..RIGHT
        },
    ),
];

fn is_from(literal: &Literal, from: usize) -> bool {
    matches!(literal.point, Point::Read(number) if number >= from)
}

/// A field of a file: its offset, tag and body.
type Field<'a> = (usize, u8, &'a [u8]);

fn field_at(file: &[u8], offset: usize) -> Option<Field<'_>> {
    let [tag, high, low, after @ ..] = file.get(offset..)? else {
        return None;
    };
    let length = 256 * usize::from(*high) + usize::from(*low);
    Some((offset, *tag, after.get(..length)?))
}

/// What is loaded before the constraints of a file, and where these begin; or
/// nothing if the file is refused before.
fn points(file: &[u8]) -> Option<(Set, usize)> {
    let &[_, _, _, r, n, ..] = file else {
        return None;
    };
    let mut at = 0;
    for _ in 0..1 + usize::from(r) + usize::from(n) {
        at += 3 + field_at(file, at)?.2.len();
    }
    if let Some((_, REST, body)) = field_at(file, at) {
        at += 3 + body.len();
    }
    let front = [&file[..at], &joined(&[(END, &[])])].concat();
    load(&front).ok().map(|set| (set, at))
}

/// Loads the constraints of a file behind what is loaded before, the wrong way.
fn constraints(file: &[u8], mut set: Set, mut at: usize, way: &Way) -> Result<Set, Refusal> {
    let mut before = None;
    let mut counts = [0, 0];
    loop {
        let refuse = |number| Refusal { number, offset: at };
        let (_, tag, body) = field_at(file, at).ok_or(refuse(1))?;
        let end = at + 3 + body.len();
        if tag == END {
            return match (body, file.get(end)) {
                ([], None) => Ok(set),
                ([], Some(_)) => Err(Refusal {
                    number: 12,
                    offset: end,
                }),
                _ => Err(refuse(4)),
            };
        }
        if !(way.is_due)(tag, before, set.reads.len()) {
            return Err(refuse(2));
        }
        if (way.counted)(tag, counts) >= 64 {
            return Err(refuse(3));
        }
        let constraint = constraint(tag, body, &set, way).map_err(refuse)?;
        set.constraints.push(constraint);
        counts[usize::from(tag == WIDE)] += 1;
        before = Some(tag);
        at = end;
    }
}

/// A constraint, or the number by which it is refused.
fn constraint(tag: u8, body: &[u8], set: &Set, way: &Way) -> Result<Constraint, u8> {
    let is_wide = tag == WIDE;
    let (size, longest, step) = match is_wide {
        true => (3, way.longest, way.step),
        false => (2, 48, 2),
    };
    if !(size..=longest).contains(&body.len()) || !body.len().is_multiple_of(step) {
        return Err(4);
    }
    let parts = |bytes: &[u8]| match is_wide {
        true => (way.parts)(bytes),
        false => narrow_parts(bytes),
    };
    let parts: Vec<Parts> = body.chunks_exact(size).map(parts).collect();
    if is_wide && way.told == Told::BeforeLiterals && !parts.iter().any(|p| p.number > 15) {
        return Err(59);
    }
    let literals = literals(&parts, set, way, is_wide)?;
    let is_told = is_wide && !(way.is_above)(&literals);
    let has_output = literals.iter().any(Literal::is_output);
    match way.told {
        Told::AfterLiterals if is_told => return Err(59),
        _ if !has_output => return Err(11),
        Told::After11 if is_told => return Err(59),
        _ => {}
    }
    let literals = literals.iter().filter_map(way.kept).collect();
    Ok(Constraint { literals })
}

/// The literals, or the number by which one of them is refused.
fn literals(parts: &[Parts], set: &Set, way: &Way, is_wide: bool) -> Result<Vec<Literal>, u8> {
    let mut literals: Vec<Literal> = Vec::new();
    let mut rise = true;
    for part in parts {
        let literal = literal(part, set, way, is_wide).ok_or(9)?;
        let last = literals.last().map(|last| (way.place)(&last.point));
        rise &= last.is_none_or(|last| last < (way.place)(&literal.point));
        if !rise && !way.tens_last {
            return Err(10);
        }
        if is_wide && way.told == Told::AtEachLiteral && part.number < 16 {
            return Err(59);
        }
        literals.push(literal);
    }
    if rise {
        Ok(literals)
    } else {
        Err(10)
    }
}

fn literal(part: &Parts, set: &Set, way: &Way, is_wide: bool) -> Option<Literal> {
    let number = usize::from(part.number);
    let reads = match is_wide {
        true => (way.reads)(set.reads.len()),
        false => set.reads.len(),
    };
    let tests_rank = way.tests_ranks || !is_wide;
    let point = match part.output {
        true if number < set.outputs.len() => Point::Output(number),
        false if number < reads && !(tests_rank && part.rank != 0) => Point::Read(number),
        _ => return None,
    };
    (!part.stray).then_some(Literal {
        point,
        negated: part.negated,
        rank: part.rank,
    })
}

/// The model's answer to a file where nothing goes wrong, if it gets to its
/// constraints.
pub fn loaded_rightly(file: &[u8]) -> Option<Result<Set, Refusal>> {
    let (set, at) = points(file)?;
    Some(constraints(file, set, at, &RIGHT))
}

/// What a file counts as: the wrong loaders that answer something else, and the
/// refusal of a field of three-byte literals.
pub fn of_file(file: &[u8]) -> Vec<String> {
    let right = load(file);
    let mut sorts = Vec::new();
    if let Some((set, at)) = points(file) {
        let other = |way: &Way| constraints(file, set.clone(), at, way) != right;
        let wrong = LOADS.iter().filter(|(_, _, way)| other(way));
        sorts.extend(wrong.map(|(name, ..)| by_loading(name)));
    }
    if let Err(Refusal { number, offset }) = right {
        if file.get(offset) == Some(&WIDE) {
            sorts.push(format!("{number} at three-byte literals"));
        }
    }
    sorts
}

/// A writer that may go wrong.
type Writer = fn(&Set) -> Vec<u8>;

/// Wrong ways to write, and how many sets must show each.
const WRITES: &[(&str, usize, Writer)] = &[
    ("three bytes were taken from number 15 on", 69, |set| {
        written(set, |literals| literals.iter().any(|l| is_from(l, 15)))
    }),
    ("three bytes were taken from number 17 on", 189, |set| {
        written(set, |literals| literals.iter().any(|l| is_from(l, 17)))
    }),
    ("three bytes were taken everywhere", 282, |set| {
        written(set, |_| true)
    }),
    ("three bytes were taken nowhere", 354, |set| {
        written(set, |_| false)
    }),
    ("three bytes were taken above 16 read points", 281, |set| {
        let is_wide = set.reads.len() > 16;
        written(set, |_| is_wide)
    }),
    ("three bytes were taken by the first literal", 211, |set| {
        written(set, |literals| literals.first().is_some_and(is_high))
    }),
    ("three bytes were taken by plain literals", 183, |set| {
        written(set, |literals| {
            literals.iter().any(|l| is_high(l) && !l.negated)
        })
    }),
    ("two-byte literals came first", 216, |set| {
        let mut sorted = set.clone();
        let is_wide = |constraint: &Constraint| constraint.literals.iter().any(is_high);
        sorted.constraints.sort_by_key(is_wide);
        write(&sorted)
    }),
];

/// The file of a set whose constraints have three-byte literals by another rule.
fn written(set: &Set, is_wide: impl Fn(&[Literal]) -> bool) -> Vec<u8> {
    let bare = Set {
        constraints: Vec::new(),
        ..set.clone()
    };
    let mut file = write(&bare);
    file.truncate(file.len() - 3);
    for Constraint { literals } in &set.constraints {
        let is_wide = is_wide(literals);
        let body: Vec<u8> = literals.iter().flat_map(|l| bytes(l, is_wide)).collect();
        put_field(&mut file, if is_wide { WIDE } else { NARROW }, &body);
    }
    put_field(&mut file, END, &[]);
    file
}

fn bytes(literal: &Literal, is_wide: bool) -> Vec<u8> {
    let (mark, number) = match literal.point {
        Point::Read(number) => (0, number as u8),
        Point::Output(number) => (0x40, number as u8),
    };
    let mark = mark + if literal.negated { 0x80 } else { 0 };
    match is_wide {
        true => vec![mark, number, literal.rank],
        false => vec![mark + number % 16, literal.rank],
    }
}

/// What a set counts as by the wrong writers that write something else.
pub fn of_set(set: &Set) -> Vec<String> {
    let right = write(set);
    let wrong = WRITES.iter().filter(|(_, _, write)| write(set) != right);
    wrong.map(|(name, ..)| by_writing(name)).collect()
}

fn by_loading(name: &str) -> String {
    format!("loading, other if {name}")
}

fn by_writing(name: &str) -> String {
    format!("writing, other if {name}")
}

/// Where a field of three-byte literals must be refused, and how many files at
/// least.
const REFUSALS: &[(u8, usize)] = &[
    (1, 24),
    (2, 17),
    (3, 17),
    (4, 70),
    (9, 804),
    (10, 96),
    (11, 12),
    (59, 125),
];

/// All that a corpus must have of files, and how many at least.
pub fn needed() -> Vec<(String, usize)> {
    let loads = LOADS
        .iter()
        .map(|(name, least, _)| (by_loading(name), *least));
    let writes = WRITES
        .iter()
        .map(|(name, least, _)| (by_writing(name), *least));
    let refusals = REFUSALS
        .iter()
        .map(|(number, least)| (format!("{number} at three-byte literals"), *least));
    loads
        .chain(writes)
        .chain(refusals)
        .map(|(sort, least)| (format!("F {sort}"), least))
        .collect()
}
