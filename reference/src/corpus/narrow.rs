//! What a set, a list of scans, a set in memory or buffers would show of an
//! implementation that has room for 16 read points alone in some step: words are
//! taken modulo 65,536, or read points above 15 are missed. `misloads` has files.

use super::marks::{turns, Turn};
use super::wide::{all_sizes, is_high, without_high, NARROW};
use crate::machine::{scan, ScanRefusal, State};
use crate::program::judged;
use crate::raw::{constraint_at, read_at, well_formed, CONSTRAINTS, PLAIN_OUTPUTS, READS};
use crate::records::Words;
use crate::set::{Constraint, Kind, Literal, Point, Set};
use crate::verdict::{judge, Verdict};

/// One more than the highest word of 16 read points.
const WORDS: u32 = 1 << NARROW;

/// The most read points that there can be.
const MOST: usize = 20;

/// How many sets must show a wrong verdict at least: accepted ones, those of 22,
/// of 23 and of 58.
type Leasts = [usize; 4];
const GROUPS: [&str; 4] = ["0 told", "22 told", "23 told", "58 told"];

/// A verdict that may go wrong.
type Judge = fn(&Set) -> Verdict;

/// Wrong verdicts on sets of more than 16 read points.
const VERDICTS: &[(&str, Leasts, Judge)] = &[
    (
        "words above 65,535 were not tried",
        [0, 26, 16, 22],
        |set| judge(&below(set, 16)),
    ),
    (
        "words from 131,072 on were not tried",
        [0, 11, 6, 11],
        |set| judge(&below(set, 17)),
    ),
    (
        "words from 262,144 on were not tried",
        [0, 6, 3, 5],
        |set| judge(&below(set, 18)),
    ),
    (
        "words from 524,288 on were not tried",
        [0, 3, 1, 2],
        |set| judge(&below(set, 19)),
    ),
    ("the word were told modulo 65,536", [0, 26, 16, 22], |set| {
        told_as(judge(set), |word| word % WORDS)
    }),
    ("the word were told modulo 2^19", [0, 3, 1, 2], |set| {
        told_as(judge(set), |word| word % (1 << 19))
    }),
    (
        "read points above 15 were tried first",
        [0, 5, 4, 5],
        |set| told_as(judge(&turned(set)), |word| turned_back(set, word)),
    ),
    (
        "read points above 15 were left out",
        [18, 33, 21, 28],
        |set| {
            judge(&changed(set, |_, constraint| {
                Some(without_high(constraint))
            }))
        },
    ),
    (
        "the highest read point were left out",
        [13, 23, 13, 19],
        |set| {
            judge(&without(
                set,
                |_| true,
                |set, number| number + 1 == set.reads.len(),
            ))
        },
    ),
    (
        "plain read points above 15 were left out",
        [18, 33, 21, 28],
        |set| judge(&without(set, |literal| !literal.negated, |_, _| true)),
    ),
    (
        "negated read points above 15 were left out",
        [18, 3, 3, 3],
        |set| judge(&without(set, |literal| literal.negated, |_, _| true)),
    ),
    (
        "constraints with a read point above 15 were left out",
        [0, 37, 23, 92],
        |set| {
            let is_low = |constraint: &Constraint| !constraint.literals.iter().any(is_high);
            judge(&changed(set, |_, constraint| {
                is_low(constraint).then(|| constraint.clone())
            }))
        },
    ),
    ("read points were taken modulo 16", [0, 34, 21, 32], |set| {
        judge(&changed(set, |_, constraint| Some(folded(constraint))))
    }),
];

/// The set with its constraints changed, or dropped where there is nothing.
fn changed(set: &Set, change: impl Fn(&Set, &Constraint) -> Option<Constraint>) -> Set {
    let constraints = set.constraints.iter();
    Set {
        constraints: constraints.filter_map(|c| change(set, c)).collect(),
        ..set.clone()
    }
}

/// The set without literals above 15 that are so and whose number is so.
fn without(set: &Set, is_so: fn(&Literal) -> bool, goes: fn(&Set, usize) -> bool) -> Set {
    let leaves = |literal: &&Literal| match literal.point {
        Point::Read(number) if number >= NARROW => !(is_so(literal) && goes(set, number)),
        _ => true,
    };
    changed(set, |_, constraint| {
        let literals = constraint.literals.iter().filter(leaves);
        Some(Constraint {
            literals: literals.copied().collect(),
        })
    })
}

/// The set as it is where the read points from a number on are off.
fn below(set: &Set, number: usize) -> Set {
    let is_low = |literal: &&Literal| literal.point < Point::Read(number) || literal.is_output();
    changed(set, |_, constraint| {
        let mut high = constraint.literals.iter().filter(|l| !is_low(l));
        let literals = constraint.literals.iter().filter(is_low);
        high.all(|literal| literal.negated).then(|| Constraint {
            literals: literals.copied().collect(),
        })
    })
}

/// A constraint with the numbers of its read points modulo 16.
fn folded(constraint: &Constraint) -> Constraint {
    moved(constraint, |number| number % NARROW)
}

/// A constraint with other numbers of its read points.
fn moved(constraint: &Constraint, to: impl Fn(usize) -> usize) -> Constraint {
    let literal = |literal: &Literal| Literal {
        point: match literal.point {
            Point::Read(number) => Point::Read(to(number)),
            output => output,
        },
        ..*literal
    };
    Constraint {
        literals: constraint.literals.iter().map(literal).collect(),
    }
}

/// The set with its read points above 15 below all others.
fn turned(set: &Set) -> Set {
    let high = set.reads.len() - NARROW;
    let to = |number: usize| match number.checked_sub(NARROW) {
        Some(above) => above,
        None => number + high,
    };
    changed(set, |_, constraint| Some(moved(constraint, to)))
}

/// A word of that set as one of the set.
fn turned_back(set: &Set, word: u32) -> u32 {
    let high = set.reads.len() - NARROW;
    (word >> high) + ((word % (1 << high)) << NARROW)
}

fn told_as(verdict: Verdict, told: impl Fn(u32) -> u32) -> Verdict {
    match verdict {
        Verdict::Accepted => Verdict::Accepted,
        Verdict::NoVector(word) => Verdict::NoVector(told(word)),
        Verdict::Clash(word, output) => Verdict::Clash(told(word), output),
        Verdict::NoEnd(word, request) => Verdict::NoEnd(told(word), request),
    }
}

fn group(verdict: Verdict) -> &'static str {
    match verdict {
        Verdict::Accepted => GROUPS[0],
        Verdict::NoVector(_) => GROUPS[1],
        Verdict::NoEnd(..) => GROUPS[2],
        Verdict::Clash(..) => GROUPS[3],
    }
}

/// What a set counts as: its size, its verdict, and the wrong verdicts that tell
/// something else of it.
pub fn of_set(set: &Set) -> Vec<String> {
    if set.reads.len() <= NARROW {
        return Vec::new();
    }
    let right = judge(set);
    let group = group(right);
    let (r, n, m) = (set.reads.len(), set.outputs.len(), set.constraints.len());
    let mut sorts = vec![
        format!("wide, {group}"),
        format!("wide, {group}, r {r}"),
        format!("wide, r {r}, n {n}"),
    ];
    if right == Verdict::Accepted {
        sorts.push(format!("wide, {group}, {}", how_many(m)));
    }
    let wrong = VERDICTS.iter().filter(|(_, _, tell)| tell(set) != right);
    sorts.extend(wrong.map(|(name, ..)| format!("wide, {group}, other if {name}")));
    sorts
}

fn how_many(m: usize) -> &'static str {
    match m {
        0 => "no constraints",
        1..=9 => "few constraints",
        10..=63 => "many constraints",
        _ => "64 constraints",
    }
}

/// Whether a scan that goes wrong answers something else.
type IsOther = fn(&Turn) -> bool;

/// Wrong scans, and how many lists must show each: of files and from states made
/// by hand.
const SCANS: &[(&str, [usize; 2], IsOther)] = &[
    (
        "the sensor word were taken modulo 65,536",
        [75, 182],
        |turn| {
            let (sensor, request) = turn.words;
            let mut state = turn.before.clone();
            scan(&mut state, sensor % WORDS, request) != turn.answer
        },
    ),
    ("31 tested 16 bits", [40, 84], |turn| {
        turn.answer.is_ok() && turn.words.0 >= WORDS
    }),
    ("31 tested 20 bits in every set", [58, 49], |turn| {
        let r = turn.before.set.reads.len();
        turn.answer == Err(ScanRefusal::SensorWord) && (1 << r..1 << MOST).contains(&turn.words.0)
    }),
    ("31 tested no past point above 15", [16, 41], |turn| {
        let (sensor, request) = turn.words;
        let sensor = sensor & !high_pasts(&turn.before.set);
        let mut state = turn.before.clone();
        turn.answer == Err(ScanRefusal::SensorWord)
            && scan(&mut state, sensor, request) != turn.answer
    }),
    (
        "the past sensor word were kept modulo 65,536",
        [15, 36],
        |turn| turn.other(|state| state.past_sensor %= WORDS),
    ),
    ("30 tested 16 bits", [40, 108], |turn| {
        turn.answer.is_ok() && turn.before.past_sensor >= WORDS
    }),
    ("30 tested 20 bits in every set", [0, 12], |turn| {
        let r = turn.before.set.reads.len();
        let past_sensor = turn.before.past_sensor;
        turn.answer == Err(ScanRefusal::Past) && (1 << r..1 << MOST).contains(&past_sensor)
    }),
    ("past outputs above 15 read 0", [22, 39], |turn| {
        turn.other(|state| unfilled(state, |kind| matches!(kind, Kind::PastOutput(_))))
    }),
    ("past sensors above 15 read 0", [34, 64], |turn| {
        turn.other(|state| unfilled(state, |kind| matches!(kind, Kind::PastSensor(_))))
    }),
    (
        "pasts of sensors above 15 were read modulo 16",
        [15, 12],
        |turn| {
            turn.other(|state| {
                for point in &mut state.set.reads {
                    if let Kind::PastSensor(index) = point.kind {
                        point.kind = Kind::PastSensor(index % NARROW);
                    }
                }
            })
        },
    ),
    ("read points above 15 read 0", [65, 88], |turn| {
        turn.other(|state| state.set = below(&state.set, NARROW))
    }),
    ("read points above 15 were left out", [63, 84], |turn| {
        turn.other(|state| state.set = changed(&state.set, |_, c| Some(without_high(c))))
    }),
    ("read points were taken modulo 16", [69, 92], |turn| {
        turn.other(|state| state.set = changed(&state.set, |_, c| Some(folded(c))))
    }),
];

/// The word of all past points above 15.
fn high_pasts(set: &Set) -> u32 {
    let reads = set.reads.iter().enumerate().skip(NARROW);
    reads
        .filter(|(_, point)| point.kind != Kind::Sensor)
        .map(|(number, _)| 1 << number)
        .sum()
}

/// Lets past points above 15 of a sort read 0, as sensors do that are off.
fn unfilled(state: &mut State, is_of: fn(&Kind) -> bool) {
    for point in state.set.reads.iter_mut().skip(NARROW) {
        if is_of(&point.kind) {
            point.kind = Kind::Sensor;
        }
    }
}

/// What a list of scans from a state counts as, each sort once.
pub fn of_list(first: &State, scans: &[Words]) -> Vec<String> {
    if first.set.reads.len() <= NARROW {
        return Vec::new();
    }
    let turns = turns(first, scans);
    let wrong = SCANS
        .iter()
        .filter(|(_, _, is_other)| turns.iter().any(is_other));
    wrong
        .map(|(name, ..)| format!("wide scans, other if {name}"))
        .collect()
}

/// Makes what is not looked at of a set in memory zero, or good.
type Look = fn(&mut [u8]);

/// Wrong ways to look at a set in memory, and how many must show each.
const FORMS: &[(&str, usize, Look)] = &[
    (
        "places of read points above 15 were not looked at",
        48,
        |raw| {
            raw[read_at(NARROW)..read_at(READS)].fill(0);
        },
    ),
    ("names above 15 were not looked at", 27, |raw| {
        for place in NARROW..usize::from(raw[1]).min(READS) {
            let name = [b'~', b'0' + place as u8, b'~', b'~', 0, 0, 0, 0];
            raw[read_at(place) + 2..][..8].copy_from_slice(&name);
        }
    }),
    ("kinds above 15 were not looked at", 72, |raw| {
        for place in NARROW..READS {
            raw[read_at(place)] = 0;
        }
    }),
    ("masks were taken modulo 65,536", 92, |raw| {
        masked(raw, |bit| bit < NARROW)
    }),
    ("masks were taken modulo 2^20", 46, |raw| {
        masked(raw, |bit| bit < MOST)
    }),
    ("masks were not looked at from r to bit 19", 36, |raw| {
        let r = usize::from(raw[1]);
        masked(raw, |bit| bit < r || bit >= MOST);
    }),
    ("masks were not looked at both ways above 15", 9, |raw| {
        for place in 0..CONSTRAINTS {
            let at = constraint_at(place);
            for byte in 0..2 {
                raw[at + PLAIN_OUTPUTS - 4 + byte] &= !raw[at + byte];
            }
        }
    }),
];

/// Leaves these bits of all masks of read points alone.
fn masked(raw: &mut [u8], stays: impl Fn(usize) -> bool) {
    for place in 0..CONSTRAINTS {
        for mask in [0, 4] {
            let at = constraint_at(place) + mask;
            for bit in (0..32).filter(|&bit| !stays(bit)) {
                raw[at + 3 - bit / 8] &= !(1 << (bit % 8));
            }
        }
    }
}

/// What a set in memory counts as.
pub fn of_memory(raw: &[u8]) -> Vec<String> {
    if let Some(set) = well_formed(raw) {
        let is_wide = set.reads.len() > NARROW;
        return is_wide
            .then(|| String::from("wide sets, well formed"))
            .into_iter()
            .collect();
    }
    let good = |look: &Look| {
        let mut raw = raw.to_vec();
        look(&mut raw);
        well_formed(&raw).is_some()
    };
    let wrong = FORMS.iter().filter(|(_, _, look)| good(look));
    wrong
        .map(|(name, ..)| format!("wide sets, good if {name}"))
        .collect()
}

/// The lengths of lines that tell a word of six or seven digits: of `CLASH`,
/// `NOVECTOR` and `NOEND`.
const LINES: &[(&str, usize)] = &[
    ("CLASH", 15),
    ("CLASH", 16),
    ("NOVECTOR", 16),
    ("NOVECTOR", 17),
    ("NOEND", 15),
    ("NOEND", 16),
];

/// What buffers count as where a word above 65,535 is told: the line put into
/// one that is just as long, and one that is a byte too short.
pub fn of_sizes(set: &Set, sizes: &[u16]) -> Vec<String> {
    let verdict = judge(set);
    let line = judged(set, verdict);
    let is_high = match verdict {
        Verdict::Accepted => false,
        Verdict::NoVector(word) | Verdict::Clash(word, _) | Verdict::NoEnd(word, _) => {
            word >= WORDS
        }
    };
    let first = line.split(' ').next().unwrap_or("");
    let mut sorts = Vec::new();
    for (size, sort) in [(line.len(), " put"), (line.len() - 1, ", one less")] {
        if is_high && sizes.contains(&(size as u16)) {
            sorts.push(format!("wide {first} line of {} bytes{sort}", line.len()));
        }
    }
    sorts
}

/// What the items of names count as: read points above 15 that are found.
pub fn of_items(line: &str) -> Vec<String> {
    let items = line.split(' ').filter_map(|item| item.strip_prefix('R'));
    let numbers = items.filter_map(|item| item.parse::<usize>().ok());
    numbers
        .filter(|&number| number >= NARROW)
        .map(|number| format!("R{number} found"))
        .collect()
}

/// All that a corpus must have, and how many at least.
pub fn needed() -> Vec<(String, usize)> {
    let mut needed = Vec::new();
    for (name, leasts, _) in VERDICTS {
        for (group, least) in GROUPS.iter().zip(leasts) {
            needed.push((format!("F wide, {group}, other if {name}"), *least));
        }
    }
    for (name, leasts, _) in SCANS {
        for (kind, least) in ["F", "S"].iter().zip(leasts) {
            needed.push((format!("{kind} wide scans, other if {name}"), *least));
        }
    }
    for (name, least, _) in FORMS {
        needed.push((format!("R wide sets, good if {name}"), *least));
    }
    for (first, length) in LINES {
        for sort in [" put", ", one less"] {
            needed.push((format!("B wide {first} line of {length} bytes{sort}"), 1));
        }
    }
    needed.extend(needed_by_size());
    needed.push((String::from("R wide sets, well formed"), 60));
    needed.retain(|(_, least)| *least > 0);
    needed
}

/// How many sets there must be by their sizes and verdicts, and read points above
/// 15 that are found by name.
fn needed_by_size() -> Vec<(String, usize)> {
    let mut needed = Vec::new();
    for (r, n) in all_sizes() {
        needed.push((format!("F wide, r {r}, n {n}"), 2));
    }
    for r in NARROW + 1..=MOST {
        let leasts = [8, 5, 2, 5];
        for (group, least) in GROUPS.iter().zip(leasts) {
            needed.push((format!("F wide, {group}, r {r}"), least));
        }
        needed.push((format!("F R{} found", r - 1), 15));
        needed.push((format!("N R{} found", r - 1), 2));
    }
    for (many, least) in [
        ("no constraints", 3),
        ("few constraints", 40),
        ("many constraints", 4),
        ("64 constraints", 2),
    ] {
        needed.push((format!("F wide, 0 told, {many}"), least));
    }
    needed
}
