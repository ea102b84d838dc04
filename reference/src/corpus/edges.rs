//! Edges of sensors at power-up: sets whose constraints name a sensor and its
//! past, with scans from a start and from states made by hand, those with each
//! mark. A list is kept while it is of a sort there is too little of.

use super::counters::{counting, plain};
use super::marks::sorts;
use super::states::kept;
use crate::chance::Chance;
use crate::file::write;
use crate::machine::State;
use crate::making::{read_literals, scans, towards};
use crate::records::{Case, Kept, List, Words};
use crate::set::{Constraint, Kind, Literal, Point, Set};
use std::collections::BTreeMap;

/// Sorts of lists that both parts want.
const BOTH: &[&str] = &[
    "first sent, other if past sensors read 0",
    "first sent, other if past sensors read 1",
    "first sent, other if an index counted sensors alone",
    "first sent, other if only the first past sensor read as now",
    "first sent, other if past outputs read 1",
    "first sent behind 31, other if that set the mark",
    "first sent behind 31, other if that were the first",
    "first sent behind 32, other if that set the mark",
    "first sent behind 32, other if that were the first",
    "first sent, no rising edge, simple",
    "first sent, no rising edge, combined",
    "first sent, no falling edge, simple",
    "first sent, no falling edge, combined",
    "first sent, no edge of read point 0",
    "first sent, no edge of a later sensor",
    "first sent, no edge of a sensor behind a past point",
    "second sent, other if it read as the first",
    "mark 0, none sent",
];

/// Sorts that no list from a start of these sets, which have rest word 0, can
/// be of.
const BY_HAND: &[&str] = &[
    "first sent, other if past sensors read the state's word",
    "first sent, other if past outputs read 0",
    "first sent behind 33, other if that set the mark",
    "first sent behind 33, other if that were the first",
    "mark 0, 30 by the past sensor word",
    "mark 0, 33 that is sent if past sensors read 0",
];

/// How many lists of each sort are wanted.
const EACH: usize = 12;

/// How many of each sort are wanted still.
pub struct Wanted {
    left: BTreeMap<&'static str, usize>,
}

impl Wanted {
    pub fn new(sorts: &[&[&'static str]]) -> Wanted {
        let sorts = sorts.iter().copied().flatten();
        Wanted {
            left: sorts.map(|&sort| (sort, EACH)).collect(),
        }
    }

    /// True if a list is of a sort that is wanted; it is counted then.
    pub fn takes(&mut self, sorts: &[String]) -> bool {
        let mut taken = false;
        for sort in sorts {
            if let Some(left) = self.left.get_mut(sort.as_str()) {
                taken |= *left > 0;
                *left = left.saturating_sub(1);
            }
        }
        taken
    }

    pub fn is_done(&self) -> bool {
        self.left.values().all(|&left| left == 0)
    }
}

/// Lists from a start of accepted sets, and from states made by hand.
pub fn cases(chance: &mut Chance) -> Vec<Case> {
    let mut cases = from_starts(chance);
    cases.extend(by_hand(chance));
    cases
}

fn from_starts(chance: &mut Chance) -> Vec<Case> {
    let mut wanted = Wanted::new(&[BOTH]);
    let mut cases = Vec::new();
    while !wanted.is_done() {
        let r = chance.between(2, 7);
        let set = accepted(chance, r);
        let scans = refused_first(chance, &set);
        if wanted.takes(&sorts(&State::fresh(&set), &scans)) {
            let file = write(&set);
            cases.push(Case::File { file, scans });
        }
    }
    cases
}

/// States with mark 0, and each of them again with mark 1.
fn by_hand(chance: &mut Chance) -> Vec<Case> {
    let mut wanted = Wanted::new(&[BOTH, BY_HAND]);
    let mut cases = Vec::new();
    while !wanted.is_done() {
        let most = if chance.one_in(4) { 16 } else { 7 };
        let r = chance.between(2, most);
        let mut set = accepted(chance, r);
        if chance.one_in(2) {
            no_way_out(chance, &mut set);
        }
        let first = Kept {
            mark: 0,
            ..kept(chance, r, set.outputs.len())
        };
        let scans = refused_first(chance, &set);
        if wanted.takes(&sorts(&State::by_hand(&set, &first), &scans)) {
            for mark in [0, 1] {
                let first = Kept { mark, ..first };
                let scans = scans.clone();
                cases.push(Case::State {
                    file: write(&set),
                    list: Some(List { first, scans }),
                });
            }
        }
    }
    cases
}

/// Read points of all kinds in any order, a past sensor among them.
fn kinds(chance: &mut Chance, r: usize, n: usize) -> Vec<Kind> {
    let mut kinds: Vec<Kind> = Vec::new();
    while !kinds.iter().any(is_past_sensor) {
        kinds.clear();
        for number in 0..r {
            let sensors: Vec<usize> = (0..number).filter(|&k| kinds[k] == Kind::Sensor).collect();
            kinds.push(match chance.below(5) {
                0 => Kind::PastOutput(chance.below(n)),
                1 | 2 if !sensors.is_empty() => {
                    Kind::PastSensor(sensors[chance.below(sensors.len())])
                }
                _ => Kind::Sensor,
            });
        }
    }
    kinds
}

fn is_past_sensor(kind: &Kind) -> bool {
    matches!(kind, Kind::PastSensor(_))
}

/// A set of edges that lead to one vector: always accepted.
fn accepted(chance: &mut Chance, r: usize) -> Set {
    let n = chance.between(1, 4);
    let kinds = kinds(chance, r, n);
    let target: Vec<bool> = (0..n).map(|_| chance.one_in(2)).collect();
    let count = chance.between(1, 4);
    let constraints = (0..count)
        .map(|_| {
            let (now, steady) = (chance.one_in(2), chance.one_in(8));
            let mut literals = pair(chance, &kinds, now, now == steady);
            let other = Point::Read(chance.below(r));
            if chance.one_in(3) && literals.iter().all(|l| l.point != other) {
                literals.push(plain(other, chance.one_in(2)));
                literals.sort_by_key(|literal| literal.point);
            }
            literals.extend(towards(chance, &target));
            Constraint { literals }
        })
        .collect();
    counting(&kinds, n, constraints)
}

/// Some sensor, on or off now, and a past of it.
fn pair(chance: &mut Chance, kinds: &[Kind], now: bool, past: bool) -> Vec<Literal> {
    let pasts = kinds.iter().enumerate().filter_map(|(k, kind)| match kind {
        Kind::PastSensor(index) => Some((k, *index)),
        _ => None,
    });
    let pasts: Vec<(usize, usize)> = pasts.collect();
    let (number, index) = pasts[chance.below(pasts.len())];
    let sensor = plain(Point::Read(index), !now);
    // A past sensor has a larger number than its sensor.
    vec![sensor, plain(Point::Read(number), !past)]
}

/// Adds that an output is on as well as off, or that a request for it alone
/// leads nowhere, where some sensor is as it was.
fn no_way_out(chance: &mut Chance, set: &mut Set) {
    let kinds: Vec<Kind> = set.reads.iter().map(|point| point.kind).collect();
    let value = chance.one_in(2);
    let guard = pair(chance, &kinds, value, value);
    let outputs: &[usize] = match set.outputs.len() {
        1 => &[0],
        _ => &[0, 1],
    };
    set.constraints.extend(stuck(&guard, outputs));
}

/// Two constraints behind a guard: one output has to be on as well as off, or,
/// of two, the second flips for ever while the first is on.
pub fn stuck(guard: &[Literal], outputs: &[usize]) -> Vec<Constraint> {
    let (&flips, before) = outputs.split_last().expect("an output");
    let constraint = |negated: bool| {
        let first = before.iter().map(|&number| Literal {
            rank: 1,
            ..plain(Point::Output(number), false)
        });
        let last = plain(Point::Output(flips), negated);
        let mut literals: Vec<Literal> = guard.iter().copied().chain(first).collect();
        literals.push(last);
        literals.sort_by_key(|literal| literal.point);
        Constraint { literals }
    };
    [false, true].map(constraint).to_vec()
}

/// Adds such constraints of so many outputs by chance, behind some read literals.
pub fn add_stuck(chance: &mut Chance, set: &mut Set, count: usize) {
    let guard = read_literals(chance, set.reads.len(), 2);
    let outputs = chance.order(set.outputs.len());
    set.constraints.extend(stuck(&guard, &outputs[..count]));
}

/// A few scans, up to two of them sure to be refused and first; now and then
/// none but these.
fn refused_first(chance: &mut Chance, set: &Set) -> Vec<Words> {
    let count = match chance.below(8) {
        0 => 0,
        _ => chance.between(2, 4),
    };
    let refused = chance.below(3);
    let mut list = scans(chance, set, refused + count);
    for words in &mut list[..refused] {
        spoil(chance, set, words);
    }
    list
}

/// Adds a bit to the words of a scan by which it is refused.
pub fn spoil(chance: &mut Chance, set: &Set, words: &mut Words) {
    let (r, n) = (set.reads.len(), set.outputs.len());
    let past = (0..r).find(|&k| set.reads[k].kind != Kind::Sensor);
    match chance.below(3) {
        0 => words.0 |= 1 << r,
        1 => words.0 |= 1 << past.unwrap_or(r),
        _ => words.1 |= 1 << n,
    }
}

#[cfg(test)]
mod tests {
    use super::*;
    use crate::verdict::{judge, Verdict};

    #[test]
    fn edges_that_lead_to_one_vector_are_accepted() {
        let mut chance = Chance::new(41);
        let mut rejected = 0;
        for _ in 0..100 {
            let r = chance.between(2, 7);
            let mut set = accepted(&mut chance, r);
            assert_eq!(judge(&set), Verdict::Accepted);
            no_way_out(&mut chance, &mut set);
            rejected += usize::from(judge(&set) != Verdict::Accepted);
        }
        assert!(rejected > 50, "{rejected}");
    }
}
