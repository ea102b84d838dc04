//! States made by hand: sets with past points, accepted or not, from pasts and
//! marks that no start need have led to; and long lists of scans.

use super::counters::{counting, holding, plain, Counter};
use super::counts::MOST_SCANS;
use super::marks::{before_mark, mark_of};
use crate::answer::answer;
use crate::chance::Chance;
use crate::file::write;
use crate::making::{scans, set, Recipe};
use crate::records::{Case, Kept, List, Words};
use crate::set::{Constraint, Kind, Literal, Point, Set};
use crate::verdict::{judge, Verdict};

const SETS_EACH: usize = 80;
const SCANS_EACH: usize = 12;
const STUCK: usize = 40;
const LONG_LISTS: usize = 12;
const MOST_RAW: usize = 8;

/// Hand-made states of all recipes, of sets with no way out, and of endless
/// counters.
pub fn cases(chance: &mut Chance) -> Vec<Case> {
    let mut cases = Vec::new();
    for recipe in [
        Recipe::Loose,
        Recipe::Bent,
        Recipe::Planted,
        Recipe::Chain,
        Recipe::Clash,
    ] {
        for _ in 0..SETS_EACH {
            let set = with_pasts(chance, recipe);
            cases.push(by_hand(chance, &set, SCANS_EACH));
        }
    }
    for _ in 0..STUCK {
        let set = stuck(chance);
        cases.push(by_hand(chance, &set, SCANS_EACH));
    }
    cases.extend(endless_counters(chance));
    cases.extend(few_words());
    cases.push(longest_list(chance));
    cases
}

/// As many scans as there is room for behind a state.
fn longest_list(chance: &mut Chance) -> Case {
    let set = with_pasts(chance, Recipe::Planted);
    by_hand(chance, &set, MOST_SCANS)
}

/// A set with a past output and a past sensor among its read points.
fn with_pasts(chance: &mut Chance, recipe: Recipe) -> Set {
    loop {
        let (r, n) = (chance.between(2, 8), chance.between(1, 6));
        let m = chance.between(1, 3 * n);
        let set = set(chance, recipe, r, n.max(2), m);
        let any = |wanted: fn(&Kind) -> bool| set.reads.iter().any(|point| wanted(&point.kind));
        if any(|kind| matches!(kind, Kind::PastOutput(_)))
            && any(|kind| matches!(kind, Kind::PastSensor(_)))
        {
            return set;
        }
    }
}

/// A state of a set with pasts of any allowed value, now and then another,
/// either mark, and scans.
pub fn by_hand(chance: &mut Chance, set: &Set, count: usize) -> Case {
    let first = kept(chance, set.reads.len(), set.outputs.len());
    let scans = scans(chance, set, count);
    Case::State {
        file: write(set),
        list: Some(List { first, scans }),
    }
}

/// Past words, once in ten times out of width, and a mark.
pub fn kept(chance: &mut Chance, r: usize, n: usize) -> Kept {
    let mark = mark(&mut chance.aside());
    let sensor = chance.below(1 << r) as u32;
    let output = chance.below(1 << n) as u16;
    let (past_sensor, past_output) = match chance.below(50) {
        0 => (sensor | 1 << r, output),
        1 => (sensor | 1 << chance.between(r, 31), output),
        2 => (sensor, output | 1 << n),
        3 => (sensor, output | 1 << chance.between(n, 15)),
        4 => (sensor | 1 << 31, output | 1 << 15),
        _ => (sensor, output),
    };
    Kept {
        past_sensor,
        past_output,
        mark,
    }
}

/// No scan accepted, or one; now and then another byte, which counts as 1.
fn mark(chance: &mut Chance) -> u8 {
    match chance.below(30) {
        0 => chance.between(2, 255) as u8,
        even if even % 2 == 0 => 0,
        _ => 1,
    }
}

/// A set whose outputs, most or all of them, are held while some read points
/// have their values, where a combined constraint is true: f is 0, or small.
fn stuck(chance: &mut Chance) -> Set {
    let n = chance.between(1, 4);
    let guard: Vec<Literal> = (0..3)
        .filter(|_| chance.one_in(2))
        .map(|k| plain(Point::Read(k), k == 1))
        .collect();
    let values: Vec<bool> = (0..n).map(|_| chance.one_in(2)).collect();
    let free = if chance.one_in(3) { 1 } else { 0 };
    let mut constraints = Vec::new();
    let at = |output: usize, on: bool| Literal {
        rank: output as u8,
        ..plain(Point::Output(output), !on)
    };
    let with_guard = |literals: Vec<Literal>| Constraint {
        literals: guard.iter().copied().chain(literals).collect(),
    };
    for (output, &on) in values.iter().enumerate().skip(free) {
        constraints.push(with_guard(vec![at(output, !on)]));
    }
    constraints.push(with_guard((0..n).map(|k| at(k, values[k])).collect()));
    if free == 1 {
        // The free output has no good value either.
        constraints.push(with_guard(
            (0..n).map(|k| at(k, values[k] != (k == 0))).collect(),
        ));
    }
    let kinds = [Kind::Sensor, Kind::PastSensor(0), Kind::PastOutput(n - 1)];
    counting(&kinds, n, constraints)
}

/// Counters that go round: with all outputs, with one that can stop it, and
/// with some held. The walks take all passes that are allowed.
fn endless_counters(chance: &mut Chance) -> Vec<Case> {
    let kinds = [Kind::Sensor, Kind::PastOutput(11), Kind::PastSensor(0)];
    let mut cases = Vec::new();
    for count in [2, 3, 5, 8, 11, 12] {
        let mut counter = Counter::mixed(chance, count).turning();
        if count < 12 {
            // Output 11 off, or the past of the sensor off, stops it.
            counter = counter.guarded(&[
                plain(Point::Read(2), false),
                Literal {
                    rank: 255,
                    ..plain(Point::Output(11), false)
                },
            ]);
        }
        let mut constraints = counter.constraints(9);
        constraints.extend((count..11).map(|output| holding(output, chance.one_in(2))));
        let set = counting(&kinds, 12, constraints);
        let first = Kept {
            past_sensor: 1,
            past_output: 0x800,
            mark: mark(&mut chance.aside()),
        };
        let scans = [(1, 0x800), (1, 0xFFF), (1, 0x7FF), (0, 0x801), (1, 0)];
        cases.push(Case::State {
            file: write(&set),
            list: Some(List {
                first,
                scans: scans.to_vec(),
            }),
        });
    }
    cases
}

/// No words at all, a state alone, and a file that is refused.
fn few_words() -> Vec<Case> {
    let file = write(&counting(
        &[Kind::Sensor, Kind::PastSensor(0)],
        2,
        Vec::new(),
    ));
    let state = |file: &[u8], past_sensor: u32, past_output: u16, scans: &[Words]| {
        [0, 1].map(|mark| Case::State {
            file: file.to_vec(),
            list: Some(List {
                first: Kept {
                    past_sensor,
                    past_output,
                    mark,
                },
                scans: scans.to_vec(),
            }),
        })
    };
    let empty = |file: &[u8]| Case::State {
        file: file.to_vec(),
        list: None,
    };
    let mut cases = vec![empty(&file)];
    cases.extend(state(&file, 3, 3, &[]));
    cases.extend(state(&file, 4, 4, &[]));
    cases.extend(state(&file, u32::MAX, u16::MAX, &[(0, 0)]));
    cases.extend(state(&file, 3, 3, &[(2, 0), (0, 4), (1, 3)]));
    cases.extend(state(&file[..file.len() - 1], 3, 3, &[(1, 1)]));
    cases.push(empty(&[]));
    cases
}

/// The states made by hand that answer otherwise with the other mark, with that
/// mark: so that each of them is there twice. Of sets made by hand, which are
/// long, only some.
pub fn other_marks(cases: &[Case]) -> Vec<Case> {
    let mut others = Vec::new();
    let mut raw = 0;
    for case in cases {
        let mut other = case.clone();
        let Some(mark) = mark_of(&mut other) else {
            continue;
        };
        *mark = u8::from(*mark == 0);
        if before_mark(&answer(case)) == before_mark(&answer(&other)) {
            continue;
        }
        raw += usize::from(matches!(other, Case::Raw { .. }));
        if raw <= MOST_RAW || !matches!(other, Case::Raw { .. }) {
            others.push(other);
        }
    }
    others
}

/// Accepted sets with past points, and 100 to 600 scans from the start.
pub fn long_lists(chance: &mut Chance) -> Vec<Case> {
    let mut cases = Vec::new();
    while cases.len() < LONG_LISTS {
        let recipe = [Recipe::Planted, Recipe::Bent, Recipe::Loose][chance.below(3)];
        let set = with_pasts(chance, recipe);
        if judge(&set) != Verdict::Accepted || set.constraints.len() < 4 {
            continue;
        }
        let count = match cases.len() {
            0 => 600,
            _ => chance.between(100, 600),
        };
        cases.push(Case::File {
            file: write(&set),
            scans: scans(chance, &set, count),
        });
    }
    cases
}
