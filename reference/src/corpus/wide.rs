//! Sets with 17 to 20 read points in every kind of case: accepted ones with
//! scans, such that fail at words above 65,535, states made by hand, names and
//! buffers. `wide_files` has their files, `wide_memory` how they lie in memory.
//!
//! A verdict on such a set goes through up to 1,048,576 words. So most of them
//! have few constraints, or fail early, or have 17 read points; `cost` tells how
//! much there is to go through.

use super::active::{alone, constraint, on, Trouble};
use super::clashes::{Lot, Plan};
use super::counters::plain;
use super::fronts::{self, reaching};
use super::names::names;
use super::order::{at, endless, leading, Guard};
use super::rests::rest;
use super::sizes::around;
use super::{wide_files, wide_memory};
use crate::by_hand;
use crate::chance::Chance;
use crate::file::write;
use crate::machine::{taken, State};
use crate::making::{self, points, scans, Recipe};
use crate::program::line;
use crate::records::{Case, Kept, List, Words};
use crate::set::{word, Constraint, Kind, Literal, Point, Set};
use crate::text::text;
use crate::verdict::{judge, scratch_bytes, Verdict};

const SCANS_EACH: usize = 40;
const SHORT_LIST: usize = 14;
const STATES_EACH: usize = 24;

/// The read points that a literal of two bytes has room for.
pub const NARROW: usize = 16;

/// The paper's cases, sets with scans, words that fail, states, names, buffers,
/// sets in memory, files and long files.
pub fn cases(chance: &mut Chance) -> Vec<Case> {
    let mut cases = by_hand::twenty();
    let mut sets = each_size(chance);
    sets.extend(with_pasts(chance));
    sets.extend(with_edges(chance));
    sets.extend(of_many_constraints(chance));
    sets.extend(apart(chance));
    sets.extend(failing(chance));
    sets.extend(by_highest_alone(chance));
    sets.extend(twins(chance));
    sets.extend(two_words(chance));
    sets.extend(apart_and_failing(chance));
    for set in sets {
        cases.push(with_scans(chance, &set));
    }
    cases.extend(with_states(chance));
    cases.extend(at_words(chance));
    cases.extend(with_names(chance));
    cases.extend(with_buffers(chance));
    cases.extend(wide_memory::cases(chance));
    cases.extend(wide_files::cases(chance));
    cases.extend(fronts::cases(chance));
    cases
}

/// How much a verdict on a set goes through: the words that it tries, times the
/// constraints and two more.
pub fn cost(set: &Set) -> u64 {
    let all = 1 << set.reads.len();
    let words = match judge(set) {
        Verdict::Accepted => 2 * all,
        Verdict::NoVector(word) | Verdict::Clash(word, _) => u64::from(word),
        Verdict::NoEnd(word, _) => all + u64::from(word),
    };
    words * (set.constraints.len() as u64 + 2)
}

/// A file, with scans if it is accepted.
fn with_scans(chance: &mut Chance, set: &Set) -> Case {
    let scans = match judge(set) {
        Verdict::Accepted => scans(chance, set, SCANS_EACH),
        _ => Vec::new(),
    };
    Case::File {
        file: write(set),
        scans,
    }
}

/// Every number of read points above 16 with every number of outputs that it
/// leaves.
pub fn all_sizes() -> Vec<(usize, usize)> {
    (NARROW + 1..=20)
        .flat_map(|r| (1..=24 - r).map(move |n| (r, n)))
        .collect()
}

/// One to three read literals, the highest of them above 15.
pub fn high_reads(chance: &mut Chance, r: usize) -> Guard {
    let mut numbers = vec![chance.between(NARROW, r - 1)];
    for _ in 0..chance.below(3) {
        numbers.push(chance.below(r));
    }
    literals(chance, numbers)
}

/// Literals of these read points, each once and either way.
fn literals(chance: &mut Chance, mut numbers: Vec<usize>) -> Guard {
    numbers.sort();
    numbers.dedup();
    let literal = |&number: &usize| plain(Point::Read(number), chance.one_in(2));
    numbers.iter().map(literal).collect()
}

/// Points of which those above 15 are of any kind: sensors, pasts of outputs,
/// pasts of low sensors and of high ones.
pub fn high_points(chance: &mut Chance, r: usize, n: usize) -> Set {
    let mut set = points(chance, r, n);
    for number in NARROW..r {
        let is_sensor = |k: &usize| set.reads[*k].kind == Kind::Sensor;
        let sensors: Vec<usize> = (0..number).filter(is_sensor).collect();
        set.reads[number].kind = match (chance.below(4), sensors.last()) {
            (0, _) => Kind::PastOutput(chance.below(n)),
            (1, Some(&last)) => Kind::PastSensor(last),
            (2, Some(_)) if chance.one_in(2) => {
                Kind::PastSensor(sensors[chance.below(sensors.len())])
            }
            _ => Kind::Sensor,
        };
    }
    set
}

/// A set that is always accepted: so many constraints lead to one vector, half
/// of them behind read points above 15.
fn accepted(chance: &mut Chance, r: usize, n: usize, m: usize) -> Set {
    let mut set = high_points(chance, r, n);
    let guards: Vec<Guard> = (0..m).map(|k| some_reads(chance, r, k)).collect();
    set.constraints = leading(chance, n, &guards);
    if chance.one_in(3) {
        set.rest = rest(chance, n);
    }
    set
}

/// Every other time a read point above 15, else a few of any.
fn some_reads(chance: &mut Chance, r: usize, round: usize) -> Guard {
    if round.is_multiple_of(2) {
        return high_reads(chance, r);
    }
    let numbers = (0..chance.below(3)).map(|_| chance.below(r)).collect();
    literals(chance, numbers)
}

/// Every r with every n: accepted, and with a clash.
fn each_size(chance: &mut Chance) -> Vec<Set> {
    let mut sets = Vec::new();
    for (r, n) in all_sizes() {
        let m = if r > 18 { 1 } else { chance.between(1, 3) };
        sets.push(accepted(chance, r, n, m));
        let mut clash = making::set(chance, Recipe::Clash, r, n, m);
        clash.reads = high_points(chance, r, n).reads;
        sets.push(renamed(clash));
    }
    sets
}

/// The set with names that tell the points apart.
fn renamed(mut set: Set) -> Set {
    for (number, point) in set.reads.iter_mut().enumerate() {
        point.name = format!("read{number}").into_bytes();
    }
    for (number, name) in set.outputs.iter_mut().enumerate() {
        *name = format!("out{number}").into_bytes();
    }
    set
}

/// Accepted sets with more past points and scans.
fn with_pasts(chance: &mut Chance) -> Vec<Set> {
    let mut sets = Vec::new();
    for (r, count) in [(17, 20), (18, 4)] {
        for _ in 0..count {
            let n = chance.between(2, 24 - r);
            let m = chance.between(3, 5);
            sets.push(accepted(chance, r, n, m));
        }
    }
    sets
}

/// Accepted sets in which outputs are held where the highest sensor differs from
/// its past, or where an output was on that a read point above 15 is the past of.
fn with_edges(chance: &mut Chance) -> Vec<Set> {
    let mut sets = Vec::new();
    for (r, count) in [(18, 8), (19, 3), (20, 2)] {
        for _ in 0..count {
            let n = chance.between(1, 24 - r);
            let mut set = points(chance, r, n);
            let (sensor, past) = (r - 2, r - 1);
            set.reads[sensor].kind = Kind::Sensor;
            set.reads[past].kind = Kind::PastSensor(sensor);
            if r > 18 {
                set.reads[NARROW].kind = Kind::PastOutput(chance.below(n));
            }
            let rising = chance.one_in(2);
            let edge = [(sensor, !rising), (past, rising)];
            let edge = edge.map(|(number, negated)| plain(Point::Read(number), negated));
            set.constraints = vec![constraint(&edge, &[(chance.below(n), false, 0)])];
            if r > 18 {
                let on = [plain(Point::Read(NARROW), false)];
                let held = constraint(&on, &[(chance.below(n), false, 0)]);
                set.constraints.push(held);
            }
            sets.push(set);
        }
    }
    sets
}

/// Accepted sets with none to 64 constraints, those of many with few different
/// read literals; some with none above 15.
fn of_many_constraints(chance: &mut Chance) -> Vec<Set> {
    let mut sets = Vec::new();
    let sizes = [
        (17, [0, 1, 4, 8, 13, 21, 34, 64].as_slice()),
        (18, &[0, 2, 24]),
        (19, &[1, 9]),
        (20, &[4]),
    ];
    for (r, many) in sizes {
        for &m in many {
            let mut set = high_points(chance, r, 24 - r);
            let guards: Vec<Guard> = (0..4).map(|k| some_reads(chance, r, k)).collect();
            let guards: Vec<Guard> = (0..m).map(|k| guards[k % 4].clone()).collect();
            set.constraints = leading(chance, 24 - r, &guards);
            sets.push(set);
        }
    }
    for r in [17, 18] {
        // Nothing above 15 is named: no field of three-byte literals.
        let mut set = high_points(chance, r, 3);
        let guards: Vec<Guard> = (0..3).map(|_| literals(chance, vec![3, 15])).collect();
        set.constraints = leading(chance, 3, &guards);
        sets.push(set);
    }
    sets
}

/// Accepted sets with an output that is held both ways, but never at one word,
/// since a read point above 15 is on there or off.
fn apart(chance: &mut Chance) -> Vec<Set> {
    let mut sets = Vec::new();
    for (r, count) in [(17, 12), (18, 8), (19, 3), (20, 1)] {
        for round in 0..count {
            let n = chance.between(1, 24 - r);
            let mut set = high_points(chance, r, n);
            let (number, output) = (r - 1 - round % (r - NARROW), chance.below(n));
            let swaps = chance.one_in(2);
            let side = |negated: bool| {
                let guard = [plain(Point::Read(number), negated)];
                constraint(&guard, &[(output, negated != swaps, 0)])
            };
            set.constraints = [false, true].map(side).to_vec();
            // The read point that its number is modulo 16 is on for both.
            if round.is_multiple_of(2) {
                let low = plain(Point::Read(number - NARROW), false);
                set.constraints[0].literals.insert(0, low);
            }
            chance.shuffle(&mut set.constraints);
            sets.push(set);
        }
    }
    sets
}

/// A set with words like these and few constraints, so that not many words
/// differ in the active ones.
fn planned(chance: &mut Chance, r: usize, n: usize, lots: Vec<(u32, Lot)>) -> Set {
    Plan::new(r, n, lots, 0).at_most(12).set(chance)
}

/// Words above 65,535 for so many read points.
fn words(chance: &mut Chance, r: usize) -> Vec<u32> {
    let (first, last) = (1 << NARROW, (1u32 << r) - 1);
    let any = chance.between(first as usize, last as usize) as u32;
    let mut words = vec![first, first + 1, last, last - 1, 1 << (r - 1), any];
    words.sort();
    words.dedup();
    words
}

/// Each sort of failing word above 65,535, by constraints that name every read
/// point.
fn failing(chance: &mut Chance) -> Vec<Set> {
    let mut sets = Vec::new();
    for r in NARROW + 1..=20 {
        for (round, word) in words(chance, r).into_iter().enumerate() {
            let n = chance.between(2, 24 - r);
            let lots = [Lot::Clash(vec![chance.below(n)]), Lot::Bare, Lot::Endless];
            let few = r > 18 && word > 1 << 18;
            for lot in lots
                .into_iter()
                .cycle()
                .skip(round)
                .take(if few { 1 } else { 2 })
            {
                sets.push(planned(chance, r, n, vec![(word, lot)]));
            }
        }
    }
    sets
}

/// Failing where one or two read points above 15 are on, whatever the others:
/// the first such word has no other bit.
fn by_highest_alone(chance: &mut Chance) -> Vec<Set> {
    let mut sets = Vec::new();
    for r in NARROW + 1..=20 {
        for first in NARROW..r {
            let guard = on([first].into_iter().chain(first + 2..r.min(first + 3)));
            let n = chance.between(2, 24 - r);
            let mut set = high_points(chance, r, n);
            let outputs = chance.order(n);
            set.constraints = match chance.below(3) {
                0 => Trouble::Clash.constraints(&guard, &outputs),
                1 if r < 19 => Trouble::Loop.constraints(&guard, &outputs),
                _ => Trouble::Shut.constraints(&guard, &outputs),
            };
            chance.shuffle(&mut set.constraints);
            sets.push(set);
        }
    }
    sets
}

/// Two words that differ in read points above 15 alone, one good and one not, or
/// both of them failing in another way.
fn twins(chance: &mut Chance) -> Vec<Set> {
    let clash = || Lot::Clash(vec![0]);
    let pairs = [
        (Lot::Good, clash()),
        (Lot::Good, Lot::Bare),
        (Lot::Good, Lot::Endless),
        (Lot::Endless, clash()),
        (Lot::Endless, Lot::Bare),
        (Lot::Endless, Lot::Good),
        (clash(), Lot::Bare),
        (Lot::Bare, clash()),
        (Lot::Bare, Lot::Good),
    ];
    let mut sets = Vec::new();
    for (r, count) in [(17, 9), (17, 9), (18, 9), (19, 3), (20, 3)] {
        for (low, high) in pairs.iter().take(count).cloned() {
            let word = chance.below(1 << NARROW) as u32;
            let above = chance.between(1, (1 << (r - NARROW)) - 1) as u32;
            let lots = vec![(word, low), (word + (above << NARROW), high)];
            let n = chance.between(2, 4);
            sets.push(planned(chance, r, n, lots));
        }
    }
    sets
}

/// Two failing words, the first of which is the higher one modulo 65,536.
fn two_words(chance: &mut Chance) -> Vec<Set> {
    let mut sets = Vec::new();
    for r in [17, 18, 19, 20, 17, 18, 17] {
        for lot in [Lot::Clash(vec![1]), Lot::Bare, Lot::Endless] {
            if lot == Lot::Endless && r == 20 {
                continue;
            }
            let first = chance.between(1 << 12, (1 << NARROW) - 1) as u32;
            let above = chance.between(1, (1 << (r - NARROW)) - 1) as u32;
            let second = (above << NARROW) + chance.below(1 << 12) as u32;
            let lots = vec![(first, lot.clone()), (second, lot)];
            let n = chance.between(2, 4);
            sets.push(planned(chance, r, n, lots));
        }
    }
    sets
}

/// Sets that fail at a late word, beside an output that is held both ways and
/// never at one word, since a read point above 15 is on there or off.
fn apart_and_failing(chance: &mut Chance) -> Vec<Set> {
    let mut sets = Vec::new();
    for round in 0..12 {
        let (r, n) = (if round < 9 { 17 } else { 18 }, chance.between(3, 5));
        let (number, output) = (chance.between(NARROW, r - 1), chance.below(n));
        let word = (1 << r) - 1 - chance.below(1 << 10) as u32;
        let lot = [Lot::Clash(vec![output]), Lot::Bare, Lot::Endless][round % 3].clone();
        sets.push(loop {
            let mut set = planned(chance, r, n, vec![(word, lot.clone())]);
            for negated in [false, true] {
                let guard = [plain(Point::Read(number), negated)];
                let held = constraint(&guard, &[(output, negated, 0)]);
                set.constraints.push(held);
            }
            chance.shuffle(&mut set.constraints);
            if Lot::of(&set, word) == lot && judge(&set) != Verdict::Accepted {
                break set;
            }
        });
    }
    sets
}

/// A set with any constraints, most of them behind few read points.
pub fn crowded(chance: &mut Chance, r: usize, n: usize, m: usize) -> Set {
    let mut set = high_points(chance, r, n);
    let guards: Vec<Guard> = (0..m).map(|k| some_reads(chance, r, k)).collect();
    set.constraints = leading(chance, n, &guards);
    if n > 1 && chance.one_in(3) {
        let guard = high_reads(chance, r);
        set.constraints.extend(endless(chance, n, &guard));
    }
    if chance.one_in(3) {
        let (guard, output) = (high_reads(chance, r), chance.below(n));
        for negated in [false, true] {
            set.constraints
                .push(constraint(&guard, &[(output, negated, 0)]));
        }
    }
    set.constraints.truncate(64);
    chance.shuffle(&mut set.constraints);
    if chance.one_in(3) {
        set.rest = rest(chance, n);
    }
    set
}

/// States made by hand, whose sets no verdict goes through; each with both marks.
fn with_states(chance: &mut Chance) -> Vec<Case> {
    let mut cases = Vec::new();
    for r in NARROW + 1..=20 {
        for round in 0..STATES_EACH {
            let n = 1 + round % (24 - r);
            let m = [3, 6, 12, 64][round % 4];
            let set = crowded(chance, r, n, m);
            let first = pasts(chance, &set);
            let scans = scans(chance, &set, SHORT_LIST);
            cases.extend(with_each_mark(&set, first, &scans));
        }
    }
    cases
}

/// Past words of any allowed value, now and then with one bit more, at r or
/// right behind the most read points that there can be.
fn pasts(chance: &mut Chance, set: &Set) -> Kept {
    let (r, n) = (set.reads.len(), set.outputs.len());
    let mut kept = Kept {
        past_sensor: chance.below(1 << r) as u32,
        past_output: chance.below(1 << n) as u16,
        mark: 0,
    };
    match chance.below(12) {
        0 => kept.past_sensor |= 1 << r,
        1 => kept.past_sensor |= 1 << 20,
        2 => kept.past_output |= 1 << n,
        _ => {}
    }
    kept
}

fn with_each_mark(set: &Set, first: Kept, scans: &[Words]) -> [Case; 2] {
    [0, 1].map(|mark| {
        let first = Kept { mark, ..first };
        let scans = scans.to_vec();
        Case::State {
            file: write(set),
            list: Some(List { first, scans }),
        }
    })
}

/// States from which a scan reads one word, at which output 0 is held off, and
/// one that differs in a read point above 15; and words at the edge of what is
/// allowed.
fn at_words(chance: &mut Chance) -> Vec<Case> {
    let mut cases = Vec::new();
    for (r, n) in all_sizes() {
        let mut set = high_points(chance, r, n);
        let word = loop {
            let word = chance.below(1 << r) as u32;
            let (kept, sensor) = reaching(&set, word);
            if read_back(&set, kept, sensor) == Some(word) {
                break word;
            }
        };
        set.constraints = vec![constraint(&at(r, word), &[(0, false, 0)])];
        let (first, sensor) = reaching(&set, word);
        let mut list: Vec<Words> = (NARROW..r).map(|k| (sensor ^ 1 << k, 1)).collect();
        list.insert(0, (sensor, 1));
        list.extend([(1 << r, 0), (1 << 20, 0), (sensor + (1 << 24), 1)]);
        for scan in list {
            let scans = vec![scan];
            cases.push(Case::State {
                file: write(&set),
                list: Some(List { first, scans }),
            });
        }
    }
    // A sensor word of one high bit, allowed and not.
    let mut set = renamed(points(chance, 20, 2));
    for point in &mut set.reads {
        point.kind = Kind::Sensor;
    }
    set.constraints = vec![constraint(&on(19..20), &[(1, false, 0)])];
    let scans = [19, 20, 16, 15, 21, 31].map(|k| (1 << k, 3)).to_vec();
    cases.extend(with_each_mark(&set, Kept::default(), &scans));
    cases
}

/// The word that a scan of a sensor word reads from a state.
fn read_back(set: &Set, kept: Kept, sensor: u32) -> Option<u32> {
    let state = State::by_hand(set, &kept);
    let (reads, _) = taken(&state, sensor, 0).ok()?;
    Some(word(&reads))
}

/// Names of sets of every size, those of the highest read points among them.
fn with_names(chance: &mut Chance) -> Vec<Case> {
    let mut cases = Vec::new();
    for (r, n) in all_sizes() {
        let m = chance.below(4);
        let set = crowded(chance, r, n, m);
        cases.push(Case::Names {
            names: names(chance, &set),
            file: write(&set),
        });
    }
    cases
}

/// Buffers around what lines with words of five to seven digits need, and others
/// of sets that fail at the first word.
fn with_buffers(chance: &mut Chance) -> Vec<Case> {
    let mut cases = Vec::new();
    for (r, word) in [(17, 100_000), (17, 99_999), (18, 131_072), (20, 65_537)] {
        for lot in [Lot::Clash(vec![1]), Lot::Bare, Lot::Endless] {
            // A word that is endless takes all words for 22 first.
            let r = if lot == Lot::Endless { 17 } else { r };
            let set = planned(chance, r, 3, vec![(word % (1 << r), lot)]);
            cases.push(around_the_line(&set, &[0, 1, 2]));
        }
    }
    for lot in [Lot::Clash(vec![3]), Lot::Bare, Lot::Endless] {
        let set = planned(chance, 20, 4, vec![((1 << 20) - 1, lot)]);
        cases.push(around_the_line(&set, &[0, 1]));
    }
    for (r, n) in all_sizes() {
        let mut set = crowded(chance, r, n, 5);
        set.constraints.truncate(62);
        let never = [false, true].map(|negated| constraint(&[], &[(0, negated, 0)]));
        set.constraints.extend(never);
        let file = write(&set);
        let needed = [line(&file).len(), text(&set).len()];
        let sizes = around(&[&[file.len(), scratch_bytes(n)], needed.as_slice()].concat());
        cases.push(Case::Buffers { file, sizes });
    }
    cases
}

/// Buffers so many bytes longer than one less than the line of a set.
fn around_the_line(set: &Set, more: &[u16]) -> Case {
    let file = write(set);
    let less = line(&file).len() as u16 - 1;
    let sizes = more.iter().map(|more| less + more).collect();
    Case::Buffers { file, sizes }
}

/// A set of 64 constraints whose words differ in the active ones: there are
/// 4,096 choices of these at least.
pub fn of_many_masks(chance: &mut Chance, r: usize, n: usize) -> Set {
    let mut guards = alone(chance, r).split_off(r - 12);
    while guards.len() < 64 {
        guards.push(high_reads(chance, r));
    }
    let mut set = high_points(chance, r, n);
    set.constraints = leading(chance, n, &guards);
    set
}

/// The constraint with its read literals above 15 left out.
pub fn without_high(constraint: &Constraint) -> Constraint {
    let is_low = |literal: &&Literal| !is_high(literal);
    let literals = constraint.literals.iter().filter(is_low);
    Constraint {
        literals: literals.copied().collect(),
    }
}

/// True for a literal of a read point above 15.
pub fn is_high(literal: &Literal) -> bool {
    matches!(literal.point, Point::Read(number) if number >= NARROW)
}
