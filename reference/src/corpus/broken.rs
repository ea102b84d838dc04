//! Sets made by hand, as they lie in memory: some well formed, most of them
//! broken in one place, clause by clause, at first and last places and right
//! beyond the counts. All of them have rest word 0; `rests` has others. They
//! were drawn when there were places for 16 read points, and stay what they
//! were: of the four places that came later `wide_memory` has such sets.

use super::long::longest;
use super::names::nearly;
use super::states::kept;
use super::texts::wordy;
use crate::chance::Chance;
use crate::damage::P;
use crate::file::load;
use crate::making::{scans, set, Recipe};
use crate::raw::{
    constraint_at, laid_out, output_at, put, read_at, CONSTRAINTS, NAME, NEGATED_OUTPUTS,
    NEGATED_READS, OUTPUTS, PLAIN_OUTPUTS, PLAIN_READS, RANKS, READS, REST,
};
use crate::records::{Case, List, SET_BYTES};
use crate::set::{Kind, Literal, Point, Set};

const GOOD_EACH: usize = 6;
const BY_CHANCE: usize = 20;

/// The places for read points when these sets were drawn, and the bytes that
/// those that came later have.
const READS_THEN: usize = 16;
const LATER: usize = 10 * (READS - READS_THEN);

/// A good set, how it lies in memory, and how many places for read points it is
/// broken in.
pub struct Base {
    pub set: Set,
    pub raw: Vec<u8>,
    places: usize,
}

impl Base {
    fn new(set: Set) -> Base {
        let raw = laid_out(&set);
        let places = READS_THEN;
        Base { set, raw, places }
    }

    /// The same to be broken in all places.
    pub fn in_all_places(set: Set) -> Base {
        let places = READS;
        Base {
            places,
            ..Base::new(set)
        }
    }

    /// The bytes with some overwritten.
    pub fn with(&self, at: usize, bytes: &[u8]) -> Vec<u8> {
        let mut raw = self.raw.clone();
        put(&mut raw, at, bytes);
        raw
    }

    /// The bytes with one bit more in a mask that ends before an offset.
    pub fn with_bit(&self, end: usize, place: usize) -> Vec<u8> {
        let at = end - 1 - place / 8;
        self.with(at, &[self.raw[at] | 1 << (place % 8)])
    }

    /// Where each point's eight places begin, read points first.
    fn name_places(&self) -> Vec<usize> {
        let reads = (0..self.set.reads.len()).map(|k| read_at(k) + 2);
        let outputs = (0..self.set.outputs.len()).map(output_at);
        reads.chain(outputs).collect()
    }
}

/// First and last of so many places, if there is one.
fn ends(count: usize) -> Vec<usize> {
    let mut ends = vec![0, count.saturating_sub(1)];
    ends.dedup();
    ends.truncate(count);
    ends
}

/// The first place beyond a count, and the last place there is.
fn beyond(count: usize, places: usize) -> Vec<usize> {
    ends(places - count).iter().map(|k| count + k).collect()
}

/// Sets made by hand with names, states and scans.
pub fn cases(chance: &mut Chance) -> Vec<Case> {
    let mut cases = Vec::new();
    for base in good(chance) {
        cases.push(case(chance, &base.set, base.raw.clone()));
    }
    for (base, share) in bases(chance) {
        let mut raws = not_kept(&base);
        raws.extend(broken(&base));
        let mut seen = vec![base.raw.clone()];
        for raw in raws {
            if !seen.contains(&raw) && chance.one_in(share) {
                cases.push(case(chance, &base.set, raw.clone()));
            }
            seen.push(raw);
        }
    }
    for raw in whole() {
        cases.push(case(chance, &p(), raw));
    }
    for (r, n) in [(16, 9), (13, 12), (16, 12)] {
        let set = set(chance, Recipe::Planted, r, n, 3);
        cases.push(case(chance, &set, laid_out(&set)));
    }
    for _ in 0..BY_CHANCE {
        let set = set(chance, Recipe::Bent, 5, 4, 5);
        let mut raw = laid_out(&set);
        let at = place_then(chance.below(SET_BYTES - LATER - 2));
        raw[at] ^= 1 << chance.below(8);
        cases.push(case(chance, &set, raw));
    }
    cases
}

/// The place of a byte by its number among those that are neither the rest
/// word's nor of places that came later.
fn place_then(number: usize) -> usize {
    let last = read_at(READS_THEN) - 2;
    match number {
        0..REST => number,
        number if number < last => number + 2,
        _ => number + 2 + LATER,
    }
}

/// A set of one byte all over, but for the places that came later.
pub fn all_over(byte: u8) -> Vec<u8> {
    let mut raw = vec![byte; SET_BYTES];
    put(&mut raw, read_at(READS_THEN), &[0; LATER]);
    raw
}

fn p() -> Set {
    load(&P).expect("P loads")
}

/// Well-formed sets: P, two that are as full as can be, and some of all recipes.
fn good(chance: &mut Chance) -> Vec<Base> {
    let full = [p(), longest(0, true), wordy()];
    let mut bases: Vec<Base> = full.into_iter().map(Base::new).collect();
    for recipe in [
        Recipe::Loose,
        Recipe::Bent,
        Recipe::Planted,
        Recipe::Chain,
        Recipe::Clash,
    ] {
        for _ in 0..GOOD_EACH {
            let (r, n) = (chance.between(1, 7), chance.between(2, 5));
            let m = chance.between(1, 12);
            bases.push(Base::new(set(chance, recipe, r, n, m)));
        }
    }
    bases
}

/// The sets to break, and how many of what is made of each to leave out: one
/// in so many is kept.
fn bases(chance: &mut Chance) -> Vec<(Base, usize)> {
    let mut middle = set(chance, Recipe::Bent, 6, 4, 6);
    middle.reads[0].kind = Kind::Sensor;
    middle.reads[1].kind = Kind::PastSensor(0);
    middle.reads[2].kind = Kind::PastOutput(3);
    middle.reads[5].kind = Kind::Sensor;
    let sizes = [(p(), 3), (middle, 1)];
    let mut bases: Vec<(Base, usize)> = sizes
        .into_iter()
        .map(|(set, share)| (Base::new(set), share))
        .collect();
    for (r, n, m, share) in [(16, 8, 62, 5), (12, 12, 2, 5), (0, 1, 0, 4)] {
        let recipe = if m == 0 {
            Recipe::Planted
        } else {
            Recipe::Clash
        };
        bases.push((Base::new(set(chance, recipe, r, n, m)), share));
    }
    bases
}

/// A case of some bytes, with names and scans for the set they come from.
pub fn case(chance: &mut Chance, set: &Set, raw: Vec<u8>) -> Case {
    let (r, n) = (set.reads.len(), set.outputs.len());
    let first = kept(chance, r, n);
    let scans = scans(chance, set, 4);
    let mut names: Vec<Vec<u8>> = set.reads.iter().map(|p| p.name.clone()).collect();
    names.truncate(3);
    names.extend(set.outputs.iter().take(3).cloned());
    let near = nearly(chance, &set.outputs[n - 1]);
    names.push(near[chance.below(near.len())].clone());
    names.push(Vec::new());
    Case::Raw {
        set: raw,
        list: Some(List { first, scans }),
        names,
    }
}

/// What changes nothing: other kinds are sensors, whose index is not kept.
pub fn not_kept(base: &Base) -> Vec<Vec<u8>> {
    let is_sensor = |k: &usize| {
        let point = base.set.reads.get(*k);
        point.is_none_or(|point| point.kind == Kind::Sensor)
    };
    let mut raws = Vec::new();
    for place in (0..base.places).filter(is_sensor) {
        if place == 0 || place >= base.places - 1 || place == base.set.reads.len() {
            raws.push(base.with(read_at(place), &[3, 0]));
            raws.push(base.with(read_at(place), &[0, 1]));
            raws.push(base.with(read_at(place), &[255, 255]));
        }
    }
    raws
}

/// All that is made of a set by breaking it in one place.
pub fn broken(base: &Base) -> Vec<Vec<u8>> {
    [
        bad_counts(base),
        bad_kinds(base),
        bad_names(base),
        doubled_names(base),
        points_beyond(base),
        constraints_beyond(base),
        wide_masks(base),
        bad_literals(base),
        bad_ranks(base),
    ]
    .concat()
}

/// Counts one off, out of range, and right in their low byte alone.
fn bad_counts(base: &Base) -> Vec<Vec<u8>> {
    let set = &base.set;
    let counts = [
        (0, set.reads.len(), base.places),
        (2, set.outputs.len(), OUTPUTS),
        (4, set.constraints.len(), CONSTRAINTS),
    ];
    let mut raws = Vec::new();
    for (at, count, most) in counts {
        let near = [count + 1, count.saturating_sub(1), most, most + 1];
        for bad in near.into_iter().chain([0, 256, count + 256, 65_535]) {
            if bad != count {
                raws.push(base.with(at, &(bad as u16).to_be_bytes()));
            }
        }
    }
    raws
}

/// Pasts of outputs there are not, of the point itself, of later points, of
/// pasts, and of points beyond the count.
fn bad_kinds(base: &Base) -> Vec<Vec<u8>> {
    let (r, n) = (base.set.reads.len(), base.set.outputs.len());
    let is_past = |k: &usize| base.set.reads[*k].kind != Kind::Sensor;
    let mut raws = Vec::new();
    for place in ends(r) {
        let mut bad = vec![(1, n), (1, 12), (1, 255)];
        bad.extend([(2, place), (2, place + 1), (2, r), (2, 16), (2, 255)]);
        bad.extend((0..place).filter(is_past).map(|past| (2, past)));
        for (kind, index) in bad {
            raws.push(base.with(read_at(place), &[kind, index as u8]));
        }
    }
    raws
}

/// Names with a bad byte, with none, and with a zero before other bytes.
fn bad_names(base: &Base) -> Vec<Vec<u8>> {
    let places = base.name_places();
    let reads = base.set.reads.len();
    let some = [0, reads.saturating_sub(1), reads, places.len() - 1];
    let mut raws = Vec::new();
    for at in some.map(|k| places[k]) {
        let name = &base.raw[at..at + NAME];
        let length = name.iter().take_while(|&&byte| byte != 0).count();
        raws.push(base.with(at, &[0; NAME]));
        raws.push(base.with(at, &[0, b'x']));
        raws.push(base.with(at, &[0x20]));
        raws.push(base.with(at, &[name[0] | 0x80]));
        raws.push(base.with(at + length - 1, &[0x7F]));
        raws.push(base.with(at + length - 1, &[0x1F]));
        raws.push(base.with(at + 6, b"\0x"));
        if length < NAME {
            raws.push(base.with(at + length, &[0xFF]));
        }
        if length < NAME - 1 {
            raws.push(base.with(at + length + 1, b"x"));
            raws.push(base.with(at + NAME - 1, &[1]));
        }
    }
    raws
}

/// The name of one point at another.
fn doubled_names(base: &Base) -> Vec<Vec<u8>> {
    let places = base.name_places();
    let reads = base.set.reads.len();
    let last = places.len() - 1;
    let pairs = [
        (0, last),
        (last, 0),
        (0, reads.saturating_sub(1)),
        (reads, last),
        (last, reads.saturating_sub(1)),
    ];
    pairs
        .map(|(from, to)| base.with(places[to], &base.raw[places[from]..][..NAME]))
        .to_vec()
}

/// A past point, a name or a byte of one beyond the counts.
fn points_beyond(base: &Base) -> Vec<Vec<u8>> {
    let mut raws = Vec::new();
    for place in beyond(base.set.reads.len(), base.places) {
        let at = read_at(place);
        raws.push(base.with(at, &[1, 0]));
        raws.push(base.with(at, &[2, 0]));
        raws.push(base.with(at, &[1, 1]));
        raws.push(base.with(at, b"\0\0beyond"));
        raws.push(base.with(at + 2, &[1]));
        raws.push(base.with(at + 2 + NAME - 1, &[255]));
    }
    for place in beyond(base.set.outputs.len(), OUTPUTS) {
        let at = output_at(place);
        raws.push(base.with(at, b"beyond"));
        raws.push(base.with(at, &[1]));
        raws.push(base.with(at + NAME - 1, &[255]));
    }
    raws
}

/// A constraint, a bit of a mask or a rank beyond the count.
fn constraints_beyond(base: &Base) -> Vec<Vec<u8>> {
    let mut raws = Vec::new();
    for place in beyond(base.set.constraints.len(), CONSTRAINTS) {
        let at = constraint_at(place);
        let whole = base.raw[constraint_at(0)..][..24].to_vec();
        raws.push(base.with(at, &whole));
        for (mask, width) in [
            (PLAIN_READS, 4),
            (NEGATED_READS, 4),
            (PLAIN_OUTPUTS, 2),
            (NEGATED_OUTPUTS, 2),
        ] {
            raws.push(base.with(at + mask, &[0x80]));
            raws.push(base.with(at + mask + width - 1, &[1]));
        }
        raws.push(base.with(at + RANKS, &[1]));
        raws.push(base.with(at + RANKS + OUTPUTS - 1, &[255]));
    }
    raws
}

/// Masks with a bit beyond the points there are.
fn wide_masks(base: &Base) -> Vec<Vec<u8>> {
    let (r, n) = (base.set.reads.len(), base.set.outputs.len());
    let mut raws = Vec::new();
    for place in ends(base.set.constraints.len()) {
        let at = constraint_at(place);
        for end in [at + NEGATED_READS, at + PLAIN_OUTPUTS] {
            for bit in [r, 15.max(r), 16, 31] {
                raws.push(base.with_bit(end, bit));
            }
        }
        for end in [at + NEGATED_OUTPUTS, at + RANKS] {
            for bit in [n, 11.max(n), 12, 15] {
                raws.push(base.with_bit(end, bit));
            }
        }
    }
    raws
}

/// Constraints with a point both plain and negated, and with no output.
fn bad_literals(base: &Base) -> Vec<Vec<u8>> {
    let mut raws = Vec::new();
    for place in ends(base.set.constraints.len()) {
        let at = constraint_at(place);
        let other = |literal: &Literal| match (literal.point, literal.negated) {
            (Point::Read(k), true) => base.with_bit(at + NEGATED_READS, k),
            (Point::Read(k), false) => base.with_bit(at + PLAIN_OUTPUTS, k),
            (Point::Output(k), true) => base.with_bit(at + NEGATED_OUTPUTS, k),
            (Point::Output(k), false) => base.with_bit(at + RANKS, k),
        };
        let literals = &base.set.constraints[place].literals;
        raws.extend(literals.first().map(other));
        raws.extend(literals.last().map(other));
        raws.push(base.with(at + PLAIN_OUTPUTS, &[0; 16]));
        raws.push(base.with(at + PLAIN_OUTPUTS, &[0; 4]));
        raws.push(base.with(at, &[0; 24]));
    }
    raws
}

/// Ranks at outputs that the constraint does not name, and beyond the outputs.
fn bad_ranks(base: &Base) -> Vec<Vec<u8>> {
    let mut raws = Vec::new();
    for place in ends(base.set.constraints.len()) {
        let constraint = &base.set.constraints[place];
        let names = |k: &usize| {
            let output = Point::Output(*k);
            constraint.literals.iter().any(|l| l.point == output)
        };
        let unnamed: Vec<usize> = (0..OUTPUTS).filter(|k| !names(k)).collect();
        for bad in [unnamed.first(), unnamed.last()].into_iter().flatten() {
            raws.push(base.with(constraint_at(place) + RANKS + bad, &[1]));
            raws.push(base.with(constraint_at(place) + RANKS + bad, &[255]));
        }
        for beyond in beyond(base.set.outputs.len(), OUTPUTS) {
            raws.push(base.with(constraint_at(place) + RANKS + beyond, &[7]));
        }
    }
    raws
}

/// Sets of one byte all over but for the rest word, and P with all three counts
/// too large.
fn whole() -> Vec<Vec<u8>> {
    let unrested = |byte| {
        let mut raw = all_over(byte);
        put(&mut raw, REST, &[0, 0]);
        raw
    };
    let mut raws: Vec<Vec<u8>> = [0, 1, b'a', 255].map(unrested).to_vec();
    let p = Base::new(p());
    raws.push(p.with(0, &[255; 6]));
    raws.push(p.with(0, &[0; 6]));
    raws.push(p.with(0, &[1, 0, 2, 0, 2, 0]));
    raws
}

#[cfg(test)]
mod tests {
    use super::*;
    use crate::raw::well_formed;

    #[test]
    fn what_is_broken_is_not_well_formed() {
        let mut chance = Chance::new(31);
        for (base, _) in bases(&mut chance) {
            assert_eq!(well_formed(&base.raw), Some(base.set.clone()));
            for raw in broken(&base) {
                let same = raw == base.raw;
                assert_eq!(well_formed(&raw).is_some(), same);
            }
            for raw in not_kept(&base) {
                assert_ne!(raw, base.raw);
                assert_eq!(well_formed(&raw), Some(base.set.clone()));
            }
        }
        for raw in whole() {
            assert_eq!(well_formed(&raw), None);
        }
    }
}
