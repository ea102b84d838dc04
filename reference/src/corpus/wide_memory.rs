//! Sets made by hand with 17 to 20 read points, and with fewer but something in
//! the places of the others: as they lie in memory, some well formed, most of
//! them broken in one place.

use super::active::constraint;
use super::broken::{broken, case, not_kept, Base};
use super::fronts::{longest, End};
use super::wide::{all_sizes, crowded, of_many_masks, NARROW};
use crate::chance::Chance;
use crate::making::{set, Recipe};
use crate::raw::{
    constraint_at, laid_out, put, read_at, NEGATED_READS, PLAIN_OUTPUTS, PLAIN_READS, READS,
};
use crate::records::Case;
use crate::set::{Kind, Set};

/// One in so many of what is broken as sets of fewer read points are.
const SHARE: usize = 9;

/// Good sets, and broken ones.
pub fn cases(chance: &mut Chance) -> Vec<Case> {
    let mut cases = Vec::new();
    for set in good(chance) {
        cases.push(case(chance, &set, laid_out(&set)));
    }
    for (r, n) in [(17, 7), (18, 2), (19, 5), (20, 4)] {
        let base = Base::in_all_places(rejected_early(chance, r, n));
        for raw in not_kept(&base).into_iter().chain(broken(&base)) {
            if chance.one_in(SHARE) {
                cases.push(case(chance, &base.set, raw));
            }
        }
        for raw in [high_kinds(&base), high_names(&base), high_masks(&base)].concat() {
            if chance.one_in(2) {
                cases.push(case(chance, &base.set, raw));
            }
        }
    }
    for r in [0, 1, 15, 16] {
        let base = Base::in_all_places(rejected_early(chance, r, 3));
        for raw in [strays(&base), high_bits(&base)].concat() {
            cases.push(case(chance, &base.set, raw));
        }
    }
    for (r, n) in [(20, 5), (19, 6), (17, 8), (20, 12), (17, 12)] {
        let set = rejected_early(chance, r, n);
        cases.push(case(chance, &set, laid_out(&set)));
    }
    cases.extend(more_than_20(chance));
    cases
}

/// A set that is rejected at the first word, so that its verdict takes no time.
fn rejected_early(chance: &mut Chance, r: usize, n: usize) -> Set {
    let mut set = match r {
        0..=NARROW => set(chance, Recipe::Bent, r, n, 5),
        _ => crowded(chance, r, n, 6),
    };
    let never = [false, true].map(|negated| constraint(&[], &[(n - 1, negated, 7)]));
    set.constraints.extend(never);
    set
}

/// Well-formed sets of every size, most of them rejected at the first word; one
/// with as many active constraints as can be, and one whose file is longest.
fn good(chance: &mut Chance) -> Vec<Set> {
    let mut sets = Vec::new();
    for (r, n) in all_sizes() {
        sets.push(rejected_early(chance, r, n));
    }
    for (r, n, m) in [(17, 7, 2), (17, 2, 5), (18, 4, 3), (19, 2, 2), (20, 3, 1)] {
        sets.push(crowded(chance, r, n, m));
    }
    sets.push(of_many_masks(chance, 20, 4));
    sets.push(longest(chance, &[0, 3], End::Nowhere));
    sets.push(longest(chance, &[], End::Endless));
    sets
}

/// Read points above 15 that are pasts of what there is not.
fn high_kinds(base: &Base) -> Vec<Vec<u8>> {
    let (r, n) = (base.set.reads.len(), base.set.outputs.len());
    let is_past = |k: &usize| base.set.reads[*k].kind != Kind::Sensor;
    let mut raws = Vec::new();
    for place in NARROW..r {
        let mut bad = vec![(1, n), (1, 16), (1, 255)];
        bad.extend([(2, place), (2, place + 1), (2, r), (2, 20), (2, 32)]);
        bad.extend((0..place).filter(is_past).take(2).map(|past| (2, past)));
        for (kind, index) in bad {
            raws.push(base.with(read_at(place), &[kind, index as u8]));
        }
        // Good ones, and kinds and indices that are not kept.
        raws.push(base.with(read_at(place), &[1, (n - 1) as u8]));
        raws.push(base.with(read_at(place), &[7, 9]));
    }
    raws
}

/// Names of read points above 15 that another point bears, and bad ones.
fn high_names(base: &Base) -> Vec<Vec<u8>> {
    let r = base.set.reads.len();
    let mut raws = Vec::new();
    for place in NARROW..r {
        let at = read_at(place) + 2;
        for other in [0, NARROW - 1, NARROW, r - 1] {
            if other != place {
                let name = base.raw[read_at(other) + 2..][..8].to_vec();
                raws.push(base.with(at, &name));
            }
        }
        raws.push(base.with(at, &base.set.outputs[0]));
        raws.push(base.with(at, &[0; 8]));
        raws.push(base.with(at, &[0x20]));
        raws.push(base.with(at + 6, b"\0x"));
    }
    raws
}

/// Masks with a bit beyond the read points, and with one at a read point above
/// 15 that is named both ways or not at all.
fn high_masks(base: &Base) -> Vec<Vec<u8>> {
    let mut raws = Vec::new();
    for place in [0, base.set.constraints.len() - 1] {
        let at = constraint_at(place);
        for bit in [16, 17, 18, 19, 20, 21, 24, 31] {
            raws.push(base.with_bit(at + NEGATED_READS, bit));
            raws.push(base.with_bit(at + PLAIN_OUTPUTS, bit));
            let mut both = base.with_bit(at + NEGATED_READS, bit);
            both[at + PLAIN_OUTPUTS - 1 - bit / 8] |= 1 << (bit % 8);
            raws.push(both);
        }
    }
    raws
}

/// Bits above 15 in the masks of a set that has no such read point.
fn high_bits(base: &Base) -> Vec<Vec<u8>> {
    let at = constraint_at(0);
    let mut raws = Vec::new();
    for bit in [16, 17, 19, 20] {
        raws.push(base.with_bit(at + NEGATED_READS, bit));
        raws.push(base.with_bit(at + PLAIN_OUTPUTS, bit));
    }
    raws.push(base.with(at + PLAIN_READS, &[0, 0x0F]));
    raws
}

/// Bytes in the places of read points 16 to 19, where there are none; a sensor's
/// index and a kind that is none are not kept.
fn strays(base: &Base) -> Vec<Vec<u8>> {
    let mut raws = Vec::new();
    for place in NARROW..READS {
        let at = read_at(place);
        raws.push(base.with(at, &[1, 0]));
        raws.push(base.with(at, &[2, 0]));
        raws.push(base.with(at + 2, b"x"));
        raws.push(base.with(at + 9, &[1]));
        raws.push(base.with(at, &[0, 5]));
        raws.push(base.with(at, &[9, 255]));
    }
    raws
}

/// Counts beyond the places, of which the low bits alone would do.
fn more_than_20(chance: &mut Chance) -> Vec<Case> {
    let mut cases = Vec::new();
    for (r, n) in [(17, 3), (20, 4), (20, 1)] {
        let set = rejected_early(chance, r, n);
        for bad in [21, 24, 31, r + 16, r + 32, r + 256] {
            let mut raw = laid_out(&set);
            put(&mut raw, 0, &(bad as u16).to_be_bytes());
            cases.push(case(chance, &set, raw));
        }
    }
    cases
}

#[cfg(test)]
mod tests {
    use super::*;
    use crate::raw::{form, well_formed, Form};

    #[test]
    fn good_sets_are_well_formed() {
        for set in good(&mut Chance::new(4)) {
            assert_eq!(well_formed(&laid_out(&set)), Some(set));
        }
    }

    #[test]
    fn what_is_in_the_places_of_no_read_point() {
        let mut chance = Chance::new(5);
        for r in [0, 3, 16] {
            let base = Base::in_all_places(rejected_early(&mut chance, r, 2));
            for (place, raw) in strays(&base).into_iter().enumerate() {
                let kept = place % 6 < 4;
                assert_eq!(well_formed(&raw).is_none(), kept, "{place}");
            }
            for raw in high_bits(&base) {
                assert_eq!(form(&raw), Form::Lost);
            }
        }
    }

    #[test]
    fn bits_of_masks() {
        let mut chance = Chance::new(6);
        for r in 17..=20 {
            let base = Base::in_all_places(rejected_early(&mut chance, r, 2));
            let raws = high_masks(&base);
            // Of the last constraint, which names no read point: each bit once
            // plain, once negated, once both ways.
            for (place, raw) in raws[24..].iter().enumerate() {
                let bit = [16, 17, 18, 19, 20, 21, 24, 31][place / 3];
                let good = bit < r && place % 3 < 2;
                assert_eq!(well_formed(raw).is_some(), good, "{r} {bit}");
            }
        }
    }
}
