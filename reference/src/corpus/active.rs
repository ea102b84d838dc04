//! Sets whose verdict hangs on the active constraints of read words, those
//! whose read literals are all true: many words with the same, more than 251
//! choices of them, and words that fail late or look like a good one.
//!
//! Constraints that lead to one vector are good at every word; beside them
//! stand some that make trouble where a guard is true. Sets are kept by their
//! verdict in document 01's order, so that they stay what they were before
//! missing vectors came first; a few have a word without a safe vector behind
//! the endless one.

use super::counters::plain;
use super::edges::stuck;
use super::files::Files;
use super::skips::{is_named, sorts_by};
use crate::chance::Chance;
use crate::file::write;
use crate::filter::read_literals_true;
use crate::making::{fresh_name, points, read_literals, towards};
use crate::records::Case;
use crate::set::{bits, Constraint, Kind, Literal, Point, ReadPoint, Set};
use crate::verdict::{judge_in_the_old_order, Verdict};

/// What goes wrong where the guard is true.
#[derive(Clone, Copy, Debug, PartialEq, Eq)]
pub enum Trouble {
    Nothing,
    /// 22: an output is held both ways.
    Clash,
    /// 22: an output that is held off at all words is held on as well.
    Against,
    /// 22: of two outputs each vector is forbidden.
    Shut,
    /// 23: an output flips for ever while another is on.
    Loop,
    /// 23: an output does so since the one that would yield is held.
    Held,
    /// 23: an output does so since another is not held, as it is elsewhere.
    Freed,
}

impl Trouble {
    /// The constraints of it, for three outputs.
    pub fn constraints(self, guard: &[Literal], outputs: &[usize]) -> Vec<Constraint> {
        match self {
            Trouble::Nothing => Vec::new(),
            Trouble::Clash => stuck(guard, &outputs[..1]),
            Trouble::Against => against(guard, outputs),
            Trouble::Shut => shut(guard, outputs),
            Trouble::Loop => stuck(guard, &outputs[..2]),
            Trouble::Held => held(guard, outputs),
            Trouble::Freed => freed(guard, outputs),
        }
    }

    /// True if a verdict is what this makes of a set.
    fn gives(self, verdict: Verdict) -> bool {
        match self {
            Trouble::Nothing => verdict == Verdict::Accepted,
            Trouble::Clash | Trouble::Against | Trouble::Shut => {
                matches!(verdict.without_clash(), Verdict::NoVector(_))
            }
            _ => matches!(verdict, Verdict::NoEnd(..)),
        }
    }
}

/// A constraint of read literals and of outputs with sign and rank.
pub fn constraint(reads: &[Literal], outputs: &[(usize, bool, u8)]) -> Constraint {
    let outputs = outputs.iter().map(|&(number, negated, rank)| Literal {
        rank,
        ..plain(Point::Output(number), negated)
    });
    let mut literals: Vec<Literal> = reads.iter().copied().chain(outputs).collect();
    literals.sort_by_key(|literal| literal.point);
    Constraint { literals }
}

fn against(guard: &[Literal], outputs: &[usize]) -> Vec<Constraint> {
    vec![
        constraint(&[], &[(outputs[0], false, 0)]),
        constraint(guard, &[(outputs[0], true, 0)]),
    ]
}

fn shut(guard: &[Literal], outputs: &[usize]) -> Vec<Constraint> {
    let signs = [(false, false), (false, true), (true, false), (true, true)];
    let forbidden =
        |(first, second)| constraint(guard, &[(outputs[0], first, 0), (outputs[1], second, 0)]);
    signs.map(forbidden).to_vec()
}

/// Output 0 would yield, but is held on where the guard is true; so output 1
/// flips while output 2 is on.
fn held(guard: &[Literal], outputs: &[usize]) -> Vec<Constraint> {
    let flips = |negated| {
        let [yields, flips, on] = [outputs[0], outputs[1], outputs[2]];
        constraint(
            &[],
            &[(yields, false, 0), (flips, negated, 1), (on, false, 2)],
        )
    };
    vec![
        flips(false),
        flips(true),
        constraint(guard, &[(outputs[0], true, 0)]),
    ]
}

/// Output 1 flips while output 0 is on, which is held off as long as some
/// literal of the guard is false.
fn freed(guard: &[Literal], outputs: &[usize]) -> Vec<Constraint> {
    let mut constraints = stuck(&[], &outputs[..2]);
    for literal in guard {
        let off = plain(literal.point, !literal.negated);
        constraints.push(constraint(&[off], &[(outputs[0], false, 0)]));
    }
    constraints
}

/// What a set is to be like.
struct Plan {
    r: usize,
    n: usize,
    trouble: Trouble,
    guard: Vec<Literal>,
    /// True if the constraints that make trouble stand last, else anywhere.
    last: bool,
}

impl Plan {
    fn new(r: usize, trouble: Trouble, guard: Vec<Literal>) -> Plan {
        Plan {
            r,
            n: 3,
            trouble,
            guard,
            last: false,
        }
    }

    /// A set that has a good constraint behind each of these read literals, and
    /// fails as planned.
    fn set(&self, chance: &mut Chance, reads: &[Vec<Literal>]) -> Set {
        loop {
            let set = self.draft(chance, reads);
            let verdict = judge_in_the_old_order(&set);
            if self.trouble.gives(verdict) && self.is_there(verdict) {
                return set;
            }
        }
    }

    fn draft(&self, chance: &mut Chance, reads: &[Vec<Literal>]) -> Set {
        let mut set = points(chance, self.r, self.n);
        let target: Vec<bool> = (0..self.n).map(|_| chance.one_in(2)).collect();
        for reads in reads {
            let mut literals = reads.clone();
            literals.extend(towards(chance, &target));
            set.constraints.push(Constraint { literals });
        }
        let outputs = chance.order(self.n);
        let trouble = self.trouble.constraints(&self.guard, &outputs);
        set.constraints.extend(trouble);
        if !self.last {
            chance.shuffle(&mut set.constraints);
        }
        set
    }

    /// True if a set that fails does so where the guard is true.
    fn is_there(&self, verdict: Verdict) -> bool {
        match verdict {
            Verdict::Accepted => true,
            Verdict::NoVector(word) | Verdict::Clash(word, _) | Verdict::NoEnd(word, _) => {
                let guard = constraint(&self.guard, &[]);
                read_literals_true(&guard, &bits(word, self.r))
            }
        }
    }
}

/// Literals of these read points, on.
pub fn on(numbers: impl Iterator<Item = usize>) -> Vec<Literal> {
    numbers.map(|k| plain(Point::Read(k), false)).collect()
}

/// For each read point a literal by itself, so that each word has a mask of
/// its own.
pub fn alone(chance: &mut Chance, r: usize) -> Vec<Vec<Literal>> {
    let literal = |k| vec![plain(Point::Read(k), chance.one_in(3))];
    (0..r).map(literal).collect()
}

/// Read literals of some constraints by chance.
pub fn by_chance(chance: &mut Chance, r: usize, count: usize) -> Vec<Vec<Literal>> {
    (0..count).map(|_| read_literals(chance, r, 2)).collect()
}

/// Files of all these sets, with scans of those accepted.
pub fn cases(chance: &mut Chance) -> Vec<Case> {
    let mut part = Files::default();
    for set in sets(chance) {
        part.add(chance, write(&set));
    }
    part.cases
}

fn sets(chance: &mut Chance) -> Vec<Set> {
    let mut sets = Vec::new();
    for family in families(chance) {
        sets.push(family.named);
        sets.extend(family.wider.into_iter().map(|(_, set)| set));
    }
    sets.extend(one_mask(chance));
    sets.extend(one_literal(chance));
    sets.extend(blocks(chance));
    sets.extend(many_masks(chance));
    sets.extend(many_masks_late(chance));
    sets.extend(a_literal_each(chance));
    sets.extend(same_remainder(chance));
    sets.extend(first_constraints(chance));
    sets.extend(last_constraint(chance));
    sets.extend(none_active_at_first(chance));
    sets
}

/// A set that names all its read points, and the same with points added that
/// no constraint names: the numbers at which, one after the other.
struct Family {
    named: Set,
    wider: Vec<(Vec<usize>, Set)>,
}

/// Sets of each verdict, with unnamed points at either end, in the middle, and
/// several of them.
fn families(chance: &mut Chance) -> Vec<Family> {
    let troubles = [
        Trouble::Nothing,
        Trouble::Nothing,
        Trouble::Clash,
        Trouble::Shut,
        Trouble::Loop,
        Trouble::Freed,
    ];
    let mut families = Vec::new();
    for trouble in troubles {
        let r = chance.between(2, 4);
        let named = all_named(chance, r, trouble);
        let places = [vec![0], vec![r / 2], vec![r], vec![r, r / 2, 0, 0]];
        let wider = places.map(|places| {
            let set = with_unnamed(chance, &named, &places);
            (places, set)
        });
        families.push(Family {
            named,
            wider: wider.to_vec(),
        });
    }
    families
}

/// A set whose constraints name every read point; if it fails, then at a word
/// with the highest on.
fn all_named(chance: &mut Chance, r: usize, trouble: Trouble) -> Set {
    loop {
        let mut guard = read_literals(chance, r - 1, 2);
        guard.push(plain(Point::Read(r - 1), false));
        let reads = by_chance(chance, r, 4);
        let set = Plan::new(r, trouble, guard).set(chance, &reads);
        if (0..r).all(|number| is_named(&set, number)) {
            return set;
        }
    }
}

/// The set with more read points, at these numbers, one after the other.
pub fn with_unnamed(chance: &mut Chance, set: &Set, places: &[usize]) -> Set {
    let mut set = set.clone();
    for &place in places {
        let name = fresh_name(chance, &set);
        let kind = match chance.below(3) {
            0 => Kind::PastOutput(chance.below(set.outputs.len())),
            _ => Kind::Sensor,
        };
        make_room(&mut set, place);
        set.reads.insert(place, ReadPoint { kind, name });
    }
    set
}

/// Raises the numbers of read points from a place on by one.
fn make_room(set: &mut Set, place: usize) {
    let raise = |number: &mut usize| *number += usize::from(*number >= place);
    for read in &mut set.reads {
        if let Kind::PastSensor(index) = &mut read.kind {
            raise(index);
        }
    }
    for constraint in &mut set.constraints {
        for literal in &mut constraint.literals {
            if let Point::Read(number) = &mut literal.point {
                raise(number);
            }
        }
    }
}

/// Sets without read literals: all words are alike.
fn one_mask(chance: &mut Chance) -> Vec<Set> {
    let failing = [
        (4, Trouble::Clash),
        (8, Trouble::Shut),
        (5, Trouble::Loop),
        (8, Trouble::Held),
    ];
    let accepted = (4..=8).map(|r| (r, Trouble::Nothing));
    let reads = vec![Vec::new(); 3];
    let set = |(r, trouble)| Plan::new(r, trouble, Vec::new()).set(chance, &reads);
    accepted.chain(failing).map(set).collect()
}

/// Sets in which all constraints have the same read literal, so that there are
/// two masks.
fn one_literal(chance: &mut Chance) -> Vec<Set> {
    let mut sets = Vec::new();
    for (r, trouble, negated) in [
        (4, Trouble::Nothing, false),
        (5, Trouble::Nothing, true),
        (8, Trouble::Nothing, false),
        (4, Trouble::Clash, false),
        (8, Trouble::Clash, true),
        (6, Trouble::Shut, false),
        (7, Trouble::Loop, false),
        (5, Trouble::Loop, true),
    ] {
        let literal = plain(Point::Read(chance.below(r)), negated);
        let reads = vec![vec![literal]; 4];
        sets.push(Plan::new(r, trouble, vec![literal]).set(chance, &reads));
    }
    sets
}

/// Masks that stay for eight words, and masks that come back in turn.
fn blocks(chance: &mut Chance) -> Vec<Set> {
    let mut sets = Vec::new();
    for trouble in [Trouble::Nothing, Trouble::Shut, Trouble::Freed] {
        let named = all_named(chance, 4, trouble);
        sets.push(with_unnamed(chance, &named, &[0, 0, 0]));
        sets.push(with_unnamed(chance, &named, &[4, 4, 4]));
    }
    sets
}

/// Accepted sets with as many masks as words: 512 and 1,024, and some with all
/// masks twice.
fn many_masks(chance: &mut Chance) -> Vec<Set> {
    let mut sets = Vec::new();
    for (r, unnamed) in [(9, None), (9, Some(9)), (9, Some(0)), (10, None)] {
        let reads = alone(chance, r);
        let set = Plan::new(r, Trouble::Nothing, Vec::new()).set(chance, &reads);
        let places: Vec<usize> = unnamed.into_iter().collect();
        sets.push(with_unnamed(chance, &set, &places));
    }
    sets
}

/// Such sets that fail: at the last word, close to it, and where the highest
/// read points are on.
fn many_masks_late(chance: &mut Chance) -> Vec<Set> {
    let mut sets = Vec::new();
    for trouble in [
        Trouble::Clash,
        Trouble::Shut,
        Trouble::Loop,
        Trouble::Held,
        Trouble::Freed,
    ] {
        let r = chance.between(9, 10);
        let mut close = on(0..r);
        close[chance.below(3)].negated = true;
        // At the last word the highest read point stands in the guard alone, so
        // that the masks of the lower half come back in the upper.
        for (alone_up_to, guard) in [(r - 1, on(0..r)), (r, close), (r, on(r - 3..r))] {
            let reads = alone(chance, alone_up_to);
            sets.push(Plan::new(r, trouble, guard).set(chance, &reads));
        }
    }
    sets
}

/// Such sets with two constraints that do not go together, each behind the
/// literal of one of the two highest read points; they fail in the upper half.
fn a_literal_each(chance: &mut Chance) -> Vec<Set> {
    let set = |trouble| meeting(chance, 9, trouble);
    [Trouble::Clash, Trouble::Loop].map(set).to_vec()
}

fn meeting(chance: &mut Chance, r: usize, trouble: Trouble) -> Set {
    let highest = Plan::new(r, trouble, on(r - 1..r));
    loop {
        let reads = alone(chance, r);
        let mut set = Plan::new(r, Trouble::Nothing, Vec::new()).set(chance, &reads);
        let outputs = chance.order(set.outputs.len());
        for (literal, mut constraint) in on(r - 2..r)
            .into_iter()
            .zip(trouble.constraints(&[], &outputs))
        {
            constraint.literals.insert(0, literal);
            set.constraints.push(constraint);
        }
        let verdict = judge_in_the_old_order(&set);
        if trouble.gives(verdict) && highest.is_there(verdict) {
            return set;
        }
    }
}

/// Sets of few masks in which the failing word's has the remainder of a good
/// one's before it, found by trying.
fn same_remainder(chance: &mut Chance) -> Vec<Set> {
    let mut sets = Vec::new();
    for trouble in [
        Trouble::Clash,
        Trouble::Shut,
        Trouble::Loop,
        Trouble::Held,
        Trouble::Freed,
    ] {
        for r in [5, 6] {
            sets.push(like_a_good_word(chance, r, trouble));
        }
    }
    sets
}

fn like_a_good_word(chance: &mut Chance, r: usize, trouble: Trouble) -> Set {
    let wanted = "other if masks counted modulo 251, fewer of them";
    loop {
        let count = chance.between(8, 11);
        let reads = by_chance(chance, r, count);
        let guard = on(r - 3..r);
        let set = Plan::new(r, trouble, guard).set(chance, &reads);
        let sorts = sorts_by(&set, judge_in_the_old_order(&set));
        if sorts.iter().any(|sort| sort.ends_with(wanted)) {
            return set;
        }
    }
}

/// Sets that fail at a word which has the first 8, 16 or 32 constraints in
/// common with word 0: those that make trouble stand behind them.
fn first_constraints(chance: &mut Chance) -> Vec<Set> {
    let mut sets = Vec::new();
    for (r, count) in [(4, 8), (5, 16), (6, 32)] {
        for trouble in [Trouble::Clash, Trouble::Loop] {
            let reads = by_chance(chance, r - 1, count);
            sets.push(trouble_last(chance, r, trouble, &reads));
        }
    }
    sets
}

/// A set that fails where its highest read point is on.
fn trouble_last(chance: &mut Chance, r: usize, trouble: Trouble, reads: &[Vec<Literal>]) -> Set {
    let plan = Plan {
        last: true,
        ..Plan::new(r, trouble, on(r - 1..r))
    };
    plan.set(chance, reads)
}

/// Sets of 64 constraints that fail at a word which has all but the last in
/// common with word 0: the good ones stand behind read point 0.
fn last_constraint(chance: &mut Chance) -> Vec<Set> {
    let mut sets = Vec::new();
    for (good, trouble) in [(62, Trouble::Against), (61, Trouble::Held)] {
        let mut reads = by_chance(chance, 5, good);
        for literals in &mut reads {
            literals.retain(|literal| literal.point != Point::Read(0));
            literals.insert(0, plain(Point::Read(0), false));
        }
        sets.push(trouble_last(chance, 6, trouble, &reads));
    }
    sets
}

/// Sets without an active constraint as long as the highest two read points
/// are not on; if they fail, then at the last word.
fn none_active_at_first(chance: &mut Chance) -> Vec<Set> {
    let mut sets = Vec::new();
    for (r, trouble) in [
        (4, Trouble::Nothing),
        (6, Trouble::Nothing),
        (8, Trouble::Nothing),
        (4, Trouble::Clash),
        (6, Trouble::Shut),
        (8, Trouble::Clash),
        (4, Trouble::Loop),
        (6, Trouble::Loop),
        (8, Trouble::Loop),
    ] {
        let mut reads = by_chance(chance, r - 2, 5);
        for literals in &mut reads {
            literals.extend(on(r - 2..r));
        }
        sets.push(Plan::new(r, trouble, on(0..r)).set(chance, &reads));
    }
    sets
}

#[cfg(test)]
mod tests {
    use super::*;
    use crate::verdict::judge_plainly;

    /// A word with a bit more, 0, at this place.
    fn widened(word: u32, place: usize) -> u32 {
        let low = (1 << place) - 1;
        (word & low) | ((word & !low) << 1)
    }

    #[test]
    fn unnamed_read_points_move_the_word_alone() {
        let mut moved = 0;
        for seed in 0..5 {
            for family in families(&mut Chance::new(seed)) {
                let verdict = judge_plainly(&family.named);
                for (places, set) in &family.wider {
                    let word = |word| places.iter().fold(word, |w, &place| widened(w, place));
                    let expected = match verdict {
                        Verdict::Accepted => Verdict::Accepted,
                        Verdict::NoVector(at) => Verdict::NoVector(word(at)),
                        Verdict::Clash(at, output) => Verdict::Clash(word(at), output),
                        Verdict::NoEnd(at, request) => Verdict::NoEnd(word(at), request),
                    };
                    assert_eq!(judge_plainly(set), expected, "{places:?}");
                    assert_eq!(set.reads.len(), family.named.reads.len() + places.len());
                    moved += usize::from(expected != verdict);
                }
            }
        }
        assert!(moved >= 40, "{moved}");
    }
}
