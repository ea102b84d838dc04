//! Sets with read words that have no safe vector and words with an endless
//! walk, before, behind and between one another. Most of them were rejected by
//! 23 until missing vectors came before endless walks.
//!
//! As in `active`, constraints that lead to one vector stand beside some that
//! make trouble where a guard is true.

use super::active::{alone, by_chance, constraint, on, with_unnamed, Trouble};
use super::broken;
use super::counters::plain;
use super::files::Files;
use super::paths::{lead, steps, Next};
use super::sizes::sizes;
use super::states::by_hand;
use crate::chance::Chance;
use crate::file::write;
use crate::making::{points, towards};
use crate::raw::laid_out;
use crate::records::{Case, SET_BYTES};
use crate::set::{bits, Constraint, Literal, Point, Set};
use crate::verdict::{first_endless, has_safe_vector, judge, judge_in_the_old_order, Verdict};

const SCANS_EACH: usize = 12;

/// Read literals that are all true where trouble is made.
pub type Guard = Vec<Literal>;

/// What a set is to be like.
#[derive(Default)]
struct Plan {
    r: usize,
    n: usize,
    /// Read literals of constraints that lead to one vector.
    good: Vec<Guard>,
    /// Where a walk is to be endless.
    endless: Vec<Guard>,
    /// Where no vector is to be safe.
    missing: Vec<Guard>,
    /// Other constraints.
    others: Vec<Constraint>,
    /// Constraints that stand last in the file, in this order.
    last: Vec<Constraint>,
    /// A constraint to be active at an upper twin whose mask has the lower
    /// one's remainder by 251.
    upper: Option<Constraint>,
}

impl Plan {
    /// A set of this plan that is as wanted.
    fn set(&self, chance: &mut Chance, wanted: impl Fn(&Set) -> bool) -> Set {
        loop {
            let set = self.draft(chance);
            if wanted(&set) {
                return set;
            }
        }
    }

    fn draft(&self, chance: &mut Chance) -> Set {
        let mut set = points(chance, self.r, self.n);
        set.constraints = leading(chance, self.n, &self.good);
        for guard in &self.endless {
            set.constraints.extend(endless(chance, self.n, guard));
        }
        for guard in &self.missing {
            set.constraints.extend(missing(chance, self.n, guard));
        }
        set.constraints.extend(self.others.iter().cloned());
        chance.shuffle(&mut set.constraints);
        set.constraints.extend(self.last.iter().cloned());
        if let Some(upper) = &self.upper {
            place_upper(chance, &mut set, upper);
        }
        set
    }
}

/// Constraints behind these read literals that lead to one vector.
pub fn leading(chance: &mut Chance, n: usize, reads: &[Guard]) -> Vec<Constraint> {
    let target: Vec<bool> = (0..n).map(|_| chance.one_in(2)).collect();
    let behind = |reads: &Guard| {
        let mut literals = reads.clone();
        literals.extend(towards(chance, &target));
        Constraint { literals }
    };
    reads.iter().map(behind).collect()
}

/// Constraints by which a walk is endless; some way for so many outputs.
pub fn endless(chance: &mut Chance, n: usize, guard: &[Literal]) -> Vec<Constraint> {
    let outputs = chance.order(n);
    match chance.below(n.min(3) + 1) {
        0 => Trouble::Loop.constraints(guard, &outputs),
        1 => Trouble::Freed.constraints(guard, &outputs),
        2 => while_off(guard, &outputs),
        _ => Trouble::Held.constraints(guard, &outputs),
    }
}

/// An output flips for ever while another is off, so from request 0 already.
fn while_off(guard: &[Literal], outputs: &[usize]) -> Vec<Constraint> {
    let flips = |negated| constraint(guard, &[(outputs[0], true, 1), (outputs[1], negated, 0)]);
    [false, true].map(flips).to_vec()
}

/// Constraints by which no vector is safe; some way for so many outputs.
fn missing(chance: &mut Chance, n: usize, guard: &[Literal]) -> Vec<Constraint> {
    let outputs = chance.order(n);
    match chance.below(2 * n.min(3) - 1) {
        0 => Trouble::Clash.constraints(guard, &outputs),
        1 => Trouble::Shut.constraints(guard, &outputs),
        2 => pinned(guard, &outputs),
        3 => Trouble::Against.constraints(guard, &outputs),
        _ => shut_three(guard, &outputs),
    }
}

/// Two outputs are held on, and may not both be.
pub fn pinned(guard: &[Literal], outputs: &[usize]) -> Vec<Constraint> {
    let (one, other) = (outputs[0], outputs[1]);
    vec![
        constraint(guard, &[(one, true, 0)]),
        constraint(guard, &[(other, true, 0)]),
        constraint(&[], &[(one, false, 0), (other, false, 1)]),
    ]
}

/// Of three outputs each vector is forbidden.
pub fn shut_three(guard: &[Literal], outputs: &[usize]) -> Vec<Constraint> {
    let forbidden = |vector: u32| {
        let on = bits(vector, 3);
        let output = |k: usize| (outputs[k], !on[k], k as u8);
        constraint(guard, &[0, 1, 2].map(output))
    };
    (0..8).map(forbidden).collect()
}

/// The guard that is true at one word.
pub fn at(r: usize, word: u32) -> Guard {
    let on = bits(word, r);
    (0..r).map(|k| plain(Point::Read(k), !on[k])).collect()
}

/// True if walks are endless and vectors missing at these words, and each
/// verdict, the old and the new, tells the first that is due in its order.
fn fails(set: &Set, no_end: &[u32], no_vector: &[u32]) -> bool {
    let reads = |word: &u32| bits(*word, set.reads.len());
    let has_vector = |word: &u32| has_safe_vector(set, &reads(word));
    let is_endless = |word: &u32| has_vector(word) && first_endless(set, &reads(word)).is_some();
    if no_vector.iter().any(has_vector) || !no_end.iter().all(is_endless) {
        return false;
    }
    let (endless, missing) = (no_end.iter().min(), no_vector.iter().min());
    let due_before = endless.into_iter().chain(missing).min();
    let due_now = missing.or(endless);
    told(judge_in_the_old_order(set)).as_ref() == due_before && told(judge(set)).as_ref() == due_now
}

/// The word that a rejection names.
fn told(verdict: Verdict) -> Option<u32> {
    match verdict {
        Verdict::Accepted => None,
        Verdict::NoVector(word) | Verdict::Clash(word, _) | Verdict::NoEnd(word, _) => Some(word),
    }
}

/// Files of all these sets.
pub fn cases(chance: &mut Chance) -> Vec<Case> {
    let mut part = Files::default();
    for set in sets(chance) {
        part.add(chance, write(&set));
    }
    part.cases
}

/// Sets that were rejected by 23 and are by 22 now: some with buffers of many
/// sizes, some as they lie in memory, one of these broken, and some in states
/// made by hand.
pub fn others(chance: &mut Chance) -> Vec<Case> {
    let mut cases = Vec::new();
    for n in 2..=7 {
        let (no_end, no_vector) = Shape::Far.words(chance, 3);
        let set = failing(chance, 3, n, &no_end, &no_vector);
        let file = write(&set);
        let sizes = sizes(&file);
        cases.push(Case::Buffers { file, sizes });
    }
    for r in 2..=5 {
        let (no_end, no_vector) = Shape::Between.words(chance, r);
        let set = failing(chance, r, 3, &no_end, &no_vector);
        cases.push(broken::case(chance, &set, laid_out(&set)));
        cases.push(by_hand(chance, &set, SCANS_EACH));
    }
    let set = failing(chance, 2, 2, &[0], &[3]);
    let mut with_a_rank_beyond = laid_out(&set);
    with_a_rank_beyond[SET_BYTES - 1] = 1;
    cases.push(broken::case(chance, &set, with_a_rank_beyond));
    cases
}

fn sets(chance: &mut Chance) -> Vec<Set> {
    let mut sets = small(chance);
    sets.extend(by_shapes(chance));
    sets.extend(many_masks(chance));
    sets.extend(twins(chance));
    sets.extend(full(chance));
    sets.extend(one_vector_behind(chance));
    sets.extend(one_vector_there(chance));
    sets.extend(same_masks(chance));
    sets.extend(several_endless(chance));
    sets.extend(endless_twins(chance));
    sets.extend(missing_first(chance));
    sets
}

/// A set that fails at these words, beside a few constraints that are good.
pub fn failing(chance: &mut Chance, r: usize, n: usize, no_end: &[u32], no_vector: &[u32]) -> Set {
    beside(chance, r, n, Vec::new(), no_end, no_vector)
}

/// The same with other constraints as well.
fn beside(
    chance: &mut Chance,
    r: usize,
    n: usize,
    others: Vec<Constraint>,
    no_end: &[u32],
    no_vector: &[u32],
) -> Set {
    let guard = |word: &u32| at(r, *word);
    let count = chance.below(5);
    let plan = Plan {
        r,
        n,
        good: by_chance(chance, r, count),
        endless: no_end.iter().map(guard).collect(),
        missing: no_vector.iter().map(guard).collect(),
        others,
        ..Plan::default()
    };
    plan.set(chance, |set| fails(set, no_end, no_vector))
}

/// One read point and each number of outputs, and all there is with two.
fn small(chance: &mut Chance) -> Vec<Set> {
    let mut sets: Vec<Set> = (2..=8).map(|n| failing(chance, 1, n, &[0], &[1])).collect();
    let words: [(&[u32], &[u32]); 11] = [
        (&[0], &[1]),
        (&[0], &[2]),
        (&[0], &[3]),
        (&[1], &[2]),
        (&[1], &[3]),
        (&[2], &[3]),
        (&[0], &[1, 2, 3]),
        (&[0, 2], &[1, 3]),
        (&[0, 1], &[2]),
        (&[0, 1], &[3]),
        (&[0, 1, 2], &[3]),
    ];
    for (no_end, no_vector) in words {
        let n = chance.between(2, 4);
        sets.push(failing(chance, 2, n, no_end, no_vector));
    }
    sets
}

/// How the words that fail lie.
#[derive(Clone, Copy)]
enum Shape {
    /// No vector right behind the endless word.
    Next,
    /// No vector at the last word alone.
    Last,
    /// No vector at a word that is neither.
    Far,
    /// No vector at several words.
    Several,
    /// More endless words before the one without a vector.
    Between,
}

impl Shape {
    /// Endless words, and words without a vector.
    fn words(self, chance: &mut Chance, r: usize) -> (Vec<u32>, Vec<u32>) {
        let last = (1 << r) - 1;
        let early = chance.below(last / 2);
        let any = chance.below(last);
        match self {
            Shape::Next => (vec![any as u32], vec![any as u32 + 1]),
            Shape::Last => (vec![any as u32], vec![last as u32]),
            Shape::Far => (vec![early as u32], drawn(chance, 1, early + 2, last - 1)),
            Shape::Several => (vec![early as u32], drawn(chance, 3, early + 1, last)),
            Shape::Between => {
                let mut behind = drawn(chance, 3, early + 1, last);
                let missing = behind.split_off(2);
                (vec![early as u32, behind[0], behind[1]], missing)
            }
        }
    }
}

/// So many words from the first to the last, in rising order.
fn drawn(chance: &mut Chance, count: usize, first: usize, last: usize) -> Vec<u32> {
    let mut words = chance.order(last + 1 - first);
    words.truncate(count);
    words.sort();
    words.iter().map(|word| (first + word) as u32).collect()
}

/// Sets of 3 to 8 read points and up to 8 outputs, of each shape.
fn by_shapes(chance: &mut Chance) -> Vec<Set> {
    let shapes = [
        Shape::Next,
        Shape::Last,
        Shape::Far,
        Shape::Several,
        Shape::Between,
    ];
    let mut sets = Vec::new();
    for r in 3..=8 {
        for (place, shape) in shapes.into_iter().enumerate() {
            // From 2 on, so that r and n are 11 at most.
            let n = 2 + (place + r) % (10 - r);
            let (no_end, no_vector) = shape.words(chance, r);
            sets.push(failing(chance, r, n, &no_end, &no_vector));
        }
    }
    sets
}

/// Sets with as many masks as words, 512 and 1,024, that are endless at a low
/// word and have no vector at the last, close to it, and where the highest
/// read points are on.
fn many_masks(chance: &mut Chance) -> Vec<Set> {
    let mut sets = Vec::new();
    for r in [9, 10] {
        let (half, last) = (1 << (r - 1), (1 << r) - 1);
        let close = last - (1 << chance.below(3));
        let highest = [on(r - 2..r), on(r - 1..r)];
        let ends = [last, close].map(|word| (word, at(r, word)));
        let blocks = [half + half / 2, half].into_iter().zip(highest);
        for (word, guard) in ends.into_iter().chain(blocks) {
            let low = chance.below(4) as u32;
            let plan = Plan {
                r,
                n: chance.between(2, 4),
                good: alone(chance, r),
                endless: vec![at(r, low)],
                missing: vec![guard],
                ..Plan::default()
            };
            sets.push(plan.set(chance, |set| fails(set, &[low], &[word])));
        }
    }
    sets
}

/// Two words that differ in the highest read point alone are twins. Here the
/// upper has no vector and the lower has: a word before the endless one, that
/// one itself, or a word behind it.
#[derive(Clone, Copy)]
enum Lower {
    Before,
    Endless,
    Behind,
}

/// The words that such a set is made for.
struct Twins {
    r: usize,
    endless: u32,
    lower: u32,
}

impl Twins {
    fn drawn(chance: &mut Chance, r: usize, lower: Lower) -> Twins {
        let half = 1 << (r - 1);
        let low = chance.below(half - 1);
        let high = chance.between(low + 1, half - 1);
        let (endless, lower) = match lower {
            Lower::Before => (high, low),
            Lower::Endless => (low, low),
            Lower::Behind => (low, high),
        };
        Twins {
            r,
            endless: endless as u32,
            lower: lower as u32,
        }
    }

    fn upper(&self) -> u32 {
        self.lower + (1 << (self.r - 1))
    }

    /// True at the upper twin alone.
    fn guard(&self) -> Guard {
        at(self.r, self.upper())
    }

    /// A plan whose good constraints do not name the highest read point; none
    /// of them is active at the endless word.
    fn plan(&self, chance: &mut Chance, n: usize, good: usize) -> Plan {
        Plan {
            r: self.r,
            n,
            good: quiet(chance, self.r - 1, self.endless, good),
            ..Plan::default()
        }
    }

    /// True at the endless word and its own upper twin.
    fn endless_guard(&self) -> Guard {
        at(self.r - 1, self.endless)
    }

    fn fail(&self, set: &Set) -> bool {
        fails(set, &[self.endless], &[self.upper()])
    }
}

/// Sets whose word without a vector looks like its twin to a wrong reading.
fn twins(chance: &mut Chance) -> Vec<Set> {
    let mut sets = Vec::new();
    for lower in [Lower::Before, Lower::Endless, Lower::Behind] {
        for (r, count) in [(4, 8), (5, 16), (5, 16), (6, 32), (6, 32)] {
            let twins = Twins::drawn(chance, r, lower);
            sets.push(missing_last(chance, &twins, count));
        }
        for r in [5, 6] {
            let twins = Twins::drawn(chance, r, lower);
            sets.push(last_alone(chance, &twins));
        }
        for r in [4, 5, 6] {
            let twins = Twins::drawn(chance, r, lower);
            sets.push(same_remainder(chance, &twins));
        }
    }
    sets
}

/// The twins have so many first constraints in common; those that leave no
/// vector at the upper stand behind them.
fn missing_last(chance: &mut Chance, twins: &Twins, count: usize) -> Set {
    let n = chance.between(3, 4);
    let plan = Plan {
        endless: vec![twins.endless_guard()],
        last: missing(chance, n, &twins.guard()),
        ..twins.plan(chance, n, count)
    };
    plan.set(chance, |set| twins.fail(set))
}

/// Read literals of so many constraints, none of them active at a word.
fn quiet(chance: &mut Chance, r: usize, word: u32, count: usize) -> Vec<Guard> {
    let mut quiet = Vec::new();
    while quiet.len() < count {
        let there = at(r, word);
        let reads = by_chance(chance, r, 1).remove(0);
        if reads.iter().any(|literal| !there.contains(literal)) {
            quiet.push(reads);
        }
    }
    quiet
}

/// A set of 64 constraints, the last of which alone makes the difference.
fn last_alone(chance: &mut Chance, twins: &Twins) -> Set {
    let outputs = chance.order(4);
    let plan = Plan {
        others: Trouble::Loop.constraints(&twins.endless_guard(), &outputs[1..]),
        last: Trouble::Against.constraints(&twins.guard(), &outputs),
        ..twins.plan(chance, 4, 60)
    };
    plan.set(chance, |set| twins.fail(set))
}

/// The twins' masks have the same remainder by 251.
fn same_remainder(chance: &mut Chance, twins: &Twins) -> Set {
    let outputs = chance.order(4);
    let mut against = Trouble::Against.constraints(&twins.guard(), &outputs);
    let plan = Plan {
        endless: vec![twins.endless_guard()],
        upper: against.pop(),
        others: against,
        ..twins.plan(chance, 4, 10)
    };
    plan.set(chance, |set| twins.fail(set))
}

/// Adds a constraint that is active at an upper twin, and two that are so at
/// the lower one. Of their places k+8, k and k+2 the bits are 256, 1 and 4 times
/// 2^k: the masks differ by 251 times that.
fn place_upper(chance: &mut Chance, set: &mut Set, upper: &Constraint) {
    let (r, n) = (set.reads.len(), set.outputs.len());
    let place = chance.below(set.constraints.len() - 5);
    let off = vec![plain(Point::Read(r - 1), true)];
    let lower = leading(chance, n, &[off.clone(), off]);
    for (constraint, at) in lower.into_iter().zip([place, place + 2]) {
        set.constraints.insert(at, constraint);
    }
    set.constraints.insert(place + 8, upper.clone());
}

/// Sets of 64 constraints.
fn full(chance: &mut Chance) -> Vec<Set> {
    let mut sets = Vec::new();
    for (r, n) in [(3, 3), (4, 5), (5, 4)] {
        let (no_end, no_vector) = Shape::Far.words(chance, r);
        let outputs = chance.order(n);
        let mut others = Trouble::Loop.constraints(&at(r, no_end[0]), &outputs);
        others.extend(Trouble::Shut.constraints(&at(r, no_vector[0]), &outputs[1..]));
        let plan = Plan {
            r,
            n,
            good: quiet(chance, r, no_end[0], 58),
            others,
            ..Plan::default()
        };
        sets.push(plan.set(chance, |set| fails(set, &no_end, &no_vector)));
    }
    sets
}

/// Constraints that leave one vector where the guard is true, all outputs on
/// or all off: each is held, or each has to be as the next.
fn one_vector(chance: &mut Chance, n: usize, guard: &[Literal], on: bool) -> Vec<Constraint> {
    if chance.one_in(2) {
        let held = |output| constraint(guard, &[(output, on, 0)]);
        return (0..n).map(held).collect();
    }
    let ring = |output: usize| {
        let next = (output + 1) % n;
        constraint(guard, &[(output, on, 0), (next, !on, 1)])
    };
    let mut constraints: Vec<Constraint> = (0..n).map(ring).collect();
    constraints.push(constraint(guard, &[(0, on, 0), (1, on, 0)]));
    constraints
}

/// Sets with one safe vector, the first or the last, at a word behind the
/// endless one; with and without a word that has none behind it.
fn one_vector_behind(chance: &mut Chance) -> Vec<Set> {
    let mut sets = Vec::new();
    for n in [2, 3, 5] {
        for (on, lacks) in [(false, false), (false, true), (true, false), (true, true)] {
            let r = chance.between(2, 4);
            let (words, missing) = Shape::Between.words(chance, r);
            let one = one_vector(chance, n, &at(r, words[1]), on);
            let missing = if lacks { missing } else { Vec::new() };
            sets.push(beside(chance, r, n, one, &words[..1], &missing));
        }
    }
    sets
}

/// Sets whose endless word has one safe vector itself, the first or the last;
/// of the others some lead there and some to one another.
fn one_vector_there(chance: &mut Chance) -> Vec<Set> {
    let mut sets = Vec::new();
    for n in [2, 3] {
        for (on, lacks) in [(false, false), (false, true), (true, false), (true, true)] {
            let r = chance.between(1, 3);
            let no_end = chance.below((1 << r) - 1) as u32;
            let missing = if lacks { vec![no_end + 1] } else { Vec::new() };
            let next = one_safe(chance, n, on);
            let plan = Plan {
                r,
                n,
                missing: missing.iter().map(|&word| at(r, word)).collect(),
                others: steps(chance, &next, &at(r, no_end)),
                ..Plan::default()
            };
            sets.push(plan.set(chance, |set| fails(set, &[no_end], &missing)));
        }
    }
    sets
}

/// The first or the last vector alone is safe.
fn one_safe(chance: &mut Chance, n: usize, on: bool) -> Next {
    let all = 1usize << n;
    let safe = if on { all - 1 } else { 0 };
    let mut others: Vec<usize> = (0..all).filter(|&vector| vector != safe).collect();
    chance.shuffle(&mut others);
    let mut turning = others.split_off(all / 2 - 1);
    turning.push(turning[0]);
    others.push(safe);
    let mut next = vec![None; all];
    lead(&mut next, &others);
    lead(&mut next, &turning);
    next
}

/// Sets in which more words have the endless word's mask, since no constraint
/// names some read point; with and without a word that has no vector.
fn same_masks(chance: &mut Chance) -> Vec<Set> {
    let mut sets = Vec::new();
    for r in [1, 2, 3] {
        for lacks in [true, false] {
            let n = chance.between(2, 4);
            let no_end = chance.below((1 << r) - 1) as u32;
            let last = (1 << r) - 1;
            let missing = if lacks { vec![last] } else { Vec::new() };
            let named = failing(chance, r, n, &[no_end], &missing);
            for places in [vec![0], vec![r, r, 0]] {
                sets.push(with_unnamed(chance, &named, &places));
            }
        }
    }
    sets
}

/// Sets with more than one endless word and no other that fails, and sets
/// without a read point.
fn several_endless(chance: &mut Chance) -> Vec<Set> {
    let mut sets: Vec<Set> = [2, 5].map(|n| failing(chance, 0, n, &[0], &[])).to_vec();
    for (r, n) in [
        (1, 2),
        (2, 2),
        (2, 3),
        (3, 3),
        (3, 4),
        (4, 4),
        (5, 5),
        (6, 3),
    ] {
        let words = drawn(chance, 4, 0, (1 << r) - 1);
        sets.push(failing(chance, r, n, &words, &[]));
    }
    sets
}

/// Sets with an endless upper twin whose mask has the lower one's remainder by
/// 251, and no word without a vector.
fn endless_twins(chance: &mut Chance) -> Vec<Set> {
    let mut sets = Vec::new();
    for r in [4, 5] {
        let twins = Twins::drawn(chance, r, Lower::Endless);
        let outputs = chance.order(4);
        let mut held = Trouble::Held.constraints(&twins.guard(), &outputs);
        let plan = Plan {
            upper: held.pop(),
            others: held,
            ..twins.plan(chance, 4, 10)
        };
        sets.push(plan.set(chance, |set| fails(set, &[twins.upper()], &[])));
    }
    sets
}

/// Sets that fail first at a word without a vector: before an endless word,
/// before more without a vector, behind one with the first or the last vector
/// alone, or by itself.
fn missing_first(chance: &mut Chance) -> Vec<Set> {
    let mut sets: Vec<Set> = [1, 2, 4].map(|n| failing(chance, 0, n, &[], &[0])).to_vec();
    sets.push(failing(chance, 1, 1, &[], &[1]));
    sets.push(failing(chance, 3, 1, &[], &[2, 5]));
    sets.push(failing(chance, 1, 2, &[1], &[0]));
    for (r, n) in [(2, 3), (3, 2), (4, 4), (5, 3), (6, 2)] {
        let (no_vector, no_end) = Shape::Several.words(chance, r);
        sets.push(failing(chance, r, n, &no_end, &no_vector));
    }
    for (r, n) in [(2, 2), (4, 5)] {
        let (first, more) = Shape::Several.words(chance, r);
        sets.push(failing(chance, r, n, &[], &[first, more].concat()));
        for on in [false, true] {
            let (one, last) = Shape::Last.words(chance, r);
            let one = one_vector(chance, n, &at(r, one[0]), on);
            sets.push(beside(chance, r, n, one, &[], &last));
        }
    }
    sets
}
