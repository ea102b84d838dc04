//! Sets for a verdict that has one bit of scratch for each vector: what it marks
//! in which byte, and which vectors of a byte it takes for safe. Some come with
//! scratch of many sizes.

use super::active::{constraint, Trouble};
use super::counters::Counter;
use super::files::Files;
use super::order::{at, failing, shut_three, Guard};
use super::paths::{self, lead, steps};
use super::rests::rest;
use crate::chance::Chance;
use crate::file::write;
use crate::making::{set, Recipe};
use crate::records::Case;
use crate::set::{Constraint, Literal, Point, Set};
use crate::verdict::{judge, scratch_bytes, Verdict};
use std::ops::Range;

/// The scratch that the driver of document 02 lends.
const LENT: usize = 512;

/// Files of all these sets, and buffers of many sizes.
pub fn cases(chance: &mut Chance) -> Vec<Case> {
    let mut part = Files::default();
    for set in sets(chance) {
        part.add(chance, write(&set));
    }
    part.cases.extend(with_sizes(chance));
    part.cases
}

fn sets(chance: &mut Chance) -> Vec<Set> {
    let mut sets = few_outputs(chance);
    sets.extend(counters(chance));
    sets.extend(long_walks(chance));
    sets.extend(turning(chance));
    sets.extend(few_left(chance));
    sets.extend(few_left_before(chance));
    sets.extend(one_byte_left(chance));
    sets.extend(clashes(chance));
    sets.extend(rings(chance));
    sets.extend(chains(chance));
    sets.extend(twins(chance));
    sets.extend(by_three(chance));
    sets.extend(at_a_word(chance));
    sets.extend(by_recipes(chance));
    sets
}

/// Points by chance, and these constraints in any order; at times with a rest
/// word.
fn around(chance: &mut Chance, r: usize, n: usize, constraints: Vec<Constraint>) -> Set {
    let mut set = paths::set(chance, r, n, constraints);
    if chance.one_in(3) {
        set.rest = rest(chance, n);
    }
    set
}

/// Few read points, and read literals that are all true at the last word.
fn last_word(chance: &mut Chance) -> (usize, Guard) {
    let r = chance.below(3);
    (r, at(r, (1 << r) - 1))
}

/// One and two outputs: fewer vectors than a byte has bits.
fn few_outputs(chance: &mut Chance) -> Vec<Set> {
    let mut sets = Vec::new();
    for n in [1, 2] {
        for r in [0, 1, 2, 3] {
            for recipe in [Recipe::Loose, Recipe::Bent, Recipe::Clash] {
                let m = chance.between(1, 4);
                sets.push(set(chance, recipe, r, n, m));
            }
        }
    }
    sets
}

/// Walks through all vectors to the last that is left, all of them marked.
fn counters(chance: &mut Chance) -> Vec<Set> {
    let counter = |n: usize| {
        let (r, guard) = last_word(chance);
        let counter = Counter::mixed(chance, n).guarded(&guard);
        around(chance, r, n, counter.constraints(0))
    };
    (2..=9).map(counter).collect()
}

/// Walks of 511 passes, through some of the vectors.
fn long_walks(chance: &mut Chance) -> Vec<Set> {
    let walk = |n: usize| {
        let guard = agreed(chance, &(9..n).collect::<Vec<usize>>());
        let counter = Counter::plain(9).guarded(&guard);
        around(chance, 0, n, counter.constraints(0))
    };
    [9, 11, 12].map(walk).to_vec()
}

/// Counters that turn: no vector is safe at the last word.
fn turning(chance: &mut Chance) -> Vec<Set> {
    let turning = |n: usize| {
        let (r, guard) = last_word(chance);
        let counter = Counter::mixed(chance, n).guarded(&guard).turning();
        around(chance, r, n, counter.constraints(0))
    };
    (2..=12).map(turning).collect()
}

/// Constraints by which each of these outputs ends on or off, as said: it is
/// held so, or yields whatever some other output is.
fn led(
    chance: &mut Chance,
    n: usize,
    guard: &[Literal],
    ending: &[(usize, bool)],
) -> Vec<Constraint> {
    let mut constraints = Vec::new();
    for &(output, on) in ending {
        if chance.one_in(3) {
            constraints.push(constraint(guard, &[(output, on, 0)]));
            continue;
        }
        let other = (output + chance.between(1, n - 1)) % n;
        let pair = [false, true].map(|sign| [(output, on, 0), (other, sign, 9)]);
        constraints.extend(pair.map(|outputs| constraint(guard, &outputs)));
    }
    constraints
}

/// How outputs from one number to another are to end: all off, all on or any
/// way.
fn ending(chance: &mut Chance, outputs: Range<usize>, sort: usize) -> Vec<(usize, bool)> {
    let on = |chance: &mut Chance| match sort {
        0 => false,
        1 => true,
        _ => chance.one_in(2),
    };
    outputs.map(|output| (output, on(chance))).collect()
}

/// Sets with one safe vector at the last word, with those of one byte, or with
/// those at one bit of each byte.
fn few_left(chance: &mut Chance) -> Vec<Set> {
    let mut sets = Vec::new();
    for n in 4..=12 {
        for outputs in [0..n, 3..n, 0..3] {
            for sort in [n % 2, 2] {
                let (r, guard) = last_word(chance);
                let ending = ending(chance, outputs.clone(), sort);
                let constraints = led(chance, n, &guard, &ending);
                sets.push(around(chance, r, n, constraints));
            }
        }
    }
    sets
}

/// Sets with one safe vector at word 1, or with those of one byte, the first
/// or the last, and with none at the last word.
fn few_left_before(chance: &mut Chance) -> Vec<Set> {
    let mut sets = Vec::new();
    for n in 4..=12 {
        for (outputs, sort) in [(0..n, 2), (3..n, n % 2)] {
            let ending = ending(chance, outputs, sort);
            let mut constraints = led(chance, n, &at(2, 1), &ending);
            constraints.extend(Trouble::Clash.constraints(&at(2, 3), &chance.order(n)));
            sets.push(around(chance, 2, n, constraints));
        }
    }
    sets
}

/// Sets in which all walks lead to one byte at the last word, the first, the
/// last or another, and no vector of it is safe or half of it is a loop.
fn one_byte_left(chance: &mut Chance) -> Vec<Set> {
    let mut sets = Vec::new();
    for n in 4..=12 {
        for (sort, digits) in [(n % 2, 3), (2, 2)] {
            let (r, guard) = last_word(chance);
            let ending = ending(chance, 3..n, sort);
            let mut constraints = led(chance, n, &guard, &ending);
            let around_ring = [guard, agreed(chance, &[0, 1, 2][digits..])].concat();
            let ring = Counter::mixed(chance, digits).guarded(&around_ring);
            constraints.extend(ring.turning().constraints(0));
            sets.push(around(chance, r, n, constraints));
        }
    }
    sets
}

/// Sets whose low three outputs, or all others, are held at the last word: one
/// of them is held both ways, or two of them so as a constraint forbids.
fn clashes(chance: &mut Chance) -> Vec<Set> {
    let mut sets = Vec::new();
    for n in 2..=12 {
        for (first, last) in [(0, n.min(3)), (n.min(3), n)] {
            if last - first >= 2 {
                let (r, guard) = last_word(chance);
                let some = ending(chance, first..last, 2);
                let forbidden: Vec<(usize, bool, u8)> =
                    some.iter().map(|&(output, on)| (output, !on, 0)).collect();
                let held = |&(output, on): &(usize, bool)| constraint(&guard, &[(output, on, 0)]);
                let mut constraints: Vec<Constraint> = some.iter().map(held).collect();
                let count = chance.between(1, 2);
                constraints.push(constraint(&[], &forbidden[..count]));
                sets.push(around(chance, r, n, constraints));
            }
        }
    }
    sets
}

/// Literals of these outputs, plain or negated by chance, that do not yield.
fn agreed(chance: &mut Chance, outputs: &[usize]) -> Vec<Literal> {
    let literal = |&output: &usize| Literal {
        point: Point::Output(output),
        negated: chance.one_in(2),
        rank: 200,
    };
    outputs.iter().map(literal).collect()
}

/// From so many outputs to twelve, the largest numbers more often.
fn mostly_many(least: usize) -> impl Iterator<Item = usize> {
    (least..=12).chain(9..=12).chain(11..=12).chain([12])
}

/// Sets that are endless at the last word from vectors that agree in some
/// outputs: those of one byte, those at one bit of some bytes, or others.
fn rings(chance: &mut Chance) -> Vec<Set> {
    let mut sets = Vec::new();
    for n in mostly_many(4) {
        let all: Vec<usize> = (0..n).collect();
        let (low, high) = all.split_at(3);
        sets.push(ring(chance, n, low, high));
        if n > 4 {
            let digits: Vec<usize> = chance.order(n - 3)[..2].iter().map(|k| k + 3).collect();
            sets.push(ring(chance, n, &digits, low));
        }
        let order = chance.order(n);
        let (digits, others) = order.split_at(chance.between(2, 3));
        let some = chance.between(1, others.len());
        sets.push(ring(chance, n, digits, &others[..some]));
    }
    sets
}

/// A counter over some outputs that turns where others agree. The highest of
/// these is on twice in three times: then there are vectors before it that
/// differ in nothing else.
fn ring(chance: &mut Chance, n: usize, digits: &[usize], others: &[usize]) -> Set {
    let (r, mut guard) = last_word(chance);
    guard.extend(agreed(chance, others));
    let highest = guard.iter_mut().max_by_key(|literal| literal.point);
    if let Some(highest) = highest.filter(|_| !chance.one_in(3)) {
        highest.negated = false;
    }
    let counter = Counter {
        digits: digits.to_vec(),
        last: digits.iter().map(|_| chance.one_in(2)).collect(),
        guard,
        turns: true,
    };
    around(chance, r, n, counter.constraints(3))
}

/// Few vectors that are not safe, anywhere: they lead from one to the next and
/// to a safe one, or back.
fn chains(chance: &mut Chance) -> Vec<Set> {
    let mut sets = Vec::new();
    for n in mostly_many(3) {
        for back in [false, true] {
            let mut order = chance.order(1 << n);
            order.truncate(chance.between(4, 1 << n.min(5)));
            if back {
                let last = order.len() - 1;
                order[last] = order[chance.below(last)];
            }
            sets.push(leading(chance, n, &[order]));
        }
    }
    sets
}

/// A loop of vectors, while those that differ from its first by one output
/// each, or by all of the low three, lead to a safe one.
fn twins(chance: &mut Chance) -> Vec<Set> {
    let mut sets = Vec::new();
    for n in mostly_many(4) {
        let all = 1usize << n;
        let first = chance.between(all / 2, all - 1);
        let mut twins: Vec<usize> = (0..n).map(|output| first ^ (1 << output)).collect();
        twins.push(first ^ 7);
        let apart = |vector: &usize| *vector != first && !twins.contains(vector);
        let others: Vec<usize> = chance.order(all).into_iter().filter(apart).collect();
        chance.shuffle(&mut twins);
        twins.push(others[0]);
        sets.push(leading(chance, n, &[twins, vec![first, others[1], first]]));
    }
    sets
}

/// A set whose vectors lead along these paths at the last word.
fn leading(chance: &mut Chance, n: usize, paths: &[Vec<usize>]) -> Set {
    let (r, guard) = last_word(chance);
    let mut next = vec![None; 1 << n];
    for path in paths {
        lead(&mut next, path);
    }
    let constraints = steps(chance, &next, &guard);
    around(chance, r, n, constraints)
}

/// All vectors are forbidden by what three outputs are, or all but those of one
/// choice: the low three, none of them, or some.
fn by_three(chance: &mut Chance) -> Vec<Set> {
    let mut sets = Vec::new();
    for n in 3..=12 {
        let mut choices = vec![vec![0, 1, 2], chance.order(n)];
        if n > 5 {
            let high = chance.order(n - 3);
            choices.push(high.into_iter().map(|output| output + 3).collect());
        }
        for (place, outputs) in choices.into_iter().enumerate() {
            let (r, guard) = last_word(chance);
            let mut constraints = shut_three(&guard, &outputs);
            if (n + place) % 2 == 0 {
                constraints.remove(chance.below(8));
            }
            sets.push(around(chance, r, n, constraints));
        }
    }
    sets
}

/// Sets with no safe vector, or with an endless walk, at some word: by simple
/// constraints, by combined ones or by both.
fn at_a_word(chance: &mut Chance) -> Vec<Set> {
    let mut sets = Vec::new();
    for n in 1..=12 {
        for no_end in [false, true] {
            if n > 1 || !no_end {
                let r = chance.between(1, 3);
                let word = [chance.between(1, (1 << r) - 1) as u32];
                let (endless, missing) = word.split_at(usize::from(no_end));
                sets.push(failing(chance, r, n, endless, missing));
            }
        }
    }
    sets
}

/// Sets by recipes, with holds among their constraints.
fn by_recipes(chance: &mut Chance) -> Vec<Set> {
    let mut sets = Vec::new();
    for n in 3..=12 {
        for recipe in [Recipe::Planted, Recipe::Bent, Recipe::Loose] {
            let (r, m) = (chance.below(3), chance.between(2, 14));
            let drawn = set(chance, recipe, r, n, m).constraints;
            sets.push(around(chance, r, n, drawn));
        }
    }
    sets.push(set(chance, Recipe::Planted, 1, 12, 64));
    sets
}

/// For each number of outputs sets of each verdict with some output held, with
/// and without a rest word.
fn with_sizes(chance: &mut Chance) -> Vec<Case> {
    let mut cases = Vec::new();
    for n in 1..=12 {
        for rests in [false, true] {
            let mut sets = vec![held(chance, n), failing(chance, 1, n, &[], &[1])];
            if n > 1 {
                sets.push(failing(chance, 1, n, &[1], &[]));
            }
            for mut set in sets {
                if rests {
                    set.rest = rest(chance, n);
                }
                let file = write(&set);
                let sizes = sizes(n);
                cases.push(Case::Buffers { file, sizes });
            }
        }
    }
    cases
}

/// An accepted set with an output that is held at a word.
fn held(chance: &mut Chance, n: usize) -> Set {
    let (r, guard) = (1, at(1, 1));
    let output = chance.below(n);
    loop {
        let mut set = set(chance, Recipe::Planted, r, n, 4);
        let holds = constraint(&guard, &[(output, chance.one_in(2), 0)]);
        set.constraints.push(holds);
        if judge(&set) == Verdict::Accepted {
            return set;
        }
    }
}

/// Sizes around a bit and around a byte for each vector, and around what the
/// driver lends.
pub fn sizes(n: usize) -> Vec<u16> {
    let (bits, bytes) = (scratch_bytes(n), 1 << n);
    let mut sizes = vec![0, 1, 2 * bits];
    for size in [bits, bytes, LENT] {
        sizes.extend([size - 1, size, size + 1]);
    }
    sizes.sort();
    sizes.dedup();
    sizes.into_iter().map(|size| size as u16).collect()
}
