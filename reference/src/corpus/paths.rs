//! Sets whose walks run along paths walked before: from one vector to the next
//! through all of them, or into a loop for a late request only.
//!
//! But for the counters there is one constraint for each vector that leads on.
//! It names all outputs, and its lowest ranks flip the vector to the next.

use super::counters::{holding, plain, Counter};
use super::files::Files;
use crate::chance::Chance;
use crate::file::write;
use crate::making::{points, step};
use crate::records::Case;
use crate::set::{Constraint, Literal, Point, Set};

/// Where each vector leads; the safe ones lead nowhere.
pub type Next = Vec<Option<usize>>;

/// Files of all these sets, with scans of those accepted.
pub fn cases(chance: &mut Chance) -> Vec<Case> {
    let mut sets = counters(chance);
    sets.extend(chains(chance));
    sets.extend(late_loops(chance));
    sets.extend(loops_at_a_word(chance));
    let mut part = Files::default();
    for set in sets {
        part.add(chance, write(&set));
    }
    part.cases
}

/// Points by chance, and these constraints in any order.
pub fn set(chance: &mut Chance, r: usize, n: usize, mut constraints: Vec<Constraint>) -> Set {
    chance.shuffle(&mut constraints);
    Set {
        constraints,
        ..points(chance, r, n)
    }
}

/// Literals of read points 0 to r-1, the last of them on.
fn guard(chance: &mut Chance, r: usize) -> Vec<Literal> {
    (0..r)
        .map(|k| plain(Point::Read(k), k + 1 < r && chance.one_in(2)))
        .collect()
}

/// Counters of 3 to 6 outputs: in order, in any order behind read literals,
/// and beside an output that is held at times.
fn counters(chance: &mut Chance) -> Vec<Set> {
    let mut sets = Vec::new();
    for count in 3..=6 {
        let in_order = Counter::plain(count).constraints(0);
        sets.push(set(chance, 0, count, in_order));
        let guard = guard(chance, count - 2);
        let behind = Counter::mixed(chance, count).guarded(&guard);
        sets.push(set(chance, count - 2, count, behind.constraints(9)));
        let mut beside = Counter::mixed(chance, count).constraints(200);
        beside.push(holding(count, chance.one_in(2)));
        sets.push(set(chance, 1, count + 1, beside));
    }
    sets
}

/// Chains through all vectors in several orders, some behind a read literal.
fn chains(chance: &mut Chance) -> Vec<Set> {
    let mut sets = Vec::new();
    for n in [3, 4] {
        let all = 1usize << n;
        let falling: Vec<usize> = (0..all).rev().collect();
        let one_output_each = (0..all).map(|v| v ^ (v >> 1)).collect();
        let even_first = (0..all).map(|v| 2 * v % all + 2 * v / all).collect();
        for (r, order) in [(0, falling), (1, one_output_each), (2, even_first)] {
            let guard = guard(chance, r);
            sets.push(leading(chance, &along(&order), &guard));
        }
    }
    for n in [3, 4, 5, 6] {
        let order = chance.order(1 << n);
        let guard = guard(chance, n % 3);
        sets.push(leading(chance, &along(&order), &guard));
    }
    sets
}

/// Each vector of an order leads to the next, and the last is safe.
fn along(order: &[usize]) -> Next {
    let mut next = vec![None; order.len()];
    lead(&mut next, order);
    next
}

/// Lets each of these vectors lead to the one behind it.
pub fn lead(next: &mut Next, order: &[usize]) {
    for pair in order.windows(2) {
        next[pair[0]] = Some(pair[1]);
    }
}

/// A set whose vectors lead so where the guard is true.
fn leading(chance: &mut Chance, next: &Next, guard: &[Literal]) -> Set {
    let constraints = steps(chance, next, guard);
    set(chance, guard.len(), outputs(next), constraints)
}

fn outputs(next: &Next) -> usize {
    next.len().ilog2() as usize
}

pub fn steps(chance: &mut Chance, next: &Next, guard: &[Literal]) -> Vec<Constraint> {
    let mut constraints = Vec::new();
    for (from, to) in next.iter().enumerate() {
        if let Some(to) = to {
            let mut literals = guard.to_vec();
            literals.extend(step(chance, from, *to, outputs(next)));
            constraints.push(Constraint { literals });
        }
    }
    constraints
}

/// Sets that are endless first from a late request: the last but one, the
/// first of the upper half, and others; some behind read literals.
fn late_loops(chance: &mut Chance) -> Vec<Set> {
    let mut sets = Vec::new();
    for n in [3, 4, 5, 6] {
        let all = 1 << n;
        let by_chance = chance.between(1, all - 3);
        for (r, first) in [(0, all - 2), (2, all / 2), (3, by_chance)] {
            let next = with_loop(chance, all, first);
            let guard = guard(chance, r);
            sets.push(leading(chance, &next, &guard));
        }
    }
    sets
}

/// The lowest vector from which it is endless is the first; it and some above
/// it lead into a loop, all others to a safe one.
fn with_loop(chance: &mut Chance, all: usize, first: usize) -> Next {
    let mut above: Vec<usize> = (first + 1..all).collect();
    chance.shuffle(&mut above);
    let most = above.len().min(7);
    let others = above.split_off(chance.between(1, most));
    let mut good: Vec<usize> = (0..first).chain(others).collect();
    chance.shuffle(&mut good);
    let mut endless = vec![first];
    endless.extend(above);
    let mut next = vec![None; all];
    lead(&mut next, &good);
    lead(&mut next, &endless);
    let last = endless.len() - 1;
    next[endless[last]] = Some(endless[chance.below(last)]);
    next
}

/// Chains through all vectors that turn back somewhere while the highest read
/// point is on: what was good at the words before is not.
fn loops_at_a_word(chance: &mut Chance) -> Vec<Set> {
    let mut sets = Vec::new();
    for n in [3, 4, 5, 6] {
        let all = 1usize << n;
        let r = chance.between(1, 4);
        let order = chance.order(all);
        let mut next = along(&order);
        let turn = chance.between(1, all - 2);
        let onward = next[order[turn]].take();
        let mut constraints = steps(chance, &next, &[]);
        let back = Some(order[chance.below(turn)]);
        for (to, off) in [(onward, true), (back, false)] {
            let mut one = vec![None; all];
            one[order[turn]] = to;
            let high = plain(Point::Read(r - 1), off);
            constraints.extend(steps(chance, &one, &[high]));
        }
        sets.push(set(chance, r, n, constraints));
    }
    sets
}
