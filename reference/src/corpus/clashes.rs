//! Sets with read words at which simple constraints force some output both
//! ways, beside words that have no safe vector all the same, words with endless
//! walks and good ones, in every order; and sets that only look as if an output
//! were forced both ways.

use super::active::{alone, by_chance, constraint, on, Trouble};
use super::broken;
use super::counters::{counting, plain};
use super::files::Files;
use super::namings::pulling_places;
use super::order::{at, endless, leading, pinned, shut_three, Guard};
use super::rests::rest;
use super::sizes::around;
use super::states::kept;
use crate::by_hand;
use crate::chance::Chance;
use crate::file::write;
use crate::filter::pulls;
use crate::making::{points, read_literals, scans};
use crate::program::line;
use crate::raw::laid_out;
use crate::records::{Case, Kept, List, Words, SET_BYTES};
use crate::set::{bits, Constraint, Kind, Literal, Point, Set};
use crate::text::text;
use crate::verdict::{first_endless, has_safe_vector, judge, scratch_bytes, Verdict};

const SCANS_EACH: usize = 12;

/// The most constraints of a set.
const MOST: usize = 64;

/// What a read word is like.
#[derive(Clone, Debug, PartialEq, Eq)]
pub enum Lot {
    Good,
    Endless,
    /// No vector is safe, and no output is forced both ways.
    Bare,
    /// These outputs are forced both ways, in rising order.
    Clash(Vec<usize>),
}

impl Lot {
    pub fn of(set: &Set, word: u32) -> Lot {
        let reads = bits(word, set.reads.len());
        let pulls = pulls(set, &reads);
        let both: Vec<usize> = (0..pulls.len())
            .filter(|&output| pulls[output].is_both_ways())
            .collect();
        match (both.is_empty(), has_safe_vector(set, &reads)) {
            (false, _) => Lot::Clash(both),
            (true, false) => Lot::Bare,
            _ if first_endless(set, &reads).is_some() => Lot::Endless,
            _ => Lot::Good,
        }
    }

    /// Constraints by which words are so where the guard is true.
    fn constraints(&self, chance: &mut Chance, n: usize, guard: &[Literal]) -> Vec<Constraint> {
        match self {
            Lot::Good => Vec::new(),
            Lot::Endless => endless(chance, n, guard),
            Lot::Bare => bare(chance, n, guard),
            Lot::Clash(outputs) => {
                let pair = |&output: &usize| both_ways(chance, guard, output);
                outputs.iter().flat_map(pair).collect()
            }
        }
    }
}

/// Two simple constraints that force an output both ways where the guard is
/// true. Each has all its literals, or some of them so that both have all.
fn both_ways(chance: &mut Chance, guard: &[Literal], output: usize) -> [Constraint; 2] {
    let mut sides = [Vec::new(), Vec::new()];
    let whole = chance.one_in(3);
    for &literal in guard {
        let side = if whole { 2 } else { chance.below(3) };
        for place in [0, 1] {
            if side != 1 - place {
                sides[place].push(literal);
            }
        }
    }
    let mut pair = [false, true].map(|negated| [(output, negated, 0)]);
    chance.shuffle(&mut pair);
    let [one, other] = pair;
    [constraint(&sides[0], &one), constraint(&sides[1], &other)]
}

/// Constraints of two outputs or more by which no vector is safe where the
/// guard is true, and none is forced both ways.
fn bare(chance: &mut Chance, n: usize, guard: &[Literal]) -> Vec<Constraint> {
    let outputs = chance.order(n);
    match chance.below(n.min(3) + 1) {
        0 => Trouble::Shut.constraints(guard, &outputs),
        1 => pinned(guard, &outputs),
        2 => half_shut(guard, &outputs),
        _ => shut_three(guard, &outputs),
    }
}

/// An output is held on, and may not be on whatever another is.
fn half_shut(guard: &[Literal], outputs: &[usize]) -> Vec<Constraint> {
    let forbidden =
        |negated| constraint(guard, &[(outputs[0], false, 0), (outputs[1], negated, 1)]);
    let held = constraint(guard, &[(outputs[0], true, 0)]);
    vec![forbidden(false), held, forbidden(true)]
}

/// Constraints that may mislead: an output that is held one way; one that is
/// held both ways, but never at the same word; or one that combined constraints
/// name both ways.
fn decoy(chance: &mut Chance, r: usize, n: usize) -> Vec<Constraint> {
    match chance.below(4) {
        0 if r > 0 => never_together(chance, r, n),
        1 if n > 1 => named_both_ways(chance, r, n),
        _ => {
            let reads = read_literals(chance, r, 3);
            let outputs = [(chance.below(n), chance.one_in(2), 0)];
            vec![constraint(&reads, &outputs)]
        }
    }
}

/// An output is held off while a read point is on, and on while that is off, or
/// the other way round.
fn never_together(chance: &mut Chance, r: usize, n: usize) -> Vec<Constraint> {
    let (point, output) = (Point::Read(chance.below(r)), chance.below(n));
    let swaps = chance.one_in(2);
    let mut reads = read_literals(chance, r, 3);
    reads.retain(|literal| literal.point != point);
    let side = |negated| {
        let reads = [reads.as_slice(), &[plain(point, negated)]].concat();
        constraint(&reads, &[(output, negated != swaps, 0)])
    };
    [true, false].map(side).to_vec()
}

/// Two outputs have to be unlike: the first yields.
fn named_both_ways(chance: &mut Chance, r: usize, n: usize) -> Vec<Constraint> {
    let (reads, outputs) = (read_literals(chance, r, 3), chance.order(n));
    let side = |negated| {
        let unlike = [(outputs[0], negated, 0), (outputs[1], negated, 9)];
        constraint(&reads, &unlike)
    };
    [false, true].map(side).to_vec()
}

/// What a set is to be like.
#[derive(Default)]
pub struct Plan {
    r: usize,
    n: usize,
    /// What some words are to be like.
    lots: Vec<(u32, Lot)>,
    /// How many times constraints are added that may mislead, and how many
    /// times they are such that are never active together.
    decoys: usize,
    apart: usize,
    /// Other constraints, and those that stand first and last in the file.
    others: Vec<Constraint>,
    first: Vec<Constraint>,
    last: Vec<Constraint>,
    /// The most constraints.
    most: usize,
}

impl Plan {
    pub fn new(r: usize, n: usize, lots: Vec<(u32, Lot)>, decoys: usize) -> Plan {
        Plan {
            r,
            n,
            lots,
            decoys,
            most: MOST,
            ..Plan::default()
        }
    }

    /// The same with so many constraints at most.
    pub fn at_most(self, most: usize) -> Plan {
        Plan { most, ..self }
    }

    /// A set of this plan.
    pub fn set(&self, chance: &mut Chance) -> Set {
        loop {
            let set = self.draft(chance);
            let fits = |(word, lot): &(u32, Lot)| Lot::of(&set, *word) == *lot;
            if set.constraints.len() <= self.most
                && self.is_told(judge(&set))
                && self.lots.iter().all(fits)
            {
                return set;
            }
        }
    }

    fn draft(&self, chance: &mut Chance) -> Set {
        let mut set = points(chance, self.r, self.n);
        set.constraints = self.others.clone();
        for (word, lot) in &self.lots {
            set.constraints
                .extend(lot.constraints(chance, self.n, &at(self.r, *word)));
        }
        for _ in 0..self.apart {
            let pair = never_together(chance, self.r, self.n);
            set.constraints.extend(pair);
        }
        for _ in 0..self.decoys {
            set.constraints.extend(decoy(chance, self.r, self.n));
        }
        chance.shuffle(&mut set.constraints);
        set.constraints.splice(0..0, self.first.iter().cloned());
        set.constraints.extend(self.last.iter().cloned());
        if chance.one_in(2) {
            rank_lone_outputs(chance, &mut set);
        }
        if chance.one_in(3) {
            set.rest = rest(chance, self.n);
        }
        set
    }

    /// True if a verdict is the one that the planned words are due.
    fn is_told(&self, verdict: Verdict) -> bool {
        let lowest = |is: fn(&Lot) -> bool| {
            let lots = self.lots.iter().filter(|(_, lot)| is(lot));
            lots.min_by_key(|(word, _)| *word)
        };
        let lacking = lowest(|lot| matches!(lot, Lot::Bare | Lot::Clash(_)));
        match (lacking, lowest(|lot| *lot == Lot::Endless)) {
            (Some((word, Lot::Clash(outputs))), _) => verdict == Verdict::Clash(*word, outputs[0]),
            (Some((word, _)), _) => verdict == Verdict::NoVector(*word),
            (_, Some((word, _))) => matches!(verdict, Verdict::NoEnd(at, _) if at == *word),
            _ => verdict == Verdict::Accepted,
        }
    }
}

/// Gives lone outputs ranks, which are kept and never read.
fn rank_lone_outputs(chance: &mut Chance, set: &mut Set) {
    for constraint in &mut set.constraints {
        if constraint.is_simple() {
            let outputs = constraint.literals.iter_mut().filter(|l| l.is_output());
            outputs.for_each(|literal| literal.rank = chance.byte());
        }
    }
}

/// The paper's cases, and files, buffers, states and sets in memory.
pub fn cases(chance: &mut Chance) -> Vec<Case> {
    let mut cases = by_hand::clashes();
    let mut part = Files::default();
    for set in sets(chance) {
        part.add(chance, write(&set));
    }
    cases.extend(part.cases);
    cases.extend(with_buffers(chance));
    cases.extend(with_states(chance));
    cases.extend(behind_a_clash(chance));
    cases.extend(that_flip_nothing(chance));
    cases.extend(in_memory(chance));
    cases
}

fn sets(chance: &mut Chance) -> Vec<Set> {
    let mut sets = each_output(chance);
    sets.extend(several_outputs(chance));
    sets.extend(two_words(chance));
    sets.extend(four_words(chance));
    sets.extend(more_words(chance));
    sets.extend(first_and_last(chance));
    sets.extend(many_masks(chance));
    sets.extend(many_reads(chance));
    sets.extend(misleading(chance));
    sets
}

/// A word of so many read points.
fn any_word(chance: &mut Chance, r: usize) -> u32 {
    chance.below(1 << r) as u32
}

/// So many outputs in rising order.
fn some(chance: &mut Chance, n: usize, count: usize) -> Vec<usize> {
    let mut outputs = chance.order(n);
    outputs.truncate(count);
    outputs.sort();
    outputs
}

/// For each number of outputs each of them, the one that is forced both ways.
fn each_output(chance: &mut Chance) -> Vec<Set> {
    let mut sets = Vec::new();
    for n in 1..=12 {
        // More of the high ones, which few sets have.
        for output in (0..n).chain(5..n).chain(10..n) {
            let r = chance.below(3);
            let lots = vec![(any_word(chance, r), Lot::Clash(vec![output]))];
            sets.push(Plan::new(r, n, lots, 4).set(chance));
        }
    }
    sets
}

/// Two, three or all outputs forced both ways at a word.
fn several_outputs(chance: &mut Chance) -> Vec<Set> {
    let mut sets = Vec::new();
    for n in 2..=12 {
        for count in [2, 3, n] {
            let r = chance.below(3);
            let lot = Lot::Clash(some(chance, n, count.min(n)));
            let lots = vec![(any_word(chance, r), lot)];
            sets.push(Plan::new(r, n, lots, 2).set(chance));
        }
    }
    sets
}

/// What words can be like, by number; 4 is a clash where combined constraints
/// leave no vector either.
const SORTS: usize = 5;

/// A set whose words are of these sorts, one after the other, or these words.
fn of_sorts(chance: &mut Chance, r: usize, n: usize, words: &[u32], sorts: &[usize]) -> Set {
    let mut plan = Plan::new(r, n, Vec::new(), chance.below(4));
    for (&word, &sort) in words.iter().zip(sorts) {
        let count = chance.between(1, 2);
        plan.lots.push((
            word,
            match sort {
                0 => Lot::Good,
                1 => Lot::Endless,
                2 => Lot::Bare,
                _ => Lot::Clash(some(chance, n, count)),
            },
        ));
        if sort == 4 {
            let outputs = chance.order(n);
            plan.others
                .extend(Trouble::Shut.constraints(&at(r, word), &outputs));
        }
    }
    plan.set(chance)
}

/// One read point, and words of each sort in either order.
fn two_words(chance: &mut Chance) -> Vec<Set> {
    let mut sets = Vec::new();
    for sorts in 1..SORTS * SORTS {
        let n = chance.between(2, 5);
        sets.push(of_sorts(
            chance,
            1,
            n,
            &[0, 1],
            &[sorts / SORTS, sorts % SORTS],
        ));
    }
    sets
}

/// Two read points, and words of any sorts, at least one of which is a clash.
fn four_words(chance: &mut Chance) -> Vec<Set> {
    let mut sets = Vec::new();
    for clash in (0..4).cycle().take(60) {
        let n = chance.between(2, 4);
        let mut sorts: Vec<usize> = (0..4).map(|_| chance.below(SORTS)).collect();
        sorts[clash] = 3;
        sets.push(of_sorts(chance, 2, n, &[0, 1, 2, 3], &sorts));
    }
    sets
}

/// More read points, and an endless word, one without a vector and a clash in
/// each order; some with more words of a sort.
fn more_words(chance: &mut Chance) -> Vec<Set> {
    let orders = [
        [1, 2, 3],
        [1, 3, 2],
        [2, 1, 3],
        [2, 3, 1],
        [3, 1, 2],
        [3, 2, 1],
        [1, 3, 3],
        [1, 1, 3],
        [3, 3, 1],
        [2, 2, 3],
        [1, 2, 4],
        [1, 1, 2],
        [1, 4, 3],
        [1, 3, 1],
    ];
    let mut sets = Vec::new();
    for r in 3..=6 {
        for sorts in orders {
            let n = chance.between(2, 4);
            let words: Vec<u32> = some(chance, 1 << r, 3).iter().map(|&w| w as u32).collect();
            sets.push(of_sorts(chance, r, n, &words, &sorts));
        }
    }
    sets
}

/// Sets of 64 constraints, the first and the last of which force an output both
/// ways; the others lead to one vector.
fn first_and_last(chance: &mut Chance) -> Vec<Set> {
    let mut sets = Vec::new();
    for r in [2, 3, 3, 4, 4, 5] {
        let (n, word) = (chance.between(4, 7), any_word(chance, r));
        let output = chance.below(n);
        sets.push(loop {
            let reads = by_chance(chance, r, MOST - 2);
            let [first, last] = both_ways(chance, &at(r, word), output);
            let plan = Plan {
                others: leading(chance, n, &reads),
                first: vec![first],
                last: vec![last],
                ..Plan::new(r, n, Vec::new(), 0)
            };
            let set = plan.draft(chance);
            let places = pulling_places(&set, &bits(word, r), output);
            if judge(&set) == Verdict::Clash(word, output) && places == [0, MOST - 1] {
                break set;
            }
        });
    }
    sets
}

/// As many masks as words, 512 and 1,024, and a clash at the last word, close
/// to it, or where the highest read points are on, by two constraints behind
/// one of these each.
fn many_masks(chance: &mut Chance) -> Vec<Set> {
    let mut sets = Vec::new();
    for r in [9, 10] {
        let (n, last) = (chance.between(2, 4), (1 << r) - 1);
        let output = chance.below(n);
        for word in [last, last - (1 << chance.below(3))] {
            let reads = alone(chance, r);
            let plan = Plan {
                others: leading(chance, n, &reads),
                ..Plan::new(r, n, vec![(word, Lot::Clash(vec![output]))], 1)
            };
            sets.push(plan.set(chance));
        }
        sets.push(loop {
            let reads = alone(chance, r);
            let [one, other] = [false, true].map(|negated| (output, negated, 0));
            let highest = [on(r - 2..r - 1), on(r - 1..r)];
            let plan = Plan {
                others: leading(chance, n, &reads),
                last: vec![constraint(&highest[0], &[one]), constraint(&highest[1], &[other])],
                ..Plan::new(r, n, Vec::new(), 0)
            };
            let set = plan.draft(chance);
            if matches!(judge(&set), Verdict::Clash(word, named) if word >= last / 4 * 3 && named == output) {
                break set;
            }
        });
    }
    sets
}

/// From 7 read points to 16 and a clash at the last word or another late one;
/// for some there is an endless word or one without a vector far below it.
fn many_reads(chance: &mut Chance) -> Vec<Set> {
    let mut sets = Vec::new();
    for r in 7..=16 {
        let n = chance.between(2, 8.min(24 - r));
        let last = (1 << r) - 1;
        let clash = Lot::Clash(vec![chance.below(n)]);
        sets.push(Plan::new(r, n, vec![(last, clash.clone())], 0).set(chance));
        let late = last - any_word(chance, r - 2) - 1;
        sets.push(Plan::new(r, n, vec![(late, clash)], 1).set(chance));
    }
    let last = (1 << 16) - 1;
    for early in [Lot::Endless, Lot::Bare] {
        let low = any_word(chance, 10);
        let lots = vec![(low, early), (last, Lot::Clash(vec![1]))];
        sets.push(Plan::new(16, 2, lots, 0).set(chance));
    }
    sets.push(Plan::new(16, 8, vec![(last, Lot::Clash(vec![7]))], 0).set(chance));
    sets
}

/// Sets without a clash at the word that is told, with constraints that may
/// mislead: accepted ones, and such with a word that fails.
fn misleading(chance: &mut Chance) -> Vec<Set> {
    let mut sets = Vec::new();
    for (lot, count) in [(Lot::Good, 40), (Lot::Bare, 36), (Lot::Endless, 16)] {
        for round in 0..count {
            let (r, n) = (chance.between(1, 3), 3 + round % 8);
            let lots = vec![(any_word(chance, r), lot.clone())];
            let decoys = chance.between(2, 4);
            let plan = Plan {
                apart: 1,
                ..Plan::new(r, n, lots, decoys)
            };
            sets.push(plan.set(chance));
        }
    }
    sets
}

/// Buffers of sizes around the line's length, for words and outputs of each
/// number of digits that there can be; and some where a clash is not told.
fn with_buffers(chance: &mut Chance) -> Vec<Case> {
    let digits = [
        (0..=9, 0..=9),
        (10..=99, 0..=9),
        (100..=999, 0..=9),
        (1000..=9999, 0..=9),
        (10_000..=65_535, 0..=7),
        (0..=9, 10..=11),
        (10..=99, 10..=11),
        (100..=999, 10..=11),
        (1000..=4095, 10..=11),
    ];
    let mut sets = Vec::new();
    for (words, outputs) in digits {
        for _ in 0..2 {
            let word = chance.between(*words.start(), *words.end());
            let output = chance.between(*outputs.start(), *outputs.end());
            let r = word
                .checked_ilog2()
                .map_or(0, |highest| highest as usize + 1);
            let n = chance.between(output + 1, 12.min(24 - r));
            let lots = vec![(word as u32, Lot::Clash(vec![output]))];
            sets.push(Plan::new(r, n, lots, 1).set(chance));
        }
    }
    for sorts in [[2, 3], [2, 4], [1, 3], [1, 2]] {
        sets.push(of_sorts(chance, 1, 3, &[0, 1], &sorts));
    }
    let case = |set: &Set| {
        let file = write(set);
        let needed = [
            file.len(),
            scratch_bytes(set.outputs.len()),
            line(&file).len(),
            text(set).len(),
        ];
        let sizes = around(&needed);
        Case::Buffers { file, sizes }
    };
    sets.iter().map(case).collect()
}

/// Read points of each kind.
fn kinds(chance: &mut Chance, n: usize) -> Vec<Kind> {
    let past = Kind::PastOutput(chance.below(n));
    vec![Kind::Sensor, Kind::PastSensor(0), past, Kind::Sensor]
}

/// One or two of the first three read points, each on or off.
fn past_guard(chance: &mut Chance) -> Guard {
    let mut numbers = some(chance, 3, 2);
    numbers.truncate(chance.between(1, 2));
    let literal = |&number: &usize| plain(Point::Read(number), chance.one_in(2));
    numbers.iter().map(literal).collect()
}

/// Scans from a state by hand, and the same with the other mark.
fn with_each_mark(set: &Set, first: Kept, scans: &[Words]) -> [Case; 2] {
    [0, 1].map(|mark| {
        let first = Kept { mark, ..first };
        let scans = scans.to_vec();
        Case::State {
            file: write(set),
            list: Some(List { first, scans }),
        }
    })
}

/// The same with any scans from any state.
fn with_any_scans(chance: &mut Chance, set: &Set) -> [Case; 2] {
    let first = kept(chance, set.reads.len(), set.outputs.len());
    let scans = scans(chance, set, SCANS_EACH);
    with_each_mark(set, first, &scans)
}

/// States of sets whose sensor decides whether there is a clash. Output 0 is
/// held off where that was so in the scan before, and output 1 where it was on
/// itself: so a scan behind a clash shows what that left.
fn behind_a_clash(chance: &mut Chance) -> Vec<Case> {
    let kinds = [Kind::Sensor, Kind::PastSensor(0), Kind::PastOutput(1)];
    let mut cases = Vec::new();
    for n in 2..=8 {
        let on = chance.one_in(2);
        let (guard, output) = ([plain(Point::Read(0), !on)], chance.below(n));
        let mut constraints = both_ways(chance, &guard, output).to_vec();
        let pasts = [plain(Point::Read(1), !on), plain(Point::Read(2), false)];
        for (past, output) in pasts.into_iter().zip([0, 1]) {
            constraints.push(constraint(&[past], &[(output, false, 0)]));
        }
        chance.shuffle(&mut constraints);
        let set = counting(&kinds, n, constraints);
        let (clash, other, all) = (u32::from(on), u32::from(!on), (1 << n) - 1);
        let first = Kept {
            past_sensor: clash,
            ..Kept::default()
        };
        let scans = [(clash, all), (other, all), (clash, all - 2), (other, all)];
        cases.extend(with_each_mark(&set, first, &scans));
    }
    cases
}

/// States made by hand of sets with past points and a clash at some words, each
/// with either mark.
fn with_states(chance: &mut Chance) -> Vec<Case> {
    let mut cases = Vec::new();
    for round in 0..30 {
        let n = 1 + round % 6;
        let kinds = kinds(chance, n);
        let mut constraints = Vec::new();
        for _ in 0..chance.between(1, 2) {
            let (guard, output) = (past_guard(chance), chance.below(n));
            constraints.extend(both_ways(chance, &guard, output));
        }
        for past in [1, 2] {
            let reads = [plain(Point::Read(past), chance.one_in(2))];
            let outputs = [(chance.below(n), chance.one_in(2), 0)];
            constraints.push(constraint(&reads, &outputs));
        }
        if n > 1 && chance.one_in(2) {
            constraints.extend(named_both_ways(chance, 3, n));
        }
        constraints.extend(decoy(chance, 3, n));
        chance.shuffle(&mut constraints);
        let mut set = counting(&kinds, n, constraints);
        if chance.one_in(3) {
            set.rest = rest(chance, n);
        }
        cases.extend(with_any_scans(chance, &set));
    }
    cases
}

/// States of sets in which some outputs are held as combined constraints forbid
/// it and others are free: no output is forced both ways, and a pass flips
/// nothing.
fn that_flip_nothing(chance: &mut Chance) -> Vec<Case> {
    let mut cases = Vec::new();
    for n in [3, 3, 3, 3, 4, 5, 6, 8, 12] {
        let (kinds, guard) = (kinds(chance, n), past_guard(chance));
        let set = counting(&kinds, n, pinned(&guard[..1], &chance.order(n)));
        cases.extend(with_any_scans(chance, &set));
    }
    cases
}

/// Sets as they lie in memory, with a clash or a word without one, some with a
/// rank beyond the constraints.
fn in_memory(chance: &mut Chance) -> Vec<Case> {
    let mut cases = Vec::new();
    for (round, sorts) in [[3, 0], [1, 3], [3, 1], [3, 3], [2, 3], [4, 2]]
        .into_iter()
        .cycle()
        .take(15)
        .enumerate()
    {
        let n = chance.between(2, 6);
        let words = some(chance, 4, 2);
        let words: Vec<u32> = words.iter().map(|&word| word as u32).collect();
        let set = of_sorts(chance, 2, n, &words, &sorts);
        let mut raw = laid_out(&set);
        if round % 5 == 4 {
            raw[SET_BYTES - 1] = 1;
        }
        cases.push(broken::case(chance, &set, raw));
    }
    cases
}
