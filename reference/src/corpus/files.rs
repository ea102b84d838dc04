//! Files: sets of every size and recipe with lists of scans, and damaged ones.

use crate::by_hand;
use crate::chance::Chance;
use crate::damage;
use crate::file::{load, write};
use crate::making::{scans, set, Recipe};
use crate::records::Case;
use crate::verdict::{judge_in_the_old_order, Verdict};

const SCANS_EACH: usize = 25;
const ACCEPTED: usize = 1000;
const REJECTED: usize = 150;

/// The cases so far, and how many sets were accepted and rejected by 23. These
/// are counted in document 01's order: what is drawn until there is enough of
/// them stays what it was before missing vectors came first.
#[derive(Default)]
pub struct Files {
    pub cases: Vec<Case>,
    accepted: usize,
    no_end: usize,
}

impl Files {
    /// Adds a file, with scans if it is an accepted set.
    pub fn add(&mut self, chance: &mut Chance, file: Vec<u8>) {
        let verdict = load(&file).map(|set| (judge_in_the_old_order(&set), set));
        let scans = match verdict {
            Ok((Verdict::Accepted, set)) => {
                self.accepted += 1;
                scans(chance, &set, SCANS_EACH)
            }
            Ok((Verdict::NoEnd(..), _)) => {
                self.no_end += 1;
                Vec::new()
            }
            _ => Vec::new(),
        };
        self.cases.push(Case::File { file, scans });
    }
}

/// Document 01's cases, sets of all sizes and recipes, and damaged files.
pub fn cases(chance: &mut Chance) -> Vec<Case> {
    let mut corpus = Files {
        cases: by_hand::cases(),
        ..Files::default()
    };
    corpus.cases.extend(by_hand::power_up());
    corpus.cases.extend(by_hand::missing_first());
    corpus.add(chance, damage::P.to_vec());
    add_all_sizes(&mut corpus, chance);
    add_large(&mut corpus, chance);
    add_small(&mut corpus, chance);
    for file in damage::fixed() {
        corpus.add(chance, file);
    }
    for _ in 0..3 {
        let good = small_set(chance, Recipe::Bent);
        for file in damage::truncated(&good) {
            corpus.add(chance, file);
        }
    }
    for _ in 0..150 {
        let good = small_set(chance, Recipe::Planted);
        for file in damage::by_chance(chance, &good, 10) {
            corpus.add(chance, file);
        }
    }
    corpus.cases
}

/// Every r with every n once: judged in full where it is small, and rejected
/// at an early word or with few constraints where it is large.
fn add_all_sizes(corpus: &mut Files, chance: &mut Chance) {
    for r in 0..=16 {
        for n in 1..=12.min(24 - r) {
            let recipe = match r + n {
                0..=13 => [Recipe::Planted, Recipe::Bent, Recipe::Loose][chance.below(3)],
                _ => Recipe::Clash,
            };
            let m = chance.between(0, 6);
            let set = set(chance, recipe, r, n, m);
            corpus.add(chance, write(&set));
        }
    }
}

/// A few large sets that are accepted.
fn add_large(corpus: &mut Files, chance: &mut Chance) {
    let sizes = [
        (16, 1, 20),
        (16, 2, 64),
        (16, 4, 5),
        (14, 3, 8),
        (0, 12, 64),
        (1, 12, 40),
        (4, 12, 6),
        (3, 11, 20),
        (8, 8, 6),
        (12, 6, 6),
        (10, 10, 4),
        (16, 8, 3),
        (12, 12, 3),
    ];
    for (r, n, m) in sizes {
        let set = set(chance, Recipe::Planted, r, n, m);
        corpus.add(chance, write(&set));
    }
}

/// Small sets of all recipes until there is enough of each verdict.
fn add_small(corpus: &mut Files, chance: &mut Chance) {
    for recipe in [
        Recipe::Loose,
        Recipe::Bent,
        Recipe::Planted,
        Recipe::Chain,
        Recipe::Clash,
    ] {
        for _ in 0..150 {
            let file = small_set(chance, recipe);
            corpus.add(chance, file);
        }
    }
    while corpus.no_end < REJECTED {
        let file = small_set(chance, Recipe::Chain);
        corpus.add(chance, file);
    }
    while corpus.accepted < ACCEPTED {
        let recipe = [Recipe::Planted, Recipe::Bent, Recipe::Loose][chance.below(3)];
        let file = small_set(chance, recipe);
        corpus.add(chance, file);
    }
}

pub fn small_set(chance: &mut Chance, recipe: Recipe) -> Vec<u8> {
    let (r, n) = match recipe {
        Recipe::Chain => (chance.between(0, 3), chance.between(2, 6)),
        _ => small_size(chance),
    };
    let m = match recipe {
        Recipe::Loose => chance.between(0, 2 * n),
        _ => number_of_constraints(chance),
    };
    write(&set(chance, recipe, r, n, m))
}

fn small_size(chance: &mut Chance) -> (usize, usize) {
    match chance.below(8) {
        0 => (chance.between(0, 4), chance.between(6, 8)),
        1 => (chance.between(6, 9), chance.between(1, 3)),
        _ => (chance.between(0, 6), chance.between(1, 6)),
    }
}

fn number_of_constraints(chance: &mut Chance) -> usize {
    match chance.below(12) {
        0 => 0,
        1 => 64,
        2 => chance.between(21, 63),
        3 | 4 => chance.between(9, 20),
        _ => chance.between(1, 8),
    }
}
