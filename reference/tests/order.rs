//! "Missing vectors come before endless walks": which answers change and which
//! stay, over random sets and over the part of the corpus that is made for it,
//! and what this part shows of wrong verdicts. A clash counts as 22, as it did
//! when that was asked for.

use reference::by_hand;
use reference::chance::Chance;
use reference::corpus::edges::add_stuck;
use reference::corpus::misses::{group, needed, sorts, CHANGED};
use reference::corpus::ordering;
use reference::corpus::skips::mask;
use reference::file::load;
use reference::filter::{is_safe, walk, Walk};
use reference::making::{set, Recipe};
use reference::records::Case;
use reference::set::{bits, Set};
use reference::verdict::{judge, judge_in_the_old_order, judge_plainly, Verdict};
use std::collections::{BTreeMap, HashSet};

/// What is so at each read word, by the filter alone.
struct Tried {
    has_vector: Vec<bool>,
    endless: Vec<Option<u16>>,
}

impl Tried {
    fn new(set: &Set) -> Tried {
        let (r, n) = (set.reads.len(), set.outputs.len());
        let words = || (0..1 << r).map(|word| bits(word, r));
        let safe = |reads: &[bool]| (0..1 << n).any(|v| is_safe(set, reads, &bits(v, n)));
        let endless = |reads: &[bool], request: u16| {
            walk(set, reads, &bits(u32::from(request), n)) == Walk::Endless
        };
        Tried {
            has_vector: words().map(|reads| safe(&reads)).collect(),
            endless: words()
                .map(|reads| (0..1 << n).find(|&request| endless(&reads, request)))
                .collect(),
        }
    }

    /// Document 01's verdict: the first word that fails.
    fn word_by_word(&self) -> Verdict {
        for (word, endless) in self.endless.iter().enumerate() {
            match endless {
                _ if !self.has_vector[word] => return Verdict::NoVector(word as u32),
                Some(request) => return Verdict::NoEnd(word as u32, *request),
                None => {}
            }
        }
        Verdict::Accepted
    }

    /// The lowest word without a safe vector, if there is one from here on.
    fn lacking_from(&self, first: usize) -> Option<u32> {
        let words = first..self.has_vector.len();
        let lacking = words.into_iter().find(|&word| !self.has_vector[word]);
        lacking.map(|word| word as u32)
    }
}

/// Compares both verdicts with document 01 word by word; true if the set is of
/// the one group that changes.
fn is_changed(set: &Set) -> bool {
    let tried = Tried::new(set);
    let (old, new) = (tried.word_by_word(), judge(set).without_clash());
    assert_eq!(judge_in_the_old_order(set), old);
    assert_eq!(judge_plainly(set), judge(set));
    // "Sets whose first failing word has a safe vector, while some higher word
    // has none, turn from 23 to 22 at the lowest word without one."
    let due = match old {
        Verdict::NoEnd(word, _) => tried.lacking_from(word as usize + 1),
        _ => None,
    };
    assert_eq!(new, due.map_or(old, Verdict::NoVector));
    // The other way: what differs is 22 in place of 23, at the lowest of all.
    if new != old {
        assert!(matches!(old, Verdict::NoEnd(..)));
        assert_eq!(Some(new), tried.lacking_from(0).map(Verdict::NoVector));
    }
    assert_eq!(group(set) == Some(CHANGED), new != old);
    new != old
}

/// Small sets by chance, most of them with an endless walk behind some read
/// literals, and some with no safe vector behind others.
fn small_set(chance: &mut Chance) -> Set {
    let recipe = [Recipe::Loose, Recipe::Planted, Recipe::Bent][chance.below(3)];
    let (r, n) = (chance.between(0, 4), chance.between(2, 3));
    let m = chance.between(0, 4);
    let mut small = set(chance, recipe, r, n, m);
    for (outputs, times) in [(2, 4), (2, 2), (1, 2)] {
        if !chance.one_in(times) {
            add_stuck(chance, &mut small, outputs);
        }
    }
    chance.shuffle(&mut small.constraints);
    small
}

#[test]
fn one_group_of_answers_changes() {
    let mut chance = Chance::new(23);
    let mut seen = [0; 4];
    for _ in 0..4000 {
        let set = small_set(&mut chance);
        let changed = is_changed(&set);
        let place = match judge(&set) {
            Verdict::NoVector(_) | Verdict::Clash(..) if changed => 0,
            Verdict::NoVector(_) | Verdict::Clash(..) => 1,
            Verdict::NoEnd(..) => 2,
            Verdict::Accepted => 3,
        };
        seen[place] += 1;
    }
    assert!(seen.iter().all(|&count| count > 200), "{seen:?}");
}

fn loaded(case: Case) -> Set {
    match case {
        Case::File { file, .. } => load(&file).expect("it loads"),
        _ => panic!("a file"),
    }
}

#[test]
fn the_sets_made_by_hand() {
    let sets: Vec<Set> = by_hand::missing_first().into_iter().map(loaded).collect();
    let changed: Vec<bool> = sets.iter().map(is_changed).collect();
    assert_eq!(changed, [true, true, true, false, false]);
}

/// The sets of the part in the corpus that is committed.
fn part() -> Vec<Set> {
    ordering(1).into_iter().map(loaded).collect()
}

#[test]
fn the_part_has_enough_of_each_sort() {
    let mut counts: BTreeMap<String, usize> = BTreeMap::new();
    for set in part() {
        is_changed(&set);
        for sort in sorts(&set) {
            *counts.entry(format!("F {sort}")).or_default() += 1;
        }
    }
    for (sort, least) in needed() {
        let count = counts.get(&sort).copied().unwrap_or(0);
        assert!(count >= least, "{sort}: {count}");
    }
}

/// 22 where a search finds a word, else the verdict that was told before.
fn searched(old: Verdict, found: Option<u32>) -> Verdict {
    found.map_or(old, Verdict::NoVector)
}

/// The search with a memory of masks that words with a vector have, by their
/// remainders alone.
fn by_remainders(set: &Set, tried: &Tried) -> Option<u32> {
    let mut met = HashSet::new();
    (0..tried.has_vector.len() as u32).find(|&word| {
        let new = met.insert(mask(set, word) % 251);
        new && !tried.has_vector[word as usize]
    })
}

#[test]
fn sorts_are_of_wrong_verdicts() {
    let mut shown = [0; 4];
    for set in part() {
        let tried = Tried::new(&set);
        let (old, new) = (tried.word_by_word(), judge(&set).without_clash());
        let Verdict::NoEnd(first, _) = old else {
            continue;
        };
        let (first, last) = (first as usize, tried.has_vector.len() as u32 - 1);
        let found = [
            None,
            tried.lacking_from(first + 2),
            tried.lacking_from(first + 1).filter(|&word| word != last),
            by_remainders(&set, &tried),
        ];
        let names = [
            "other if the first word that fails were told",
            "other if the search began a word late",
            "other if the last word were not tried",
            "other if masks counted modulo 251, of ",
        ];
        for (place, (name, found)) in names.iter().zip(found).enumerate() {
            let other = searched(old, found) != new;
            let is_named = sorts(&set).iter().any(|sort| sort.contains(name));
            assert_eq!(is_named, other, "{name}");
            shown[place] += usize::from(other);
        }
    }
    assert!(shown.iter().all(|&count| count >= 9), "{shown:?}");
}
