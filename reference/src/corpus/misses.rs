//! What a set would show of a verdict that tells 22 and 23 in another order, or
//! misses a read word without a safe vector.
//!
//! The endless word of a set is the first that fails, if it has a safe vector:
//! document 01 told 23 there. Now the words behind it are searched for one that
//! has none, and 23 is told only where there is no such word.

use super::skips::{mask, mask_of, PLACES, READINGS};
use crate::filter::{holds, is_safe, walk, Holds, Walk};
use crate::set::{bits, Constraint, Set};
use crate::verdict::{judge, judge_in_the_old_order, Verdict};
use std::collections::{HashMap, HashSet};
use std::rc::Rc;

/// Sets with more points take too long and are no part of the counts.
const MOST_READS: usize = 11;
const MOST_OUTPUTS: usize = 8;

/// The groups of rejected sets: those that have another answer now, and those
/// that have the one they had.
pub const CHANGED: &str = "22 in place of 23";
const NO_END: &str = "23 as before";
const NO_VECTOR: &str = "22 as before";

/// What a corpus must have of each group, and how many files at least.
const GROUPS: &[(&str, usize)] = &[(CHANGED, 100), (NO_END, 25), (NO_VECTOR, 12)];

/// What it must have of these sizes.
const SIZES: &[(&str, &str, usize)] = &[
    (CHANGED, "r 1", 3),
    (CHANGED, "r 2", 3),
    (CHANGED, "r 3", 3),
    (CHANGED, "r 4", 3),
    (CHANGED, "r 5", 3),
    (CHANGED, "r 6", 3),
    (CHANGED, "r 7", 3),
    (CHANGED, "r 8", 3),
    (CHANGED, "r 9", 3),
    (CHANGED, "r 10", 3),
    (CHANGED, "n 2", 10),
    (CHANGED, "n 3", 10),
    (CHANGED, "n 4", 10),
    (CHANGED, "n 5", 3),
    (CHANGED, "n 6", 3),
    (CHANGED, "n 7", 2),
    (CHANGED, "n 8", 2),
    (CHANGED, "64 constraints", 6),
    (CHANGED, "more than 251 masks behind the endless word", 6),
    (NO_END, "r 0", 2),
    (NO_VECTOR, "r 0", 3),
    (NO_VECTOR, "n 1", 3),
];

/// What it must have that would be told otherwise if this were so.
const OTHERS: &[(&str, &str, usize)] = &[
    (CHANGED, "the first word that fails were told", 100),
    (CHANGED, "the endless word were told with 22", 100),
    (CHANGED, "endless walks came before missing vectors", 100),
    (CHANGED, "words were counted from the endless one", 100),
    (CHANGED, "the search began a word late", 20),
    (CHANGED, "the next word alone were tried", 60),
    (CHANGED, "the last word were not tried", 20),
    (CHANGED, "the search ended at an endless word", 15),
    (CHANGED, "the search ended at a mask met before", 20),
    (CHANGED, "the last word without a vector were told", 15),
    (CHANGED, "endless words counted as without a vector", 15),
    (CHANGED, "words of its mask counted as without a vector", 8),
    (CHANGED, "simple constraints were not tried", 30),
    (CHANGED, "combined constraints were not tried", 30),
    (CHANGED, "vector 0 alone were tried at the endless word", 10),
    (CHANGED, "vector 0 alone were tried behind it", 20),
    (
        CHANGED,
        "the lower half alone were tried at the endless word",
        4,
    ),
    (CHANGED, "the lower half alone were tried behind it", 10),
    (CHANGED, "vector 0 were not tried at the endless word", 2),
    (CHANGED, "vector 0 were not tried behind it", 3),
    (
        CHANGED,
        "the last vector were not tried at the endless word",
        2,
    ),
    (CHANGED, "the last vector were not tried behind it", 3),
    (
        CHANGED,
        "the walk from request 0 alone were tried at the endless word",
        5,
    ),
    (
        CHANGED,
        "the walk from request 0 alone were tried behind it",
        5,
    ),
    (NO_END, "the endless word were told with 22", 25),
    (NO_END, "endless words counted as without a vector", 8),
    (NO_END, "words of its mask counted as without a vector", 5),
    (NO_END, "the last endless word were told", 8),
    (NO_END, "the request of the last endless word were told", 2),
    (NO_END, "the last endless request were told", 20),
    (NO_END, "vector 0 alone were tried at the endless word", 5),
    (NO_END, "vector 0 alone were tried behind it", 8),
    (
        NO_END,
        "the lower half alone were tried at the endless word",
        2,
    ),
    (NO_END, "the lower half alone were tried behind it", 4),
    (NO_END, "vector 0 were not tried at the endless word", 2),
    (NO_END, "vector 0 were not tried behind it", 3),
    (
        NO_END,
        "the last vector were not tried at the endless word",
        2,
    ),
    (NO_END, "the last vector were not tried behind it", 3),
    (
        NO_END,
        "the walk from request 0 alone were tried at the endless word",
        4,
    ),
    (
        NO_END,
        "the walk from request 0 alone were tried behind it",
        2,
    ),
    (NO_VECTOR, "endless walks came before missing vectors", 5),
    (NO_VECTOR, "the last word without a vector were told", 3),
    (NO_VECTOR, "the last word were not tried", 3),
    (NO_VECTOR, "vector 0 were not tried", 2),
    (NO_VECTOR, "the last vector were not tried", 2),
];

/// What it must have of the changed sets that would be told otherwise if this
/// were so, for each of three places of the word that looks the same.
const BY_MASKS: &[(&str, usize)] = &[
    ("masks counted modulo 251", 3),
    ("8 constraints alone counted", 5),
    ("16 constraints alone counted", 4),
    ("32 constraints alone counted", 3),
    ("63 constraints alone counted", 2),
    ("simple constraints alone counted", 8),
    ("combined constraints alone counted", 8),
    ("the number active alone counted", 5),
    ("more active were as good", 10),
];

/// Where the word is that looks the same.
const PLACES_OF_WORDS: [&str; 3] = [
    "of a word before the endless one",
    "of the endless word",
    "of a word behind the endless one",
];

/// All that a corpus must have, and how many files at least.
pub fn needed() -> Vec<(String, usize)> {
    let groups = GROUPS.iter();
    let groups = groups.map(|(group, least)| (format!("F {group}"), *least));
    let sizes = SIZES.iter();
    let sizes = sizes.map(|(group, size, least)| (format!("F {group}, {size}"), *least));
    let others = OTHERS.iter();
    let others =
        others.map(|(group, wrong, least)| (format!("F {group}, other if {wrong}"), *least));
    let mut needed: Vec<(String, usize)> = groups.chain(sizes).chain(others).collect();
    for (reading, least) in BY_MASKS {
        for place in PLACES_OF_WORDS {
            needed.push((format!("F {CHANGED}, other if {reading}, {place}"), *least));
        }
    }
    needed
}

/// The group of a rejected set: whether its answer is the one it was.
pub fn group(set: &Set) -> Option<&'static str> {
    match judge(set) {
        Verdict::Accepted => None,
        Verdict::NoEnd(..) => Some(NO_END),
        Verdict::NoVector(_) | Verdict::Clash(..) => match judge_in_the_old_order(set) {
            Verdict::NoEnd(..) => Some(CHANGED),
            _ => Some(NO_VECTOR),
        },
    }
}

/// What is so at a read word.
pub struct Word {
    mask: u64,
    /// Whether each vector is safe.
    safe: Vec<bool>,
    /// Whether each vector makes no combined constraint true.
    safe_if_combined: Vec<bool>,
    /// The lowest output that is forced both ways.
    pub clash: Option<usize>,
    /// The first and the last request whose walk is never safe, if there is a
    /// safe vector.
    pub endless: Option<(u16, u16)>,
}

impl Word {
    pub fn has_vector(&self) -> bool {
        self.safe.contains(&true)
    }

    fn new(set: &Set, word: u32) -> Word {
        let reads = bits(word, set.reads.len());
        let safe = safe_vectors(set, &reads);
        let combined = |constraint: &&Constraint| !constraint.is_simple();
        let combined = Set {
            constraints: set.constraints.iter().filter(combined).cloned().collect(),
            ..set.clone()
        };
        let clash = match holds(set, &reads) {
            Holds::Clash(output) => Some(output),
            Holds::Forced(_) => None,
        };
        let endless = match safe.contains(&true) {
            true => endless(set, &reads),
            false => None,
        };
        Word {
            mask: mask(set, word),
            safe_if_combined: safe_vectors(&combined, &reads),
            safe,
            clash,
            endless,
        }
    }
}

fn safe_vectors(set: &Set, reads: &[bool]) -> Vec<bool> {
    let n = set.outputs.len();
    (0..1 << n)
        .map(|vector| is_safe(set, reads, &bits(vector, n)))
        .collect()
}

/// The first and the last request whose walk is endless.
fn endless(set: &Set, reads: &[bool]) -> Option<(u16, u16)> {
    let n = set.outputs.len();
    let is_endless =
        |request: &u16| walk(set, reads, &bits(u32::from(*request), n)) == Walk::Endless;
    let first = (0..1 << n).find(is_endless)?;
    let last = (0..1 << n).rev().find(is_endless)?;
    Some((first, last))
}

/// All read words of a set.
pub struct Words {
    pub all: Vec<Rc<Word>>,
    /// The mask of the simple constraints.
    simple: u64,
    /// The endless word, if there is one.
    pub first: Option<usize>,
}

impl Words {
    pub fn new(set: &Set) -> Words {
        let mut known: HashMap<u64, Rc<Word>> = HashMap::new();
        let word = |word: u32| {
            let new = || Rc::new(Word::new(set, word));
            known.entry(mask(set, word)).or_insert_with(new).clone()
        };
        let all: Vec<Rc<Word>> = (0..1 << set.reads.len()).map(word).collect();
        let fails = |word: &Rc<Word>| !word.has_vector() || word.endless.is_some();
        let first = all.iter().position(fails);
        Words {
            first: first.filter(|&word| all[word].has_vector()),
            simple: mask_of(set, Constraint::is_simple),
            all,
        }
    }

    /// The words behind the endless one, or all.
    fn behind(&self) -> std::ops::Range<usize> {
        self.first.map_or(0, |first| first + 1)..self.all.len()
    }

    /// True if there is no safe vector at a word.
    pub fn lacks(&self, word: usize) -> bool {
        !self.all[word].has_vector()
    }

    /// The verdict if a search behind the endless word takes these words for
    /// ones without a safe vector.
    fn search(&self, lacks: impl Fn(usize) -> bool) -> Verdict {
        match self.behind().find(|&word| lacks(word)) {
            Some(word) => Verdict::NoVector(word as u32),
            None => self.in_vain(),
        }
    }

    /// The verdict if a search finds nothing.
    fn in_vain(&self) -> Verdict {
        match self.first {
            Some(first) => self.no_end(first, first),
            None => Verdict::Accepted,
        }
    }

    /// 23 at a word, with the first endless request of another.
    pub fn no_end(&self, word: usize, other: usize) -> Verdict {
        let (request, _) = self.all[other].endless.unwrap_or_default();
        Verdict::NoEnd(word as u32, request)
    }

    /// The first word behind the endless one whose mask an earlier word has.
    fn met_before(&self) -> Option<usize> {
        let behind = self.behind();
        let (before, after) = self.all.split_at(behind.start);
        let mut met: HashSet<u64> = before.iter().map(|word| word.mask).collect();
        let again = after.iter().position(|word| !met.insert(word.mask));
        again.map(|place| behind.start + place)
    }

    /// The last word with an endless walk.
    fn last_endless(&self) -> Option<usize> {
        self.all.iter().rposition(|word| word.endless.is_some())
    }
}

/// Wrong searches: whether a word is taken for one without a safe vector.
type Search = (&'static str, fn(&Words, usize) -> bool);
const SEARCHES: &[Search] = &[
    ("the first word that fails were told", |words, at| {
        words.first.is_none() && words.lacks(at)
    }),
    ("the search began a word late", |words, at| {
        at > words.behind().start && words.lacks(at)
    }),
    ("the next word alone were tried", |words, at| {
        at == words.behind().start && words.lacks(at)
    }),
    ("the last word were not tried", |words, at| {
        at + 1 < words.all.len() && words.lacks(at)
    }),
    ("endless words counted as without a vector", |words, at| {
        words.lacks(at) || words.all[at].endless.is_some()
    }),
    (
        "words of its mask counted as without a vector",
        |words, at| words.lacks(at) || words.first.is_some_and(|first| same_mask(words, first, at)),
    ),
    ("simple constraints were not tried", |words, at| {
        !words.all[at].safe_if_combined.contains(&true)
    }),
    ("combined constraints were not tried", |words, at| {
        words.all[at].clash.is_some()
    }),
];

fn same_mask(words: &Words, one: usize, other: usize) -> bool {
    words.all[one].mask == words.all[other].mask
}

/// Wrong ways to try a word for a safe vector: whether one is found.
type Trial = (&'static str, fn(&Word) -> bool);
const TRIALS: &[Trial] = &[
    ("vector 0 alone were tried", |word| word.safe[0]),
    ("the lower half alone were tried", |word| {
        word.safe[..word.safe.len() / 2].contains(&true)
    }),
    ("vector 0 were not tried", |word| {
        word.safe[1..].contains(&true)
    }),
    ("the last vector were not tried", |word| {
        word.safe[..word.safe.len() - 1].contains(&true)
    }),
    ("the walk from request 0 alone were tried", |word| {
        word.has_vector() && !matches!(word.endless, Some((0, _)))
    }),
];

/// What else is told wrongly.
type Telling = (&'static str, fn(&Words) -> Verdict);
const TELLINGS: &[Telling] = &[
    ("the search ended at an endless word", |words| {
        let mut behind = words.behind();
        let end = behind.find(|&word| words.all[word].endless.is_some());
        words.search(|at| words.lacks(at) && end.is_none_or(|end| at < end))
    }),
    ("the search ended at a mask met before", |words| {
        let end = words.met_before();
        words.search(|at| words.lacks(at) && end.is_none_or(|end| at < end))
    }),
    ("the last word without a vector were told", |words| {
        let last = words.behind().rfind(|&word| words.lacks(word));
        last.map_or(words.in_vain(), |word| Verdict::NoVector(word as u32))
    }),
    ("words were counted from the endless one", |words| {
        let found = words.behind().position(|word| words.lacks(word));
        found.map_or(words.in_vain(), |word| Verdict::NoVector(word as u32))
    }),
    ("the endless word were told with 22", |words| {
        match words.first {
            Some(first) => Verdict::NoVector(first as u32),
            None => words.search(|at| words.lacks(at)),
        }
    }),
    ("endless walks came before missing vectors", |words| {
        let first = words.all.iter().position(|word| word.endless.is_some());
        match first {
            Some(first) => words.no_end(first, first),
            None => words.search(|at| words.lacks(at)),
        }
    }),
    ("the last endless word were told", |words| {
        let right = words.search(|at| words.lacks(at));
        match (right, words.last_endless()) {
            (Verdict::NoEnd(..), Some(last)) => words.no_end(last, last),
            _ => right,
        }
    }),
    ("the request of the last endless word were told", |words| {
        let right = words.search(|at| words.lacks(at));
        match (right, words.last_endless()) {
            (Verdict::NoEnd(word, _), Some(last)) => words.no_end(word as usize, last),
            _ => right,
        }
    }),
    ("the last endless request were told", |words| {
        match words.search(|at| words.lacks(at)) {
            Verdict::NoEnd(word, _) => {
                let (_, last) = words.all[word as usize].endless.unwrap_or_default();
                Verdict::NoEnd(word, last)
            }
            other => other,
        }
    }),
];

/// True if a set has few enough points to be counted.
pub fn are_few(set: &Set) -> bool {
    set.reads.len() <= MOST_READS && set.outputs.len() <= MOST_OUTPUTS
}

/// What a set counts as: its group, and in it each sort once.
pub fn sorts(set: &Set) -> Vec<String> {
    let Some(group) = group(set) else {
        return Vec::new();
    };
    let mut sorts = vec![String::from(group)];
    if are_few(set) {
        let words = Words::new(set);
        let others = [
            sorts_of_size(set, &words),
            wrong(&words),
            wrong_by_masks(&words),
        ];
        let others = others.concat().into_iter();
        sorts.extend(others.map(|sort| format!("{group}, {sort}")));
    }
    sorts
}

/// How many points and constraints there are, and masks from the endless word
/// to the one that is told.
fn sorts_of_size(set: &Set, words: &Words) -> Vec<String> {
    let mut sorts = vec![
        format!("r {}", set.reads.len()),
        format!("n {}", set.outputs.len()),
    ];
    if set.constraints.len() == 64 {
        sorts.push(String::from("64 constraints"));
    }
    let behind = words.behind();
    let end = behind.clone().find(|&word| words.lacks(word));
    let tried = behind.start..end.unwrap_or(behind.end);
    let masks: HashSet<u64> = words.all[tried].iter().map(|word| word.mask).collect();
    if masks.len() > PLACES as usize {
        sorts.push(String::from("more than 251 masks behind the endless word"));
    }
    sorts
}

/// The wrong verdicts that are told of the set, but for those by masks.
fn wrong(words: &Words) -> Vec<String> {
    let right = words.search(|at| words.lacks(at));
    let mut told: Vec<(String, Verdict)> = Vec::new();
    for (name, lacks) in SEARCHES {
        told.push((name.to_string(), words.search(|at| lacks(words, at))));
    }
    for (name, finds) in TRIALS {
        let finds = |word: usize| finds(&words.all[word]);
        let place = match words.first {
            Some(_) => " behind it",
            None => "",
        };
        told.push((format!("{name}{place}"), words.search(|at| !finds(at))));
        if let Some(first) = words.first.filter(|&first| !finds(first)) {
            let verdict = Verdict::NoVector(first as u32);
            told.push((format!("{name} at the endless word"), verdict));
        }
    }
    for (name, tell) in TELLINGS {
        told.push((name.to_string(), tell(words)));
    }
    told.retain(|(_, verdict)| *verdict != right);
    told.into_iter()
        .map(|(name, _)| format!("other if {name}"))
        .collect()
}

/// The wrong readings of masks that take the word that is told for one before
/// it with a safe vector.
fn wrong_by_masks(words: &Words) -> Vec<String> {
    let right = words.search(|at| words.lacks(at));
    let (Some(first), Verdict::NoVector(told)) = (words.first, right) else {
        return Vec::new();
    };
    let told = told as usize;
    let words_before = [0..first, first..first + 1, first + 1..told];
    let mut sorts = Vec::new();
    for (reading, same) in READINGS {
        for (place, before) in PLACES_OF_WORDS.iter().zip(&words_before) {
            let same = |word: &Rc<Word>| same(word.mask, words.all[told].mask, words.simple);
            if words.all[before.clone()].iter().any(same) {
                sorts.push(format!("other if {reading}, {place}"));
            }
        }
    }
    sorts
}

#[cfg(test)]
mod tests {
    use super::*;
    use crate::by_hand::K5;
    use crate::file::load;

    #[test]
    fn sorts_of_the_set_by_hand() {
        // Word 0: vectors 0 and 2 are safe, and requests 1 and 3 are endless.
        // Word 1: no vector is safe, by combined constraints. Masks 3 and 15.
        let expected = [
            "",
            ", r 1",
            ", n 2",
            ", other if the first word that fails were told",
            ", other if the search began a word late",
            ", other if the last word were not tried",
            ", other if combined constraints were not tried",
            ", other if words were counted from the endless one",
            ", other if the endless word were told with 22",
            ", other if endless walks came before missing vectors",
            ", other if simple constraints alone counted, of the endless word",
            ", other if more active were as good, of the endless word",
        ];
        let set = load(&K5).expect("it loads");
        assert_eq!(sorts(&set), expected.map(|sort| format!("{CHANGED}{sort}")));
    }
}
