//! What a set would show of a verdict that skips wrongly: a read word that is
//! taken for one judged before, or a vector that is taken for a walked one.
//!
//! The active constraints of a read word are those whose read literals are all
//! true there. The mask of the word has bit i if constraint i is active.

use crate::filter::{is_safe, pass, pulls, read_literals_true, start_vector};
use crate::set::{bits, word, Constraint, Point, Set};
use crate::verdict::{judge, Verdict};
use std::collections::HashSet;

/// Sets with more points take too long and are no part of the counts.
const MOST_READS: usize = 11;
const MOST_OUTPUTS: usize = 7;

/// The places of a small memory of masks; each has one place, by its remainder.
pub const PLACES: u64 = 251;

/// Wrong readings that take a failing word for a good one before it, told from
/// the good mask, the failing mask and the mask of the simple constraints. Before
/// a word without a safe vector each word that has one is good, whatever its walks.
pub type Reading = (&'static str, fn(u64, u64, u64) -> bool);
pub const READINGS: &[Reading] = &[
    ("masks counted modulo 251", |good, failing, _| {
        good % PLACES == failing % PLACES
    }),
    ("8 constraints alone counted", |good, failing, _| {
        good as u8 == failing as u8
    }),
    ("16 constraints alone counted", |good, failing, _| {
        good as u16 == failing as u16
    }),
    ("32 constraints alone counted", |good, failing, _| {
        good as u32 == failing as u32
    }),
    ("63 constraints alone counted", |good, failing, _| {
        good << 1 == failing << 1
    }),
    (
        "simple constraints alone counted",
        |good, failing, simple| good & simple == failing & simple,
    ),
    (
        "combined constraints alone counted",
        |good, failing, simple| good | simple == failing | simple,
    ),
    ("the number active alone counted", |good, failing, _| {
        good.count_ones() == failing.count_ones()
    }),
    ("fewer active were as good", |good, failing, _| {
        failing & !good == 0
    }),
    ("more active were as good", |good, failing, _| {
        good & !failing == 0
    }),
];

/// What a corpus must have of these sorts, and how many files at least.
pub const NEEDED: &[(&str, usize)] = &[
    (
        "F accepted, a lowest read point that no constraint names",
        5,
    ),
    (
        "F accepted, a highest read point that no constraint names",
        5,
    ),
    (
        "F accepted, a read point in between that no constraint names",
        5,
    ),
    (
        "F accepted, several read points that no constraint names",
        5,
    ),
    ("F accepted, more than 251 masks", 4),
    ("F accepted, one mask for 16 words or more", 5),
    (
        "F accepted, no constraint active in the lower half of the words",
        3,
    ),
    (
        "F accepted, a mask that comes back after another took its place",
        1,
    ),
    ("F accepted, a walk of the most passes, f 3 or more", 15),
    ("F accepted, other if a walked path were endless", 15),
    ("F 22, a lowest read point that no constraint names", 4),
    ("F 22, a highest read point that no constraint names", 4),
    ("F 22, a read point in between that no constraint names", 4),
    ("F 22, several read points that no constraint names", 4),
    ("F 22, more than 251 masks", 4),
    (
        "F 22, a mask that comes back after another took its place",
        2,
    ),
    (
        "F 22, no constraint active in the lower half of the words",
        3,
    ),
    ("F 22, a late word", 10),
    ("F 22, the last word", 5),
    ("F 22, the last word, none active at word 0", 3),
    ("F 22, other if masks counted modulo 251", 7),
    ("F 22, other if masks counted modulo 251, fewer of them", 4),
    ("F 22, other if 8 constraints alone counted", 3),
    ("F 22, other if 16 constraints alone counted", 3),
    ("F 22, other if 32 constraints alone counted", 2),
    ("F 22, other if 63 constraints alone counted", 1),
    ("F 22, other if simple constraints alone counted", 8),
    ("F 22, other if combined constraints alone counted", 6),
    ("F 22, other if the number active alone counted", 3),
    ("F 22, other if more active were as good", 15),
    ("F 23, a lowest read point that no constraint names", 4),
    ("F 23, a highest read point that no constraint names", 4),
    ("F 23, a read point in between that no constraint names", 4),
    ("F 23, several read points that no constraint names", 4),
    ("F 23, more than 251 masks", 6),
    (
        "F 23, a mask that comes back after another took its place",
        2,
    ),
    (
        "F 23, no constraint active in the lower half of the words",
        3,
    ),
    ("F 23, a late word", 15),
    ("F 23, the last word", 6),
    ("F 23, the last word, none active at word 0", 3),
    ("F 23, other if masks counted modulo 251", 10),
    ("F 23, other if masks counted modulo 251, fewer of them", 6),
    ("F 23, other if 8 constraints alone counted", 3),
    ("F 23, other if 16 constraints alone counted", 3),
    ("F 23, other if 32 constraints alone counted", 2),
    ("F 23, other if 63 constraints alone counted", 1),
    ("F 23, other if simple constraints alone counted", 15),
    ("F 23, other if combined constraints alone counted", 6),
    ("F 23, other if the number active alone counted", 15),
    ("F 23, other if fewer active were as good", 6),
    ("F 23, other if more active were as good", 15),
    ("F 23, a request behind walks of several passes", 8),
    ("F 23, the last request but one", 4),
    ("F 23, a loop that is entered later", 6),
    ("F 23, other if output 0 did not mark", 10),
    ("F 23, other if the last did not mark", 10),
    ("F 23, other if marks stayed for the next word", 15),
];

/// The mask of a word.
pub fn mask(set: &Set, word: u32) -> u64 {
    let reads = bits(word, set.reads.len());
    mask_of(set, |constraint| read_literals_true(constraint, &reads))
}

/// The mask of the constraints of a sort.
pub fn mask_of(set: &Set, is_in: impl Fn(&Constraint) -> bool) -> u64 {
    let constraints = set.constraints.iter().enumerate();
    constraints
        .map(|(place, constraint)| u64::from(is_in(constraint)) << place)
        .sum()
}

/// What a set counts as, each sort once: how its verdict is, and of what sort
/// the words and walks are that it depends on.
pub fn sorts(set: &Set) -> Vec<String> {
    sorts_by(set, judge(set))
}

/// The same by another verdict.
pub fn sorts_by(set: &Set, verdict: Verdict) -> Vec<String> {
    if set.reads.len() > MOST_READS || set.outputs.len() > MOST_OUTPUTS {
        return Vec::new();
    }
    let words = 1u32 << set.reads.len();
    let masks: Vec<u64> = (0..words).map(|word| mask(set, word)).collect();
    let mut sorts = sorts_of_points(set);
    let number = match verdict {
        Verdict::Accepted => {
            sorts.extend(sorts_of_masks(&masks));
            sorts.extend(sorts_of_walks(set, &firsts(&masks)));
            "accepted"
        }
        Verdict::NoVector(word) | Verdict::Clash(word, _) => {
            sorts.extend(sorts_of_failing(set, &masks, word));
            "22"
        }
        Verdict::NoEnd(word, request) => {
            sorts.extend(sorts_of_failing(set, &masks, word));
            sorts.extend(sorts_of_endless(set, &masks, word, request));
            "23"
        }
    };
    let sort = |sort: String| format!("{number}, {sort}");
    sorts.into_iter().map(sort).collect()
}

/// Where there are read points that no constraint names.
fn sorts_of_points(set: &Set) -> Vec<String> {
    let r = set.reads.len();
    let unnamed: Vec<usize> = (0..r).filter(|&number| !is_named(set, number)).collect();
    let mut sorts = Vec::new();
    if unnamed.len() == r {
        // Nothing depends on the read word at all.
        return sorts;
    }
    let mut add = |there_is: bool, sort: &str| {
        if there_is {
            sorts.push(format!("{sort} that no constraint names"));
        }
    };
    add(unnamed.contains(&0), "a lowest read point");
    add(unnamed.contains(&(r - 1)), "a highest read point");
    let between = |&number: &usize| number > 0 && number < r - 1;
    add(unnamed.iter().any(between), "a read point in between");
    add(unnamed.len() >= 3, "several read points");
    sorts
}

pub fn is_named(set: &Set, number: usize) -> bool {
    let literals = set.constraints.iter().flat_map(|c| &c.literals);
    literals
        .into_iter()
        .any(|literal| literal.point == Point::Read(number))
}

/// What the masks of the words that are tried count as.
fn sorts_of_masks(masks: &[u64]) -> Vec<String> {
    let different: HashSet<&u64> = masks.iter().collect();
    let mut sorts = Vec::new();
    if different.len() > PLACES as usize {
        sorts.push("more than 251 masks");
    }
    if masks.len() >= 16 && different.len() == 1 && masks[0] != 0 {
        sorts.push("one mask for 16 words or more");
    }
    let half = masks.len() / 2;
    if masks.len() >= 16 && different.len() > 1 && masks[..half].iter().all(|&mask| mask == 0) {
        sorts.push("no constraint active in the lower half of the words");
    }
    if comes_back(masks) {
        sorts.push("a mask that comes back after another took its place");
    }
    sorts.into_iter().map(String::from).collect()
}

/// True if a mask comes back when a later one with its remainder has come.
fn comes_back(masks: &[u64]) -> bool {
    let mut places = vec![None; PLACES as usize];
    let mut seen = HashSet::new();
    masks.iter().any(|&mask| {
        let before = places[(mask % PLACES) as usize].replace(mask);
        !seen.insert(mask) && before != Some(mask)
    })
}

/// What a failing word counts as, and which wrong readings take it for good.
fn sorts_of_failing(set: &Set, masks: &[u64], word: u32) -> Vec<String> {
    let (before, failing) = (&masks[..word as usize], masks[word as usize]);
    let mut sorts = sorts_of_masks(&masks[..=word as usize]);
    if masks.len() >= 16 && before.len() >= masks.len() / 4 * 3 {
        sorts.push(String::from("a late word"));
    }
    if masks.len() >= 16 && before.len() + 1 == masks.len() {
        sorts.push(String::from("the last word"));
        if masks[0] == 0 {
            sorts.push(String::from("the last word, none active at word 0"));
        }
    }
    let simple = mask_of(set, Constraint::is_simple);
    for (reading, same) in READINGS {
        if before.iter().any(|&good| same(good, failing, simple)) {
            sorts.push(format!("other if {reading}"));
        }
    }
    let few = before.iter().collect::<HashSet<_>>().len() < PLACES as usize;
    if few && before.iter().any(|&good| good % PLACES == failing % PLACES) {
        sorts.push(String::from(
            "other if masks counted modulo 251, fewer of them",
        ));
    }
    sorts
}

/// The first word of each mask.
fn firsts(masks: &[u64]) -> Vec<u32> {
    let mut seen = HashSet::new();
    (0..masks.len())
        .filter(|&word| seen.insert(masks[word]))
        .map(|word| word as u32)
        .collect()
}

/// The vectors of one walk.
struct Path {
    vectors: Vec<u32>,
    /// The place of the vector it comes back to, if it is endless.
    back: Option<usize>,
    /// The outputs not held.
    free: usize,
}

/// The walk from a request, up to a safe vector or one it has been at.
fn path(set: &Set, read_word: u32, request: u32) -> Path {
    let n = set.outputs.len();
    let reads = bits(read_word, set.reads.len());
    let holds = pulls(set, &reads);
    let mut vector = start_vector(&holds, &bits(request, n));
    let mut vectors = vec![word(&vector)];
    let mut back = None;
    while back.is_none() && !is_safe(set, &reads, &vector) {
        vector = pass(set, &reads, &holds, &vector);
        back = vectors.iter().position(|&before| before == word(&vector));
        vectors.push(word(&vector));
    }
    let free = holds.iter().filter(|hold| !hold.is_held()).count();
    Path {
        vectors,
        back,
        free,
    }
}

/// The walks from requests below this one.
fn paths_below(set: &Set, read_word: u32, request: u32) -> Vec<Path> {
    (0..request)
        .map(|below| path(set, read_word, below))
        .collect()
}

/// What the walks of an accepted set count as.
fn sorts_of_walks(set: &Set, words: &[u32]) -> Vec<String> {
    let mut longest = false;
    let mut meets = false;
    for &word in words {
        let paths = paths_below(set, word, 1 << set.outputs.len());
        let is_longest = |path: &Path| path.free >= 3 && path.vectors.len() == 1 << path.free;
        longest |= paths.iter().any(is_longest);
        meets |= some_meet(&paths);
    }
    let mut sorts = Vec::new();
    if longest {
        sorts.push(String::from("a walk of the most passes, f 3 or more"));
    }
    if meets {
        sorts.push(String::from("other if a walked path were endless"));
    }
    sorts
}

/// True if a walk has an unsafe vector, not its first, that a walk before had.
fn some_meet(paths: &[Path]) -> bool {
    let mut walked: HashSet<u32> = HashSet::new();
    paths.iter().any(|path| {
        let unsafe_vectors = &path.vectors[..path.vectors.len() - 1];
        let meets = unsafe_vectors
            .iter()
            .skip(1)
            .any(|vector| walked.contains(vector));
        walked.extend(unsafe_vectors);
        meets
    })
}

/// What the first endless walk counts as, and which wrong marks of vectors
/// walked before let it end.
fn sorts_of_endless(set: &Set, masks: &[u64], word: u32, request: u16) -> Vec<String> {
    let request = u32::from(request);
    let all = 1 << set.outputs.len();
    let endless = path(set, word, request);
    let before = paths_below(set, word, request);
    let marked: HashSet<u32> = before
        .iter()
        .flat_map(|path| path.vectors.clone())
        .collect();
    let kept: HashSet<u32> = firsts(&masks[..word as usize])
        .into_iter()
        .flat_map(|earlier| paths_below(set, earlier, all))
        .flat_map(|path| path.vectors)
        .collect();
    let meets = |flip: u32, marks: &HashSet<u32>| {
        let mut vectors = endless.vectors.iter();
        vectors.any(|vector| marks.contains(&(vector ^ flip)))
    };
    let sorts = [
        (
            before.iter().any(|path| path.vectors.len() > 2),
            "a request behind walks of several passes",
        ),
        (all >= 8 && request + 2 == all, "the last request but one"),
        (endless.back > Some(0), "a loop that is entered later"),
        (meets(1, &marked), "other if output 0 did not mark"),
        (meets(all / 2, &marked), "other if the last did not mark"),
        (meets(0, &kept), "other if marks stayed for the next word"),
    ];
    let there_is = sorts.into_iter().filter(|(there_is, _)| *there_is);
    there_is.map(|(_, sort)| String::from(sort)).collect()
}

#[cfg(test)]
mod tests {
    use super::*;
    use crate::by_hand;
    use crate::file::load;
    use crate::records::Case;

    /// The sorts of a set of document 01's "Tried by hand", by its place there.
    fn sorts_by_hand(place: usize) -> Vec<String> {
        match &by_hand::cases()[place] {
            Case::File { file, .. } => sorts(&load(file).expect("it loads")),
            _ => panic!("a file"),
        }
    }

    #[test]
    fn sorts_of_document_01() {
        // "s and not A", "s and A": masks 0 and 3.
        let clash = [
            "22, other if combined constraints alone counted",
            "22, other if more active were as good",
        ];
        assert_eq!(sorts_by_hand(2), clash);
        // 23 at request 1: request 0 walks over no vector but itself.
        let endless = ["23, other if output 0 did not mark"];
        assert_eq!(sorts_by_hand(3), endless);
    }

    #[test]
    fn masks_that_come_back() {
        assert!(!comes_back(&[0, 1, 0, 1, 0]));
        assert!(!comes_back(&[0, 251, 502]));
        assert!(comes_back(&[0, 1, 251, 0]));
        let masks: Vec<u64> = (0..252).chain([0]).collect();
        assert!(comes_back(&masks));
        assert_eq!(sorts_of_masks(&masks).len(), 2);
    }
}
