//! What a set would show of a verdict that keeps one bit for each vector and
//! does so wrongly: a mark in another place than it is looked up at, marks that
//! are not cleared, or vectors that are taken for safe where eight are judged at
//! once.

use super::eights::JUDGES;
use super::marking::{Marked, Place, Way, Words, EIGHT, RIGHT};
use crate::set::Set;
use crate::verdict::{judge, Verdict};

/// Sets with more read points take too long and are no part of the counts.
const MOST_READS: usize = 4;

/// Of how many sets at least a wrong verdict must tell something else: accepted
/// ones, ones of 22 and ones of 23.
pub type Leasts = [usize; 3];
pub const NONE: Leasts = [0; 3];
const GROUPS: [&str; 3] = ["accepted", "22", "23"];

/// A mark is put and looked up in the same wrong place.
const fn placed(place: Place) -> Way {
    Way {
        put: place,
        look: place,
        ..RIGHT
    }
}

/// Wrong ways, each with the leasts of sets that show it: where safe vectors
/// are marked, and where those walked over are. What would show nothing, or the
/// same as where safe ones are marked, is not tried.
const WAYS: &[(&str, Leasts, Leasts, Way)] = &[
    (
        "marks were put at bit 7 - v mod 8",
        [60, 3, 55],
        [0, 0, 20],
        Way {
            put: |vector, _| (vector / EIGHT, 7 - vector % EIGHT),
            ..RIGHT
        },
    ),
    (
        "marks were put at bit (v / 8) mod 8",
        [80, 0, 80],
        [0, 0, 3],
        Way {
            put: |vector, _| (vector / EIGHT, vector / EIGHT % EIGHT),
            ..RIGHT
        },
    ),
    (
        "marks were put in the next byte",
        [45, 0, 50],
        [0, 0, 40],
        Way {
            put: |vector, bytes| ((vector / EIGHT + 1) % bytes, vector % EIGHT),
            ..RIGHT
        },
    ),
    (
        "a mark counted for all eight of its byte",
        [0, 0, 60],
        [0, 0, 40],
        Way {
            add: |_, _| 0xFF,
            ..RIGHT
        },
    ),
    (
        "a mark took the place of those in its byte",
        [70, 0, 75],
        NONE,
        Way {
            add: |_, mark| mark,
            ..RIGHT
        },
    ),
    (
        "the bit were told by two bits",
        [0, 0, 45],
        [0, 0, 20],
        placed(|vector, _| (vector / EIGHT, vector % 4)),
    ),
    (
        "the byte were told by the low bits",
        [0, 0, 45],
        [0, 0, 35],
        placed(|vector, bytes| (vector % bytes, vector % EIGHT)),
    ),
    (
        "the byte were taken modulo 4",
        [0, 0, 40],
        [0, 0, 35],
        placed(|vector, _| (vector / EIGHT % 4, vector % EIGHT)),
    ),
    (
        "the byte were taken modulo 16",
        [0, 0, 35],
        [0, 0, 30],
        placed(|vector, _| (vector / EIGHT % 16, vector % EIGHT)),
    ),
    (
        "the byte were taken modulo 32",
        [0, 0, 30],
        [0, 0, 25],
        placed(|vector, _| (vector / EIGHT % 32, vector % EIGHT)),
    ),
    (
        "the byte were taken modulo 64",
        [0, 0, 20],
        [0, 0, 15],
        placed(|vector, _| (vector / EIGHT % 64, vector % EIGHT)),
    ),
    (
        "the byte were taken modulo 128",
        [0, 0, 15],
        [0, 0, 10],
        placed(|vector, _| (vector / EIGHT % 128, vector % EIGHT)),
    ),
    (
        "the byte were taken modulo 256",
        [0, 0, 8],
        [0, 0, 3],
        placed(|vector, _| (vector / EIGHT % 256, vector % EIGHT)),
    ),
    (
        "0xA5 in each byte were not cleared",
        [0, 65, 75],
        [0, 0, 75],
        Way {
            first: 0xA5,
            clears: |_| false,
            ..RIGHT
        },
    ),
    (
        "0xA5 in each byte were not cleared for word 0",
        [0, 15, 0],
        [0, 0, 15],
        Way {
            first: 0xA5,
            clears: |before| before > 0,
            ..RIGHT
        },
    ),
    (
        "marks stayed for the next word",
        [0, 45, 50],
        [0, 0, 50],
        Way {
            clears: |_| false,
            ..RIGHT
        },
    ),
    (
        "a walk ended at its own marks",
        [0, 0, 85],
        NONE,
        Way {
            early: true,
            ..RIGHT
        },
    ),
    (
        "a walk were endless at another's marks",
        [20, 0, 3],
        NONE,
        Way {
            stops: true,
            ..RIGHT
        },
    ),
    (
        "a walk had as many passes as bytes",
        [9, 0, 0],
        NONE,
        Way {
            passes: |_, bytes| bytes,
            ..RIGHT
        },
    ),
    (
        "a walk had at most 255 passes",
        [2, 0, 0],
        NONE,
        Way {
            passes: |vectors, _| vectors.min(255),
            ..RIGHT
        },
    ),
    (
        "the bits from 2^n on counted as safe",
        [0, 9, 0],
        NONE,
        Way {
            safe_beyond: true,
            ..RIGHT
        },
    ),
    (
        "the bits from 2^n on were tried as requests",
        [8, 0, 0],
        NONE,
        Way {
            tried_beyond: true,
            ..RIGHT
        },
    ),
    (
        "the first byte alone were looked at",
        [25, 9, 10],
        NONE,
        Way {
            looked: |_| 0..1,
            ..RIGHT
        },
    ),
    (
        "the first byte were not looked at",
        [9, 3, 0],
        NONE,
        Way {
            looked: |bytes| 1.min(bytes - 1)..bytes,
            ..RIGHT
        },
    ),
    (
        "the last byte were not looked at",
        [8, 3, 0],
        NONE,
        Way {
            looked: |bytes| 0..(bytes - 1).max(1),
            ..RIGHT
        },
    ),
];

/// The verdict of the model where nothing goes wrong, either way; nothing where
/// the set is too large.
pub fn told_rightly(set: &Set) -> Option<[Verdict; 2]> {
    (set.reads.len() <= MOST_READS).then(|| {
        let words = Words::new(set);
        [Marked::Safe, Marked::Walked].map(|marked| words.told(RIGHT, marked))
    })
}

/// What a set counts as: the wrong verdicts that tell something else of it.
pub fn sorts(set: &Set) -> Vec<String> {
    if set.reads.len() > MOST_READS {
        return Vec::new();
    }
    let words = Words::new(set);
    let right = judge(set).without_clash();
    let wrong = [wrong_ways(&words, right), wrong_judges(&words, right)].concat();
    let sort = |(place, name): &(&str, &str)| sort(group(right), place, name);
    wrong.iter().map(sort).collect()
}

/// Which step goes wrong, and how.
type Step = (&'static str, &'static str);

fn wrong_ways(words: &Words, right: Verdict) -> Vec<Step> {
    let mut wrong = Vec::new();
    for (name, safe, walked, way) in WAYS {
        let is_other = |marked| words.told(*way, marked) != right;
        if *safe != NONE && is_other(Marked::Safe) {
            wrong.push((SAFE, *name));
        }
        if *walked != NONE && is_other(Marked::Walked) {
            wrong.push((WALKED, *name));
        }
    }
    wrong
}

/// Judging eight at once may go wrong for the marks of safe vectors, or only in
/// the search for a word without one.
fn wrong_judges(words: &Words, right: Verdict) -> Vec<Step> {
    let lacking = words.first_lacking();
    let mut wrong = Vec::new();
    for (name, marks, search, judge) in JUDGES {
        let judged = words.judged(*judge);
        if *marks != NONE && judged.told(RIGHT, Marked::Safe) != right {
            wrong.push((EIGHTS, *name));
        }
        if *search != NONE && judged.first_lacking() != lacking {
            wrong.push((SEARCH, *name));
        }
    }
    wrong
}

fn group(verdict: Verdict) -> &'static str {
    match verdict {
        Verdict::Accepted => GROUPS[0],
        Verdict::NoVector(_) | Verdict::Clash(..) => GROUPS[1],
        Verdict::NoEnd(..) => GROUPS[2],
    }
}

/// Which step of the verdict goes wrong.
const SAFE: &str = "marks of safe vectors";
const WALKED: &str = "marks of walks";
const EIGHTS: &str = "eight at once";
const SEARCH: &str = "eight at once for 22";

fn sort(group: &str, place: &str, name: &str) -> String {
    format!("{group}, {place}, other if {name}")
}

/// All that a corpus must have, and how many files at least.
pub fn needed() -> Vec<(String, usize)> {
    let ways = WAYS
        .iter()
        .flat_map(|(name, safe, walked, _)| [(SAFE, name, safe), (WALKED, name, walked)]);
    let judges = JUDGES
        .iter()
        .flat_map(|(name, marks, search, _)| [(EIGHTS, name, marks), (SEARCH, name, search)]);
    let mut needed = Vec::new();
    for (place, name, leasts) in ways.chain(judges) {
        for (group, least) in GROUPS.iter().zip(leasts) {
            if *least > 0 {
                needed.push((format!("F {}", sort(group, place, name)), *least));
            }
        }
    }
    needed
}
