//! What a set or a list of scans would show of a filter that reckons clashes
//! wrongly, or tells the wrong one. An output clashes at a read word if simple
//! constraints force it both ways there.
//!
//! A wrong reckoning may do harm in two places: in the name that is told where no
//! vector is safe, or wherever its answer alone makes a word fail, in the verdict
//! and in a scan.

use super::marks::{turns, Turn};
use super::misses::{self, Words};
use super::skips::{mask, PLACES};
use crate::filter::{holds, is_safe, read_literals_true, Holds};
use crate::machine::{taken, ScanRefusal, State};
use crate::program::judged;
use crate::records;
use crate::set::{bits, Constraint, Kind, Literal, Point, Set};
use crate::verdict::{judge, Verdict};
use std::collections::HashSet;

/// Sets with more read points take too long where every word is reckoned, and
/// are no part of those counts.
const MOST_RECKONED: usize = 7;

/// And more than these where the masks of all words are counted.
const MOST_MASKS: usize = 16;

/// An output literal of a constraint, and the place of that in the file.
struct Pull<'a> {
    place: usize,
    constraint: &'a Constraint,
    output: usize,
    negated: bool,
    rank: u8,
}

/// All output literals of the constraints that count.
fn pulls(set: &Set, counts: impl Fn(&Constraint) -> bool) -> Vec<Pull<'_>> {
    let mut pulls = Vec::new();
    for (place, constraint) in set.constraints.iter().enumerate() {
        if counts(constraint) {
            for literal in &constraint.literals {
                if let Point::Output(output) = literal.point {
                    pulls.push(Pull {
                        place,
                        constraint,
                        output,
                        negated: literal.negated,
                        rank: literal.rank,
                    });
                }
            }
        }
    }
    pulls
}

/// The outputs that simple constraints force at a read word.
fn forced<'a>(set: &'a Set, reads: &[bool]) -> Vec<Pull<'a>> {
    pulls(set, |constraint| {
        constraint.is_simple() && read_literals_true(constraint, reads)
    })
}

/// The places of the simple constraints that force an output at a read word.
pub fn pulling_places(set: &Set, reads: &[bool], output: usize) -> Vec<usize> {
    let forced = forced(set, reads).into_iter();
    let of_output = forced.filter(|pull| pull.output == output);
    of_output.map(|pull| pull.place).collect()
}

/// The outputs that are pulled both ways, in rising order.
fn both(pulls: &[Pull]) -> Vec<usize> {
    let pulled = |output: usize, negated: bool| {
        let mut pulls = pulls.iter();
        pulls.any(|pull| pull.output == output && pull.negated == negated)
    };
    let outputs = pulls.iter().map(|pull| pull.output).max();
    (0..outputs.map_or(0, |last| last + 1))
        .filter(|&output| pulled(output, false) && pulled(output, true))
        .collect()
}

fn lowest(pulls: &[Pull]) -> Option<usize> {
    both(pulls).first().copied()
}

/// The pairs that pull an output both ways.
fn pairs<'a>(pulls: &'a [Pull<'a>]) -> impl Iterator<Item = (&'a Pull<'a>, &'a Pull<'a>)> {
    let pairs = pulls
        .iter()
        .flat_map(|one| pulls.iter().map(move |other| (one, other)));
    pairs.filter(|(one, other)| one.output == other.output && !one.negated && other.negated)
}

/// The lowest output of such a pair that goes together.
fn lowest_if(pulls: &[Pull], together: impl Fn(&Pull, &Pull) -> bool) -> Option<usize> {
    let pairs = pairs(pulls).filter(|(one, other)| together(one, other));
    pairs.map(|(one, _)| one.output).min()
}

/// The lowest output of pulls that may be of any sort.
fn lowest_of(pulls: &[Pull], is_of: impl Fn(&Pull) -> bool) -> Option<usize> {
    let pulls = pulls.iter().filter(|pull| is_of(pull));
    pulls.map(|pull| pull.output).min()
}

/// The simple constraints whose read literals of a sort are true.
fn by_some_reads(set: &Set, reads: &[bool], is_of: fn(&Literal) -> bool) -> Option<usize> {
    let counts = |constraint: &Constraint| {
        let of_sort = constraint.literals.iter().filter(|l| is_of(l));
        let literals = of_sort.copied().collect();
        constraint.is_simple() && read_literals_true(&Constraint { literals }, reads)
    };
    lowest(&pulls(set, counts))
}

/// True if one read literal is true, or there is none.
fn one_is_true(constraint: &Constraint, reads: &[bool]) -> bool {
    let read = constraint.literals.iter().filter(|l| !l.is_output());
    let mut alone = read.map(|&literal| Constraint {
        literals: vec![literal],
    });
    constraint.literals[0].is_output() || alone.any(|one| read_literals_true(&one, reads))
}

fn read_literals(constraint: &Constraint) -> Vec<&Literal> {
    constraint
        .literals
        .iter()
        .filter(|l| !l.is_output())
        .collect()
}

/// True if combined constraints alone leave some vector at a read word.
fn combined_leave_one(set: &Set, reads: &[bool]) -> bool {
    let combined = set.constraints.iter().filter(|c| !c.is_simple());
    let combined = Set {
        constraints: combined.cloned().collect(),
        ..set.clone()
    };
    let n = set.outputs.len();
    (0..1 << n).any(|vector| is_safe(&combined, reads, &bits(vector, n)))
}

/// How many sets must show a wrong reckoning at least by the name that is told:
/// those of 22 and those of 58.
type Names = [usize; 2];
/// And where its answer alone makes a word fail: accepted ones, those of 22, of
/// 23 and of 58. Where there is no number it is not tried.
type Fails = [usize; 4];
const NO_FAILS: Fails = [0; 4];
const GROUPS: [&str; 4] = ["0 told", "22 told", "23 told", "58 told"];

/// The lowest output that is taken for one that clashes.
type Reckoning = fn(&Set, &[bool]) -> Option<usize>;

/// Wrong reckonings.
const RECKONINGS: &[(&str, Names, Fails, Reckoning)] = &[
    (
        "either way were both ways",
        [54, 80],
        [32, 56, 14, 133],
        |set, reads| lowest_of(&forced(set, reads), |_| true),
    ),
    (
        "F0 alone were enough",
        [32, 60],
        [32, 45, 13, 111],
        |set, reads| lowest_of(&forced(set, reads), |pull| !pull.negated),
    ),
    (
        "F1 alone were enough",
        [45, 44],
        [32, 49, 14, 95],
        |set, reads| lowest_of(&forced(set, reads), |pull| pull.negated),
    ),
    (
        "F0 of one and F1 of another were enough",
        [23, 60],
        [27, 31, 12, 88],
        |set, reads| {
            let forced = forced(set, reads);
            lowest_of(&forced, |pull| pull.negated)?;
            lowest_of(&forced, |pull| !pull.negated)
        },
    ),
    (
        "the highest output were named",
        [0, 64],
        NO_FAILS,
        |set, reads| both(&forced(set, reads)).last().copied(),
    ),
    (
        "output 0 were named where there is none",
        [67, 0],
        NO_FAILS,
        |set, reads| lowest(&forced(set, reads)).or(Some(0)),
    ),
    (
        "a held output were named where there is none",
        [54, 0],
        NO_FAILS,
        |set, reads| {
            let forced = forced(set, reads);
            lowest(&forced).or(lowest_of(&forced, |_| true))
        },
    ),
    ("there were no clashes", [0, 220], NO_FAILS, |_, _| None),
    (
        "combined constraints forced too",
        [67, 68],
        [24, 66, 15, 109],
        |set, reads| lowest(&pulls(set, |c| read_literals_true(c, reads))),
    ),
    (
        "read literals were not looked at",
        [59, 42],
        [32, 58, 13, 122],
        |set, _| lowest(&pulls(set, Constraint::is_simple)),
    ),
    (
        "plain read literals alone were looked at",
        [23, 14],
        [32, 24, 13, 23],
        |set, reads| by_some_reads(set, reads, |literal| !literal.negated),
    ),
    (
        "negated read literals alone were looked at",
        [40, 24],
        [32, 58, 13, 122],
        |set, reads| by_some_reads(set, reads, |literal| literal.negated),
    ),
    (
        "one true read literal were enough",
        [36, 12],
        [13, 40, 3, 76],
        |set, reads| lowest(&pulls(set, |c| c.is_simple() && one_is_true(c, reads))),
    ),
    (
        "outputs from 8 on were not looked at",
        [0, 18],
        NO_FAILS,
        |set, reads| lowest(&forced(set, reads)).filter(|&output| output < 8),
    ),
    (
        "output 0 were not looked at",
        [0, 79],
        NO_FAILS,
        |set, reads| {
            both(&forced(set, reads))
                .into_iter()
                .find(|&output| output > 0)
        },
    ),
    (
        "the last output were not looked at",
        [0, 41],
        NO_FAILS,
        |set, reads| {
            let last = set.outputs.len() - 1;
            lowest(&forced(set, reads)).filter(|&output| output < last)
        },
    ),
    (
        "the pair that begins first were named",
        [0, 37],
        NO_FAILS,
        |set, reads| {
            let forced = forced(set, reads);
            let both = both(&forced);
            let first = forced.iter().find(|pull| both.contains(&pull.output));
            first.map(|pull| pull.output)
        },
    ),
    (
        "the pair that is whole first were named",
        [0, 35],
        NO_FAILS,
        |set, reads| {
            let forced = forced(set, reads);
            let whole = pairs(&forced).min_by_key(|(one, other)| one.place.max(other.place));
            whole.map(|(one, _)| one.output)
        },
    ),
    (
        "the pair that ends last were named",
        [0, 32],
        NO_FAILS,
        |set, reads| {
            let forced = forced(set, reads);
            let both = both(&forced);
            let last = forced.iter().rfind(|pull| both.contains(&pull.output));
            last.map(|pull| pull.output)
        },
    ),
    (
        "neighbours in the file alone were compared",
        [0, 142],
        NO_FAILS,
        |set, reads| {
            lowest_if(&forced(set, reads), |one, other| {
                one.place.abs_diff(other.place) == 1
            })
        },
    ),
    (
        "the first constraint were left out",
        [0, 53],
        NO_FAILS,
        |set, reads| {
            lowest_if(&forced(set, reads), |one, other| {
                one.place.min(other.place) > 0
            })
        },
    ),
    (
        "the last constraint were left out",
        [0, 59],
        NO_FAILS,
        |set, reads| {
            let last = set.constraints.len() - 1;
            lowest_if(&forced(set, reads), |one, other| {
                one.place.max(other.place) < last
            })
        },
    ),
    (
        "32 constraints alone counted",
        [0, 4],
        NO_FAILS,
        |set, reads| {
            lowest_if(&forced(set, reads), |one, other| {
                one.place.max(other.place) < 32
            })
        },
    ),
    (
        "read literals had to be the same",
        [0, 83],
        NO_FAILS,
        |set, reads| {
            lowest_if(&forced(set, reads), |one, other| {
                read_literals(one.constraint) == read_literals(other.constraint)
            })
        },
    ),
    (
        "ranks had to be the same",
        [0, 104],
        NO_FAILS,
        |set, reads| lowest_if(&forced(set, reads), |one, other| one.rank == other.rank),
    ),
    ("ranks had to be 0", [0, 104], NO_FAILS, |set, reads| {
        lowest_if(&forced(set, reads), |one, other| {
            one.rank == 0 && other.rank == 0
        })
    }),
    (
        "22 stayed where combined constraints leave no vector",
        [0, 18],
        NO_FAILS,
        |set, reads| lowest(&forced(set, reads)).filter(|_| combined_leave_one(set, reads)),
    ),
];

/// How many sets of 22 and of 58 must show a wrong telling at least.
type Tellings = [usize; 2];

/// The verdict of a set by what is so at each of its words.
type Telling = fn(&Words) -> Verdict;

/// What is told of a word without a vector.
fn told_at(words: &Words, word: usize) -> Verdict {
    match words.all[word].clash {
        Some(output) => Verdict::Clash(word as u32, output),
        None => Verdict::NoVector(word as u32),
    }
}

/// The first words of each sort.
fn first_lacking(words: &Words) -> Option<usize> {
    (0..words.all.len()).find(|&word| words.lacks(word))
}

fn first_bare(words: &Words) -> Option<usize> {
    (0..words.all.len()).find(|&word| words.lacks(word) && words.all[word].clash.is_none())
}

fn first_clash(words: &Words) -> Option<usize> {
    words.all.iter().position(|word| word.clash.is_some())
}

fn first_endless(words: &Words) -> Option<usize> {
    words.all.iter().position(|word| word.endless.is_some())
}

/// What is told of the first of some words that there is.
fn told(words: &Words, first: &[Option<usize>]) -> Verdict {
    match first.iter().flatten().next() {
        Some(&word) if words.lacks(word) => told_at(words, word),
        Some(&word) => words.no_end(word, word),
        None => Verdict::Accepted,
    }
}

/// The right verdict, with its word and output, if it is a clash, told so.
fn told_as(words: &Words, tell: impl Fn(usize, usize) -> (usize, usize)) -> Verdict {
    match told(words, &[first_lacking(words)]) {
        Verdict::Clash(word, output) => {
            let (word, output) = tell(word as usize, output);
            Verdict::Clash(word as u32, output)
        }
        other => other,
    }
}

/// Wrong tellings.
const TELLINGS: &[(&str, Tellings, Telling)] = &[
    ("the first word that fails were told", [13, 28], |words| {
        let fails = first_lacking(words).into_iter().chain(first_endless(words));
        told(words, &[fails.min()])
    }),
    ("behind an endless word 22 were told", [0, 28], |words| {
        let right = told(words, &[first_lacking(words)]);
        match words.first {
            Some(_) => right.without_clash(),
            None => right,
        }
    }),
    ("the endless word were told with 58", [0, 28], |words| {
        told_as(words, |word, output| (words.first.unwrap_or(word), output))
    }),
    ("the first word with a clash were told", [32, 0], |words| {
        told(words, &[first_clash(words), first_lacking(words)])
    }),
    ("a later clash's output were told", [32, 0], |words| {
        let later = first_clash(words).and_then(|word| words.all[word].clash);
        match (told(words, &[first_lacking(words)]), later) {
            (Verdict::NoVector(word), Some(output)) => Verdict::Clash(word, output),
            (right, _) => right,
        }
    }),
    ("22 at a later word came before a clash", [0, 24], |words| {
        told(words, &[first_bare(words), first_clash(words)])
    }),
    ("clashes were told with endless walks", [0, 46], |words| {
        let walks = first_clash(words).into_iter().chain(first_endless(words));
        told(words, &[first_bare(words), walks.min()])
    }),
    ("clashes came last", [0, 60], |words| {
        told(
            words,
            &[first_bare(words), first_endless(words), first_clash(words)],
        )
    }),
    ("the last word with a clash were told", [0, 53], |words| {
        let last = words.all.iter().rposition(|word| word.clash.is_some());
        told_as(words, |word, _| {
            let last = last.unwrap_or(word);
            (last, words.all[last].clash.unwrap_or(0))
        })
    }),
    (
        "the lowest output of all words were named",
        [0, 16],
        |words| {
            let all = words.all.iter().filter_map(|word| word.clash).min();
            told_as(words, |word, output| (word, all.unwrap_or(output)))
        },
    ),
    ("word and output were exchanged", [0, 111], |words| {
        told_as(words, |word, output| (output, word))
    }),
    ("outputs were counted from 1", [0, 148], |words| {
        told_as(words, |word, output| (word, output + 1))
    }),
    ("the output's bit were told", [0, 148], |words| {
        told_as(words, |word, output| (word, 1 << output))
    }),
];

/// What sets of 58 must be like, and how many at least.
const CLASHING: &[(&str, usize)] = &[
    ("two outputs clash", 48),
    ("three outputs clash", 8),
    ("more outputs clash", 7),
    ("all of several outputs clash", 24),
    ("the first and the last of 64 constraints", 4),
    ("other read literals in each", 83),
    ("a past output in the pair", 69),
    ("a past sensor in the pair", 29),
    ("lone ranks that are not 0", 104),
    ("a rest word", 74),
    ("combined constraints leave no vector either", 18),
    ("more than 251 masks up to it", 4),
    ("the last word of 16 read points", 3),
    ("a word above 32767", 3),
    ("straight away", 119),
    ("behind an endless word", 28),
    ("an endless word above", 28),
    ("a clash at a higher word", 53),
    ("no vector and no clash at a higher word", 24),
];

/// What sets of 22 must be like, and how many at least.
const BARE: &[(&str, usize)] = &[
    ("some output is held", 54),
    ("nothing is held", 12),
    ("straight away", 46),
    ("behind an endless word", 13),
    ("a clash at a higher word", 32),
    ("no vector and no clash at a higher word", 5),
];

/// What lists of scans from a state made by hand must have, and how many lists
/// at least.
const LISTS: &[(&str, usize)] = &[
    ("33 at a clash, mark 0", 19),
    ("33 at a clash, mark 1", 54),
    ("sent behind a clash", 32),
    ("sent behind a clash, other if that set the mark", 6),
    (
        "sent behind a clash, other if its sensor word were kept",
        16,
    ),
    ("sent behind a clash, other if its request were kept", 17),
];

/// The lengths of the line that tells a clash: a word of five digits and an
/// output of two do not go together.
const LINES: std::ops::RangeInclusive<usize> = 10..=14;

/// All that a corpus must have, and how many at least.
pub fn needed() -> Vec<(String, usize)> {
    let mut needed = Vec::new();
    for (name, names, fails, _) in RECKONINGS {
        for (group, least) in [GROUPS[1], GROUPS[3]].iter().zip(names) {
            needed.push((format!("F {}", by_name(group, name)), *least));
        }
        for (group, least) in GROUPS.iter().zip(fails) {
            needed.push((format!("F {}", by_reckoning(group, name)), *least));
        }
        if *fails != NO_FAILS {
            needed.push((format!("S {}", by_reckoning("sent", name)), 5));
        }
    }
    for (name, leasts, _) in TELLINGS {
        for (group, least) in [GROUPS[1], GROUPS[3]].iter().zip(leasts) {
            needed.push((format!("F {group}, other if {name}"), *least));
        }
    }
    for (group, sorts) in [(GROUPS[1], BARE), (GROUPS[3], CLASHING)] {
        let sorts = sorts.iter();
        needed.extend(sorts.map(|(sort, least)| (format!("F {group}, {sort}"), *least)));
    }
    let lists = LISTS.iter();
    needed.extend(lists.map(|(sort, least)| (format!("S {sort}"), *least)));
    needed.extend((0..12).map(|output| (format!("F 58 told, output {output}"), 3)));
    needed.extend((1..=12).map(|n| (format!("F 58 told, n {n}"), 3)));
    needed.extend((0..=16).map(|r| (format!("F 58 told, r {r}"), 2)));
    for length in LINES {
        needed.push((format!("B CLASH line of {length} bytes put"), 2));
        needed.push((format!("B CLASH line of {length} bytes, one less"), 2));
    }
    needed.retain(|(_, least)| *least > 0);
    needed
}

fn by_name(group: &str, name: &str) -> String {
    format!("{group}, the name, other if {name}")
}

fn by_reckoning(group: &str, name: &str) -> String {
    format!("{group}, the reckoning, other if {name}")
}

/// What a set counts as: what its words are like, and the wrong verdicts that
/// tell something else of it.
pub fn sorts(set: &Set) -> Vec<String> {
    let right = judge(set);
    let group = match right {
        Verdict::Accepted => GROUPS[0],
        Verdict::NoVector(_) => GROUPS[1],
        Verdict::NoEnd(..) => GROUPS[2],
        Verdict::Clash(..) => GROUPS[3],
    };
    let mut sorts = wrong_reckonings(set, group, right);
    if let Verdict::NoVector(word) | Verdict::Clash(word, _) = right {
        let mut of_word = match right {
            Verdict::Clash(_, output) => sorts_of_clash(set, word, output),
            _ => vec![sort_of_bare(set, word)],
        };
        if misses::are_few(set) {
            let words = Words::new(set);
            of_word.extend(sorts_of_words(&words, word as usize));
            of_word.extend(wrong_tellings(&words, right));
        }
        sorts.extend(of_word.into_iter().map(|sort| format!("{group}, {sort}")));
    }
    sorts
}

fn wrong_reckonings(set: &Set, group: &str, right: Verdict) -> Vec<String> {
    let r = set.reads.len();
    let named = |word: u32, reckon: Reckoning| match reckon(set, &bits(word, r)) {
        Some(output) => Verdict::Clash(word, output),
        None => Verdict::NoVector(word),
    };
    let mut sorts = Vec::new();
    for (name, _, fails, reckon) in RECKONINGS {
        let at = match right {
            Verdict::NoVector(word) | Verdict::Clash(word, _) => Some(word),
            _ => None,
        };
        if at.is_some_and(|word| named(word, *reckon) != right) {
            sorts.push(by_name(group, name));
        }
        if *fails != NO_FAILS && r <= MOST_RECKONED {
            let before = 0..at.map_or(1 << r, |word| word + 1);
            let mut fails = before.filter(|&word| reckon(set, &bits(word, r)).is_some());
            let told = fails.next().or(at).map(|word| named(word, *reckon));
            if told.is_some_and(|told| told != right) {
                sorts.push(by_reckoning(group, name));
            }
        }
    }
    sorts
}

fn wrong_tellings(words: &Words, right: Verdict) -> Vec<String> {
    let wrong = TELLINGS.iter().filter(|(_, _, tell)| tell(words) != right);
    wrong.map(|(name, ..)| format!("other if {name}")).collect()
}

/// What the clash that is told is like.
fn sorts_of_clash(set: &Set, word: u32, output: usize) -> Vec<String> {
    let (r, n) = (set.reads.len(), set.outputs.len());
    let reads = bits(word, r);
    let forced = forced(set, &reads);
    let both = both(&forced);
    let pairs: Vec<(&Pull, &Pull)> = pairs(&forced)
        .filter(|(one, _)| one.output == output)
        .collect();
    let past = |is_past: fn(&Kind) -> bool| {
        let mut literals = pairs.iter().flat_map(|(one, other)| {
            let other = read_literals(other.constraint);
            read_literals(one.constraint).into_iter().chain(other)
        });
        literals.any(|literal| match literal.point {
            Point::Read(number) => is_past(&set.reads[number].kind),
            Point::Output(_) => false,
        })
    };
    let masks = || {
        (0..=word)
            .map(|word| mask(set, word))
            .collect::<HashSet<u64>>()
    };
    let is = [
        ("two outputs clash", both.len() == 2),
        ("three outputs clash", both.len() == 3),
        ("more outputs clash", both.len() > 3),
        ("all of several outputs clash", n > 1 && both.len() == n),
        (
            "the first and the last of 64 constraints",
            pulling_places(set, &reads, output) == [0, 63],
        ),
        (
            "other read literals in each",
            pairs.iter().all(|(one, other)| {
                read_literals(one.constraint) != read_literals(other.constraint)
            }),
        ),
        (
            "a past output in the pair",
            past(|kind| matches!(kind, Kind::PastOutput(_))),
        ),
        (
            "a past sensor in the pair",
            past(|kind| matches!(kind, Kind::PastSensor(_))),
        ),
        (
            "lone ranks that are not 0",
            pairs
                .iter()
                .all(|(one, other)| one.rank != 0 && other.rank != 0),
        ),
        ("a rest word", !set.rest.is_empty()),
        (
            "combined constraints leave no vector either",
            !combined_leave_one(set, &reads),
        ),
        (
            "more than 251 masks up to it",
            r <= MOST_MASKS && word >= PLACES as u32 && masks().len() > PLACES as usize,
        ),
        ("the last word of 16 read points", r == 16 && word == 0xFFFF),
        ("a word above 32767", r <= 16 && word > 0x7FFF),
    ];
    let is = is.iter().filter(|(_, is)| *is);
    let mut sorts: Vec<String> = is.map(|(sort, _)| sort.to_string()).collect();
    sorts.extend([
        format!("output {output}"),
        format!("n {n}"),
        format!("r {r}"),
    ]);
    sorts
}

/// What the word without a vector or a clash that is told is like.
fn sort_of_bare(set: &Set, word: u32) -> String {
    let reads = bits(word, set.reads.len());
    String::from(match forced(set, &reads).is_empty() {
        true => "nothing is held",
        false => "some output is held",
    })
}

/// What the words are like before and behind the one that is told.
fn sorts_of_words(words: &Words, told: usize) -> Vec<String> {
    let behind = &words.all[told + 1..];
    let bare = |word: &misses::Word| word.clash.is_none() && !word.has_vector();
    let is = [
        ("straight away", words.first.is_none()),
        ("behind an endless word", words.first.is_some()),
        (
            "an endless word above",
            behind.iter().any(|word| word.endless.is_some()),
        ),
        (
            "a clash at a higher word",
            behind.iter().any(|word| word.clash.is_some()),
        ),
        (
            "no vector and no clash at a higher word",
            behind.iter().any(|word| bare(word)),
        ),
    ];
    let is = is.iter().filter(|(_, is)| *is);
    is.map(|(sort, _)| sort.to_string()).collect()
}

/// What a list of scans from a state made by hand counts as, each sort once.
pub fn of_list(first: &State, scans: &[records::Words]) -> Vec<String> {
    let turns = turns(first, scans);
    let mut sorts: Vec<String> = Vec::new();
    for turn in turns.iter().filter(|turn| clashes(turn)) {
        let mark = u8::from(turn.before.accepted);
        sorts.push(format!("33 at a clash, mark {mark}"));
    }
    for pair in turns.windows(2) {
        if clashes(&pair[0]) && pair[1].answer.is_ok() {
            sorts.extend(sorts_behind(&pair[0], &pair[1]));
        }
    }
    for turn in turns.iter().filter(|turn| turn.answer.is_ok()) {
        sorts.extend(refused_by(turn));
    }
    sorts.sort();
    sorts.dedup();
    sorts
}

/// True if a scan meets a clash.
fn clashes(turn: &Turn) -> bool {
    let (sensor, request) = turn.words;
    let Ok((reads, _)) = taken(&turn.before, sensor, request) else {
        return false;
    };
    let clashes = matches!(holds(&turn.before.set, &reads), Holds::Clash(_));
    clashes && turn.answer == Err(ScanRefusal::NeverSafe)
}

/// What a scan sent right behind a clash counts as, whose state is the one
/// before that.
fn sorts_behind(clash: &Turn, sent: &Turn) -> Vec<String> {
    let behind = "sent behind a clash";
    let (sensor, request) = clash.words;
    let kept = [
        (
            "that set the mark",
            sent.other(|state| state.accepted = true),
        ),
        (
            "its sensor word were kept",
            sent.other(|state| state.past_sensor = sensor),
        ),
        ("its request were kept", sent.other_if_past(request)),
    ];
    let other = kept.iter().filter(|(_, other)| *other);
    let other = other.map(|(what, _)| format!("{behind}, other if {what}"));
    other.chain([String::from(behind)]).collect()
}

/// The wrong reckonings that see a clash where a vector is sent.
fn refused_by(turn: &Turn) -> Vec<String> {
    let (sensor, request) = turn.words;
    let Ok((reads, _)) = taken(&turn.before, sensor, request) else {
        return Vec::new();
    };
    let wrong = RECKONINGS.iter().filter(|(_, _, fails, reckon)| {
        *fails != NO_FAILS && reckon(&turn.before.set, &reads).is_some()
    });
    wrong.map(|(name, ..)| by_reckoning("sent", name)).collect()
}

/// What buffers count as where a clash is told: the line put into one that is
/// just as long, and one that is a byte too short.
pub fn of_sizes(set: &Set, sizes: &[u16]) -> Vec<String> {
    let verdict = judge(set);
    let length = judged(set, verdict).len();
    let mut sorts = Vec::new();
    if matches!(verdict, Verdict::Clash(..)) {
        let line = format!("CLASH line of {length} bytes");
        for (size, sort) in [(length, " put"), (length - 1, ", one less")] {
            if sizes.contains(&(size as u16)) {
                sorts.push(format!("{line}{sort}"));
            }
        }
    }
    sorts
}
