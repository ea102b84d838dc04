//! Document 02's "Simple constraints that contradict": which answers change and
//! which stay, over random sets and over the part of the corpus for it, scans at
//! a clash, and what the part shows of wrong filters.

use reference::answer::answer;
use reference::by_hand;
use reference::chance::Chance;
use reference::corpus::clashing;
use reference::corpus::edges::add_stuck;
use reference::corpus::namings::{needed, of_list, of_sizes, sorts};
use reference::file::{load, write};
use reference::filter::{holds, pulls, Holds};
use reference::machine::{scan, start, ScanRefusal, State};
use reference::making::{set, Recipe};
use reference::program::line;
use reference::raw::laid_out;
use reference::records::{Case, Kept, List};
use reference::set::{bits, Kind, Point, Set};
use reference::verdict::{judge, judge_in_the_old_order, judge_plainly, Verdict};
use std::collections::BTreeMap;
use std::sync::OnceLock;

/// True if a word has a bit.
fn bit(word: u32, number: usize) -> bool {
    (word >> number) % 2 == 1
}

/// The outputs with F0 and F1 both true, told from document 01's sentence alone:
/// "F0 of an output is true if the read literals of some simple constraint with
/// that output plain are all true; F1 likewise with it negated."
fn both_ways(set: &Set, read_word: u32) -> Vec<usize> {
    let n = set.outputs.len();
    let mut f = [vec![false; n], vec![false; n]];
    for constraint in &set.constraints {
        let mut outputs = Vec::new();
        let mut reads_true = true;
        for literal in &constraint.literals {
            match literal.point {
                Point::Output(number) => outputs.push((number, literal.negated)),
                Point::Read(number) => reads_true &= bit(read_word, number) != literal.negated,
            }
        }
        if let ([(number, negated)], true) = (outputs.as_slice(), reads_true) {
            f[usize::from(*negated)][*number] = true;
        }
    }
    (0..n).filter(|&k| f[0][k] && f[1][k]).collect()
}

/// True if some vector makes no constraint true.
fn has_vector(set: &Set, read_word: u32) -> bool {
    let is_safe = |vector: &u32| {
        !set.constraints.iter().any(|constraint| {
            constraint.literals.iter().all(|literal| {
                let value = match literal.point {
                    Point::Output(number) => bit(*vector, number),
                    Point::Read(number) => bit(read_word, number),
                };
                value != literal.negated
            })
        })
    };
    (0..1u32 << set.outputs.len()).any(|vector| is_safe(&vector))
}

fn words(set: &Set) -> std::ops::Range<u32> {
    0..1 << set.reads.len()
}

/// The verdict before clashes were named, and the one that is due now.
fn due(set: &Set) -> [Verdict; 2] {
    match words(set).find(|&word| !has_vector(set, word)) {
        // Without such a word the order makes no difference.
        None => [judge_in_the_old_order(set); 2],
        Some(word) => {
            let old = Verdict::NoVector(word);
            let lowest = both_ways(set, word).first().copied();
            [
                old,
                lowest.map_or(old, |output| Verdict::Clash(word, output)),
            ]
        }
    }
}

/// Small sets by chance, most of them with an output forced both ways behind
/// some read literals, and some with an endless walk behind others.
fn small_set(chance: &mut Chance) -> Set {
    let recipe = [Recipe::Loose, Recipe::Planted, Recipe::Bent][chance.below(3)];
    let (r, n) = (chance.between(0, 4), chance.between(2, 4));
    let m = chance.between(0, 6);
    let mut small = set(chance, recipe, r, n, m);
    for (outputs, times) in [(1, 2), (1, 3), (2, 2)] {
        if chance.one_in(times) {
            add_stuck(chance, &mut small, outputs);
        }
    }
    chance.shuffle(&mut small.constraints);
    small
}

#[test]
fn clashes_are_named_and_nothing_else_changes() {
    let mut chance = Chance::new(58);
    let mut seen = [0; 6];
    for _ in 0..4000 {
        let set = small_set(&mut chance);
        let new = judge(&set);
        let [old, due] = due(&set);
        assert_eq!(new, due);
        assert_eq!(judge_plainly(&set), new);
        assert_eq!(new.without_clash(), old);
        assert_eq!(start(&set).err(), (new != Verdict::Accepted).then_some(new));
        let later = words(&set).any(|word| !both_ways(&set, word).is_empty());
        let behind = judge_in_the_old_order(&set) != old;
        seen[match new {
            Verdict::Accepted => 0,
            Verdict::NoEnd(..) => 1,
            Verdict::NoVector(_) if later => 2,
            Verdict::NoVector(_) => 3,
            Verdict::Clash(..) if behind => 4,
            Verdict::Clash(..) => 5,
        }] += 1;
        // A clash is at a word without a vector, so that none is accepted.
        assert!(!later || matches!(old, Verdict::NoVector(_)));
    }
    assert!(seen.iter().all(|&count| count > 20), "{seen:?}");
}

#[test]
fn the_reckoning_of_holds() {
    let mut chance = Chance::new(10);
    let mut several = 0;
    for _ in 0..1000 {
        let set = small_set(&mut chance);
        for word in words(&set) {
            let reads = bits(word, set.reads.len());
            let both = both_ways(&set, word);
            match holds(&set, &reads) {
                Holds::Clash(output) => {
                    assert_eq!(both.first(), Some(&output));
                    assert!(!has_vector(&set, word));
                    several += usize::from(both.len() > 1);
                }
                Holds::Forced(forced) => {
                    assert!(both.is_empty());
                    assert_eq!(forced, pulls(&set, &reads));
                    assert!(!forced.iter().any(|hold| hold.f0 && hold.f1));
                }
            }
        }
    }
    assert!(several > 100, "{several}");
}

/// Every scan at a clash is 33, whatever the request and the mark, and leaves the
/// state; scans at other words of the same set are sent.
#[test]
fn scans_at_a_clash() {
    let mut chance = Chance::new(33);
    let mut seen = [0; 2];
    for _ in 0..400 {
        let mut set = small_set(&mut chance);
        for point in &mut set.reads {
            point.kind = Kind::Sensor;
        }
        let n = set.outputs.len();
        for (word, mark) in words(&set).flat_map(|word| [(word, 0), (word, 1)]) {
            let first = Kept {
                past_sensor: chance.below(1 << set.reads.len()) as u32,
                past_output: chance.below(1 << n) as u16,
                mark,
            };
            let clash = !both_ways(&set, word).is_empty();
            for request in 0..1u16 << n {
                let mut state = State::by_hand(&set, &first);
                let answer = scan(&mut state, word, request);
                if clash {
                    assert_eq!(answer, Err(ScanRefusal::NeverSafe));
                }
                let kept = answer.is_err();
                assert_eq!(
                    state == State::by_hand(&set, &first),
                    kept || unmoved(&state, &first)
                );
                seen[usize::from(clash)] += usize::from(answer.is_ok() || clash);
            }
        }
    }
    assert!(seen.iter().all(|&count| count > 1000), "{seen:?}");
}

/// True if a scan that was sent left what the state had kept.
fn unmoved(state: &State, first: &Kept) -> bool {
    let pasts = (state.past_sensor, state.past_output);
    first.mark != 0 && pasts == (first.past_sensor, first.past_output)
}

#[test]
fn made_by_hand() {
    let lines: Vec<String> = by_hand::clashes().iter().map(told).collect();
    let told = [
        "CLASH 1 0\n",
        "CLASH 2 0\n",
        "CLASH 0 1\n",
        "CLASH 0 0\n",
        "CLASH 0 0\n",
        "CLASH 0 2\n",
        "NOVECTOR 0\n",
        "CLASH 1 1\n",
        "NOVECTOR 0\n",
        "NOVECTOR 0\n",
        "STATE !33 !33 1/0 !33 0/0 = 0 0 1\n",
        "STATE !33 !33 1/0 !33 0/0 = 0 0 1\n",
        "STATE !33 !33 1/0 !33 0/0 = 0 0 1\n",
        "STATE !33 !33 1/0 !33 0/0 = 0 0 1\n",
    ];
    assert_eq!(lines, told);
}

/// The program's line of a file, or the answer to another case.
fn told(case: &Case) -> String {
    match case {
        Case::File { file, .. } => line(file),
        other => answer(other),
    }
}

#[test]
fn the_answers_of_each_kind() {
    let Case::File { file, .. } = by_hand::clashes().remove(7) else {
        panic!("a file");
    };
    let set = load(&file).expect("it loads");
    let of_file = answer(&Case::File {
        file: file.clone(),
        scans: vec![(1, 0)],
    });
    assert!(of_file.starts_with("JUDGE CLASH 1 1\n"));
    assert!(of_file.contains("\nSCRATCH 1 58/1/1:"));
    assert!(of_file.ends_with("\nCLASH 1 1\n"));
    let of_buffers = answer(&Case::Buffers {
        file,
        sizes: vec![0, 9, 10],
    });
    let item = |line: &str, place: usize| {
        let line = of_buffers.lines().find(|l| l.starts_with(line));
        let item = line.and_then(|line| line.split(' ').nth(1 + place));
        String::from(item.expect("the item"))
    };
    for line in ["JUDGES", "STARTS"] {
        assert!(item(line, 0).starts_with("21:"));
        assert!(item(line, 1).starts_with("58/1/1:"));
    }
    assert!(item("STARTS", 2).ends_with("=0/0"));
    assert!(item("LINES", 1).starts_with("0:"));
    assert!(item("LINES", 2).starts_with("10:"));
    let first = Kept {
        past_sensor: 1,
        past_output: 3,
        mark: 1,
    };
    let scans = vec![(1, 0), (0, 2), (1, 3)];
    let in_memory = answer(&Case::Raw {
        set: laid_out(&set),
        list: Some(List { first, scans }),
        names: Vec::new(),
    });
    assert!(in_memory
        .lines()
        .next()
        .is_some_and(|line| line.contains(" 58/1/1 0/")));
    assert!(in_memory.ends_with("\nSTATE !33 2/0 !33 = 0 2 1\n"));
}

#[test]
fn the_examples() {
    let sorting = include_bytes!("../../examples/sorting.set");
    assert_eq!(line(sorting), "CLASH 176 4\n");
    let outfeed = include_bytes!("../../examples/outfeed.set");
    assert_eq!(line(outfeed), "NOVECTOR 7\n");
}

/// The part in the corpus that is committed, made once for all tests.
fn part() -> &'static [Case] {
    static PART: OnceLock<Vec<Case>> = OnceLock::new();
    PART.get_or_init(|| clashing(1))
}

/// The sets of the part's files.
fn files() -> Vec<Set> {
    let file = |case: &Case| match case {
        Case::File { file, .. } => load(file).ok(),
        _ => None,
    };
    part().iter().filter_map(file).collect()
}

#[test]
fn the_part_has_enough_of_each_sort() {
    let mut counts: BTreeMap<String, usize> = BTreeMap::new();
    let loaded = |file: &[u8]| load(file).expect("it loads");
    for case in part() {
        let (kind, sorts) = match case {
            Case::File { file, .. } => ('F', sorts(&loaded(file))),
            Case::Buffers { file, sizes } => ('B', of_sizes(&loaded(file), sizes)),
            Case::State {
                file,
                list: Some(List { first, scans }),
            } => ('S', of_list(&State::by_hand(&loaded(file), first), scans)),
            _ => continue,
        };
        for sort in sorts {
            *counts.entry(format!("{kind} {sort}")).or_default() += 1;
        }
    }
    let mut short = Vec::new();
    for (sort, least) in needed() {
        let count = counts.get(&sort).copied().unwrap_or(0);
        println!("{sort}: {count} of {least}");
        if count < least {
            short.push(sort);
        }
    }
    assert!(short.is_empty(), "{short:?}");
}

#[test]
fn the_part_word_by_word() {
    let mut seen = 0;
    for set in files() {
        if set.reads.len() + set.outputs.len() <= 13 {
            assert_eq!(judge(&set), due(&set)[1]);
            assert_eq!(judge_plainly(&set), judge(&set));
            seen += 1;
        }
        assert_eq!(load(&write(&set)), Ok(set));
    }
    assert!(seen > 300, "{seen}");
}

/// Some sorts, told without the filters that go wrong.
#[test]
fn sorts_by_their_own_words() {
    let mut shown = [0; 6];
    for set in files() {
        if set.reads.len() > 8 || set.outputs.len() > 8 {
            continue;
        }
        let right = judge(&set);
        let old = judge_in_the_old_order(&set);
        let (word, named) = match right {
            Verdict::Clash(word, output) => (word, Some(output)),
            Verdict::NoVector(word) => (word, None),
            _ => continue,
        };
        let both = both_ways(&set, word);
        let has_clash = |word: &u32| !both_ways(&set, *word).is_empty();
        let first_clash = words(&set).find(has_clash);
        let last_clash = words(&set).rfind(has_clash);
        let wrong = [
            (
                "other if the first word that fails were told",
                old != right.without_clash(),
            ),
            (
                "other if the first word with a clash were told",
                named.is_none() && first_clash.is_some(),
            ),
            (
                "other if the last word with a clash were told",
                named.is_some() && last_clash != Some(word),
            ),
            (
                "other if word and output were exchanged",
                named.is_some_and(|k| k as u32 != word),
            ),
            (
                "the name, other if the highest output were named",
                both.len() > 1,
            ),
            ("the name, other if there were no clashes", named.is_some()),
        ];
        let sorts = sorts(&set);
        for (place, (name, other)) in wrong.into_iter().enumerate() {
            let is_named = sorts.iter().any(|sort| sort.ends_with(name));
            assert_eq!(is_named, other, "{name}");
            shown[place] += usize::from(other);
        }
    }
    assert!(shown.iter().all(|&count| count > 20), "{shown:?}");
}
