//! Sets with a rest word: what a start takes over, what a scan reads of it, and
//! what a set with one is in a file, in memory, in a buffer and as a text.

use super::broken;
use super::counters::{counting, plain};
use super::edges::{spoil, stuck, Wanted};
use super::files::{small_set, Files};
use super::long::{longest, WORD};
use super::names::names;
use super::rest_files;
use super::sizes::sizes;
use super::starts::{by_hand, from_start, BY_HAND, FROM_START};
use super::states::kept;
use super::texts::{lone, wordiest, wordy};
use crate::by_hand::{resting, BRAKE};
use crate::chance::Chance;
use crate::damage;
use crate::file::{load, write};
use crate::machine::State;
use crate::making::{read_literals, scans, set, towards, Recipe};
use crate::raw::{laid_out, put, REST};
use crate::records::{Case, Kept, List, Words, SET_BYTES};
use crate::set::{ones, Constraint, Kind, Point, Set};

const SETS_TO_DAMAGE: usize = 30;
const DAMAGED_EACH: usize = 5;
const REJECTED_EACH: usize = 15;

/// The paper's cases, files good and bad, and sets with scans, states, names,
/// buffers and as they lie in memory.
pub fn cases(chance: &mut Chance) -> Vec<Case> {
    let mut cases = resting();
    cases.extend(each_output());
    cases.extend(but_for_the_rest_word(chance));
    cases.extend(with_scans(chance));
    cases.extend(with_states(chance));
    cases.extend(as_files(chance));
    cases.extend(longest_ones());
    cases.extend(with_names(chance));
    cases.extend(with_buffers(chance));
    cases.extend(in_memory(chance));
    cases
}

/// One output that rests on, all of them, all but one, or some.
pub fn rest(chance: &mut Chance, n: usize) -> Vec<usize> {
    let one = chance.below(n);
    let is_on = |k: usize, chance: &mut Chance, sort: usize| match sort {
        0 => k == one,
        1 => true,
        2 => k != one || n == 1,
        _ => k == one || chance.one_in(2),
    };
    let sort = chance.below(4);
    (0..n).filter(|&k| is_on(k, chance, sort)).collect()
}

/// Makes sensors that no past point names pasts of outputs, those at rest more
/// often than others.
fn add_pasts(chance: &mut Chance, set: &mut Set) {
    for number in 0..set.reads.len() {
        let named = |kind: Kind| kind == Kind::PastSensor(number);
        let free = !set.reads.iter().any(|point| named(point.kind));
        if set.reads[number].kind == Kind::Sensor && free && chance.one_in(2) {
            let output = match chance.below(3) {
                0 => chance.below(set.outputs.len()),
                _ => set.rest[chance.below(set.rest.len())],
            };
            set.reads[number].kind = Kind::PastOutput(output);
        }
    }
}

/// A set by a recipe, with a rest word and pasts of outputs that rest on.
fn by_recipe(chance: &mut Chance, recipe: Recipe, r: usize, n: usize, m: usize) -> Set {
    let mut set = set(chance, recipe, r, n, m);
    set.rest = rest(chance, n);
    add_pasts(chance, &mut set);
    set
}

/// n outputs, the pasts of some of them, and each of these pasts with its output
/// for a constraint: an output that was on must not be on.
fn watching(n: usize, watched: &[usize]) -> Set {
    let kinds: Vec<Kind> = watched.iter().map(|&k| Kind::PastOutput(k)).collect();
    let never = |(place, &output): (usize, &usize)| Constraint {
        literals: vec![
            plain(Point::Read(place), false),
            plain(Point::Output(output), false),
        ],
    };
    let constraints = watched.iter().enumerate().map(never).collect();
    counting(&kinds, n, constraints)
}

/// Requests for all outputs, with refused scans first and between.
fn all_requested(n: usize) -> Vec<Words> {
    let all = (1 << n) - 1;
    vec![
        (0, all + 1),
        (1 << 31, all),
        (0, all),
        (0, 0xFFFF),
        (0, all),
    ]
}

/// Rest words bit by bit: up to six outputs all watched, and two of twelve: the
/// one that rests on and the one that would with the bytes swapped.
fn each_output() -> Vec<Case> {
    let mut cases = Vec::new();
    let mut add = |mut set: Set, word: u16| {
        set.rest = ones(word);
        let scans = all_requested(set.outputs.len());
        let file = write(&set);
        cases.push(Case::File { file, scans });
    };
    for n in 1..=4 {
        let all: Vec<usize> = (0..n).collect();
        for word in 0..1 << n {
            add(watching(n, &all), word);
        }
    }
    for output in 0..12 {
        let swapped = (output + 8) % 16;
        let other = if swapped < 12 { swapped } else { 11 - output };
        add(
            watching(12, &[output.min(other), output.max(other)]),
            1 << output,
        );
    }
    for word in [0, 0x0FFF, 0x0F00, 0x00FF, 0x0102, 0x0201, 0x0804, 0x0AAA] {
        add(watching(12, &[1, 2, 8, 9]), word);
    }
    cases
}

/// Sets that are the same but for the rest word, with the same scans: accepted
/// and rejected ones, and one without constraints.
fn but_for_the_rest_word(chance: &mut Chance) -> Vec<Case> {
    let mut cases = Vec::new();
    let sets = [
        by_recipe(chance, Recipe::Planted, 4, 3, 6),
        by_recipe(chance, Recipe::Planted, 6, 5, 12),
        by_recipe(chance, Recipe::Planted, 3, 12, 2),
        by_recipe(chance, Recipe::Clash, 3, 4, 4),
        by_recipe(chance, Recipe::Planted, 2, 2, 0),
        by_recipe(chance, Recipe::Planted, 0, 3, 4),
        crowded(chance),
        endless(),
    ];
    for mut set in sets {
        let n = set.outputs.len();
        let scans = scans(chance, &set, 8);
        let all = (1 << n) - 1;
        let mut words = vec![0, 1, 1 << (n - 1), all, all - 1, set.rest_word()];
        words.sort();
        words.dedup();
        for word in words {
            set.rest = ones(word);
            let (file, scans) = (write(&set), scans.clone());
            cases.push(Case::File { file, scans });
        }
    }
    cases
}

/// No two of four outputs may be on: most rest words are not safe.
fn crowded(chance: &mut Chance) -> Set {
    let mut constraints = Vec::new();
    for first in 0..4 {
        for second in first + 1..4 {
            let literals = [first, second].map(|k| plain(Point::Output(k), false));
            constraints.push(Constraint {
                literals: literals.to_vec(),
            });
        }
    }
    let kinds = [Kind::PastOutput(3), Kind::Sensor, Kind::PastOutput(0)];
    let mut set = counting(&kinds, 4, constraints);
    set.constraints.push(Constraint {
        literals: vec![plain(Point::Read(0), false), plain(Point::Output(1), true)],
    });
    set.rest = rest(chance, 4);
    set
}

/// While the first output was on, and it is on, the second flips for ever.
fn endless() -> Set {
    let guard = plain(Point::Read(0), false);
    let kinds = [Kind::PastOutput(0), Kind::PastOutput(2)];
    let mut set = counting(&kinds, 4, stuck(&[guard], &[0, 1]));
    set.rest = vec![0, 2];
    set
}

/// A set whose constraints lead to one vector, so that it is accepted, with read
/// points of all kinds, most of them pasts of outputs; some of twelve outputs.
fn planted(chance: &mut Chance) -> Set {
    let (r, n, m) = match chance.below(3) {
        0 => (chance.between(1, 5), chance.between(9, 12), 2),
        _ => (chance.between(1, 7), chance.between(1, 4), 4),
    };
    let mut kinds: Vec<Kind> = Vec::new();
    for _ in 0..r {
        let sensor = kinds.iter().position(|&kind| kind == Kind::Sensor);
        kinds.push(match (chance.below(5), sensor) {
            (0, _) => Kind::Sensor,
            (1, Some(sensor)) => Kind::PastSensor(sensor),
            _ => Kind::PastOutput(chance.below(n)),
        });
    }
    let target: Vec<bool> = (0..n).map(|_| chance.one_in(2)).collect();
    let count = chance.between(1, m);
    let constraint = |_| {
        let mut literals = read_literals(chance, r, 2);
        literals.extend(towards(chance, &target));
        Constraint { literals }
    };
    let constraints = (0..count).map(constraint).collect();
    let mut set = counting(&kinds, n, constraints);
    set.rest = rest(chance, n);
    set
}

/// A few scans, some of them sure to be refused, now and then the first two.
fn some_refused(chance: &mut Chance, set: &Set) -> Vec<Words> {
    let count = chance.between(3, 6);
    let mut list = scans(chance, set, count);
    let first = if chance.one_in(3) { 2 } else { 0 };
    for (place, words) in list.iter_mut().enumerate() {
        if place < first || chance.one_in(3) {
            spoil(chance, set, words);
        }
    }
    list
}

/// Accepted sets with lists from a start, each kept while it is of a sort there
/// is too little of.
fn with_scans(chance: &mut Chance) -> Vec<Case> {
    let mut wanted = Wanted::new(&[FROM_START]);
    let mut cases = Vec::new();
    while !wanted.is_done() {
        let set = planted(chance);
        let scans = some_refused(chance, &set);
        if wanted.takes(&from_start(&set, &scans)) {
            let file = write(&set);
            cases.push(Case::File { file, scans });
        }
    }
    cases
}

/// States made by hand with any past output word, 0 among them, each with both
/// marks, and one of no words.
fn with_states(chance: &mut Chance) -> Vec<Case> {
    let mut wanted = Wanted::new(&[BY_HAND]);
    let mut cases = Vec::new();
    while !wanted.is_done() {
        let set = planted(chance);
        let scans = some_refused(chance, &set);
        let mut first = kept(chance, set.reads.len(), set.outputs.len());
        if chance.one_in(3) {
            first.past_output = 0;
        }
        let states = [0, 1].map(|mark| Kept { mark, ..first });
        let sorts = |kept: &Kept| by_hand(&State::by_hand(&set, kept), &scans);
        if wanted.takes(&states.iter().flat_map(sorts).collect::<Vec<String>>()) {
            cases.extend(states.map(|first| Case::State {
                file: write(&set),
                list: Some(List {
                    first,
                    scans: scans.clone(),
                }),
            }));
        }
    }
    let file = write(&planted(chance));
    cases.push(Case::State { file, list: None });
    cases
}

/// Files: sets of all sizes, rejected ones, and refused and damaged ones.
fn as_files(chance: &mut Chance) -> Vec<Case> {
    let mut files = Files::default();
    for set in all_sizes(chance) {
        files.add(chance, write(&set));
    }
    for recipe in [Recipe::Loose, Recipe::Bent, Recipe::Chain, Recipe::Clash] {
        for _ in 0..REJECTED_EACH {
            let file = rested(chance, recipe);
            files.add(chance, file);
        }
    }
    for file in rest_files::fixed() {
        files.add(chance, file);
    }
    for _ in 0..SETS_TO_DAMAGE {
        let good = rested(chance, Recipe::Planted);
        let mut bad = damage::by_chance(chance, &good, DAMAGED_EACH);
        bad.extend(rest_files::by_chance(chance, &good));
        for file in bad {
            files.add(chance, file);
        }
    }
    files.cases
}

/// The file of a small set with a rest word.
fn rested(chance: &mut Chance, recipe: Recipe) -> Vec<u8> {
    let mut set = load(&small_set(chance, recipe)).expect("a set that was written");
    set.rest = rest(chance, set.outputs.len());
    add_pasts(chance, &mut set);
    write(&set)
}

/// Every r with every n once. The largest are rejected at an early word, but for
/// some with few constraints.
fn all_sizes(chance: &mut Chance) -> Vec<Set> {
    let mut sets = Vec::new();
    for r in 0..=16 {
        for n in 1..=12.min(24 - r) {
            let large = [(16, 8), (12, 12), (16, 4), (8, 12)].contains(&(r, n));
            let (recipe, most) = match r + n {
                0..=12 => ([Recipe::Planted, Recipe::Bent][chance.below(2)], 6),
                13..=17 => (Recipe::Planted, 2),
                _ if large => (Recipe::Planted, 2),
                _ => (Recipe::Clash, 3),
            };
            let m = chance.between(0, most);
            sets.push(by_recipe(chance, recipe, r, n, m));
        }
    }
    sets
}

/// One of the longest files; at its word past output 7 is on and past output 0
/// is off.
fn longest_at_rest(rest: &[usize], turns: bool) -> Set {
    let mut set = longest(WORD, turns);
    set.rest = rest.to_vec();
    set
}

/// The longest files, whose word is there in the first scan or is not, the
/// longest text, and texts about as long as is printed in full.
fn longest_ones() -> Vec<Case> {
    let sensors = (WORD & !(1 << 9) & !(1 << 11) & !(1 << 15)) as u32;
    let mut cases = Vec::new();
    for (rest, turns) in [(vec![7], false), (vec![0, 7], false), (vec![7], true)] {
        for request in [0, 63, 64] {
            cases.push(Case::File {
                file: write(&longest_at_rest(&rest, turns)),
                scans: vec![(1 << 9, 0), (sensors, request), (sensors, request)],
            });
        }
    }
    let mut sets = vec![wordiest(), odd_names()];
    sets[0].rest = (0..12).collect();
    // 20 bytes, 11 for each of the first and 18 for each of the others.
    for (plain_ones, ranked) in [(38, 9), (43, 6)] {
        let mut set = lone(plain_ones, ranked);
        set.rest = vec![0];
        sets.push(set);
    }
    cases.extend(sets.iter().map(|set| Case::File {
        file: write(set),
        scans: vec![(0, 0), (0, 1), (1, 1), (0, 5)],
    }));
    cases
}

/// Outputs named by words of the text, all of them at rest on.
fn odd_names() -> Set {
    let names = ["rest", "end", "never", "output", "~", "7", "07", "on"];
    let mut set = watching(names.len(), &[0, 1, 7]);
    set.outputs = names.map(|name| name.as_bytes().to_vec()).to_vec();
    set.reads[0].name = b"past".to_vec();
    set.reads[1].name = b"rest7".to_vec();
    set.rest = (0..names.len()).collect();
    set
}

fn with_names(chance: &mut Chance) -> Vec<Case> {
    let mut files = vec![BRAKE.to_vec(), write(&odd_names())];
    for _ in 0..3 {
        files.push(rested(chance, Recipe::Planted));
    }
    let mut cases = Vec::new();
    for file in files {
        let set = load(&file).expect("a set that was written");
        let names = names(chance, &set);
        cases.push(Case::Names { file, names });
    }
    cases
}

/// Sizes around each length, for sets with a rest word and for the same sets
/// without it, which need less.
fn with_buffers(chance: &mut Chance) -> Vec<Case> {
    let mut sets = vec![
        load(&BRAKE).expect("it loads"),
        watching(12, &[8, 11]),
        watching(1, &[]),
        crowded(chance),
        by_recipe(chance, Recipe::Clash, 2, 3, 4),
        by_recipe(chance, Recipe::Planted, 4, 9, 2),
        longest(0, true),
        wordy(),
    ];
    let mut cases = Vec::new();
    for set in &mut sets {
        if set.rest.is_empty() {
            set.rest = (0..set.outputs.len()).collect();
        }
        let file = write(set);
        let mut lengths = sizes(&file);
        set.rest.clear();
        lengths.extend(sizes(&write(set)));
        lengths.sort();
        lengths.dedup();
        cases.push(Case::Buffers {
            file,
            sizes: lengths.clone(),
        });
        if cases.len() < 6 {
            let (file, sizes) = (write(set), lengths);
            cases.push(Case::Buffers { file, sizes });
        }
    }
    cases
}

/// Sets as they lie in memory, each with rest words in width and out of it.
fn in_memory(chance: &mut Chance) -> Vec<Case> {
    let mut cases = Vec::new();
    for (r, n, m) in [(3, 2, 4), (0, 1, 0), (6, 8, 3), (4, 9, 2), (5, 12, 2)] {
        let set = by_recipe(chance, Recipe::Planted, r, n, m);
        let all: u16 = (1 << n) - 1;
        let mut words = vec![
            set.rest_word(),
            all,
            1 << n,
            all + (1 << n),
            1 << 15,
            0xFFFF,
        ];
        words.push(set.rest_word().swap_bytes());
        words.dedup();
        for word in words {
            let raw = with_word(&set, word);
            cases.push(broken::case(chance, &set, raw));
        }
    }
    cases.extend(in_memory_with_states());
    // The last output is not counted, and its bit is there still.
    let mut set = by_recipe(chance, Recipe::Planted, 2, 12, 0);
    set.rest = vec![11];
    let mut raw = laid_out(&set);
    put(&mut raw, 2, &[0, 11]);
    cases.push(broken::case(chance, &set, raw));
    for raw in whole() {
        cases.push(broken::case(chance, &set, raw));
    }
    for _ in 0..12 {
        let set = by_recipe(chance, Recipe::Bent, 5, 4, 5);
        let mut raw = laid_out(&set);
        let at = chance.below(2);
        raw[REST + at] ^= 1 << chance.below(8);
        cases.push(broken::case(chance, &set, raw));
    }
    cases
}

/// Sets in memory in states of their own: the state's past outputs are read,
/// whatever the mark, and not the rest word.
fn in_memory_with_states() -> Vec<Case> {
    let set = watching(3, &[0, 2]);
    let mut cases = Vec::new();
    for word in [1, 7] {
        for (past_output, mark) in [(0, 0), (0, 1), (2, 0), (4, 0), (4, 1), (word, 1), (8, 0)] {
            let first = Kept {
                past_sensor: 0,
                past_output,
                mark,
            };
            let scans = vec![(0, 8), (0, 7), (0, 7)];
            cases.push(Case::Raw {
                set: with_word(&set, word),
                list: Some(List { first, scans }),
                names: vec![b"c0".to_vec(), b"r1".to_vec()],
            });
        }
    }
    cases
}

/// A set in memory with this rest word.
fn with_word(set: &Set, word: u16) -> Vec<u8> {
    let mut raw = laid_out(set);
    put(&mut raw, REST, &word.to_be_bytes());
    raw
}

/// Sets of one byte all over, and all zero but for the rest word.
fn whole() -> Vec<Vec<u8>> {
    let mut raws: Vec<Vec<u8>> = [1, 255].map(broken::all_over).to_vec();
    let mut zero = vec![0; SET_BYTES];
    put(&mut zero, REST, &[0, 1]);
    raws.push(zero);
    raws
}

#[cfg(test)]
mod tests {
    use super::*;
    use crate::answer::answer;
    use crate::corpus::{long, texts};
    use crate::raw::well_formed;
    use crate::text::text;
    use crate::verdict::{judge, Verdict};

    #[test]
    fn rest_words_by_chance() {
        let mut chance = Chance::new(5);
        for n in 1..=12 {
            for _ in 0..50 {
                let rest = rest(&mut chance, n);
                assert!(!rest.is_empty() && rest.is_sorted() && rest.iter().all(|&k| k < n));
            }
        }
    }

    #[test]
    fn sets_are_accepted_and_load_again() {
        let mut chance = Chance::new(6);
        for _ in 0..60 {
            let set = planted(&mut chance);
            assert_eq!(load(&write(&set)), Ok(set.clone()));
            if set.outputs.len() < 5 {
                assert_eq!(judge(&set), Verdict::Accepted);
            }
        }
        for set in [odd_names(), crowded(&mut chance)] {
            assert_eq!(load(&write(&set)), Ok(set.clone()));
            assert_eq!(judge(&set), Verdict::Accepted);
        }
    }

    #[test]
    fn what_was_on_is_off_in_the_first_scan() {
        for case in each_output().iter().take(30) {
            let Case::File { file, .. } = case else {
                panic!("a file");
            };
            let set = load(file).expect("it loads");
            let all = (1 << set.outputs.len()) - 1;
            let first = all - set.rest_word();
            let second = all - first;
            let scans = format!("\nSCANS !32 !31 {first}/0 !32 {second}/0 = 0 {second} 1\n");
            assert!(answer(case).ends_with(&scans), "{scans}");
        }
    }

    #[test]
    fn the_longest_file_and_text() {
        for turns in [false, true] {
            let set = longest_at_rest(&[7], turns);
            assert_eq!(write(&set).len(), long::LONGEST);
        }
        let texts: Vec<usize> = longest_ones()[9..]
            .iter()
            .map(|case| match case {
                Case::File { file, .. } => text(&load(file).expect("it loads")).len(),
                _ => panic!("a file"),
            })
            .collect();
        assert_eq!(texts[0], texts::LONGEST);
        assert_eq!(texts[2..], [600, 601]);
    }

    #[test]
    fn the_walk_of_the_longest_file_begins_in_the_first_scan() {
        // The first word has a bit at a past point.
        let ends = ["!31 64/64 ", "!31 64/1 ", "!31 64/0 ", "!31 0/0 "];
        for (case, end) in longest_ones().iter().zip(ends) {
            assert!(answer(case).contains(&format!("\nSCANS {end}")), "{end}");
        }
    }

    #[test]
    fn states_in_memory() {
        // The outputs that were on and are watched are off, and then on.
        let answers: Vec<String> = in_memory_with_states().iter().map(answer).collect();
        let line = |place: usize| answers[place].lines().last().unwrap_or("");
        assert_eq!(line(0), "STATE !32 7/0 2/0 = 0 2 1");
        assert_eq!(line(1), "STATE !32 7/0 2/0 = 0 2 1");
        assert_eq!(line(3), "STATE !32 3/0 6/0 = 0 6 1");
        assert_eq!(line(6), "STATE !30 !30 !30 = 0 8 0");
        assert_eq!(line(12), "STATE !32 2/0 7/0 = 0 7 1");
    }

    #[test]
    fn rest_words_in_memory() {
        let set = watching(3, &[2]);
        for word in 0..=u16::MAX {
            let good = well_formed(&with_word(&set, word));
            assert_eq!(good.map(|set| set.rest_word()), (word < 8).then_some(word));
        }
        assert!(whole().iter().all(|raw| well_formed(raw).is_none()));
    }
}
