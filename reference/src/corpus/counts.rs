//! Counts of what a corpus holds, told from this implementation's answers to
//! it, and what there must be.

use super::marks::{sorts, Pairs};
use super::misloads;
use super::misses;
use super::namings;
use super::narrow;
use super::packed;
use super::skips;
use super::starts;
use super::{fronts, long, texts};
use crate::answer::answer;
use crate::file::load;
use crate::filter::{holds, pass, start_vector, Holds};
use crate::machine::{scan, taken, ScanRefusal, State};
use crate::raw::{form, well_formed, Form};
use crate::records::{Case, List, Words};
use crate::set::Set;
use crate::verdict::scratch_bytes;
use std::collections::BTreeMap;

/// How many there are of each sort.
pub type Counts = BTreeMap<String, usize>;

/// The most scans behind a state.
pub const MOST_SCANS: usize = 681;

/// What a corpus must have, and how many at least; `skips`, `misses`, `packed`,
/// `namings`, `starts`, `narrow`, `misloads` and `fronts` have more of it.
const NEEDED: &[(&str, usize)] = &[
    ("F cases", 5000),
    ("F ACCEPT", 1000),
    ("F NOVECTOR", 150),
    ("F CLASH", 500),
    ("F NOEND", 150),
    ("F JUDGE ACCEPT", 1000),
    ("F JUDGE NOVECTOR", 150),
    ("F JUDGE CLASH", 500),
    ("F JUDGE NOEND", 150),
    ("F JUDGE LOAD", 2000),
    ("F LOAD 1", 1),
    ("F LOAD 2", 1),
    ("F LOAD 3", 1),
    ("F LOAD 4", 1),
    ("F LOAD 5", 1),
    ("F LOAD 6", 1),
    ("F LOAD 7", 1),
    ("F LOAD 8", 1),
    ("F LOAD 9", 1),
    ("F LOAD 10", 1),
    ("F LOAD 11", 1),
    ("F LOAD 12", 1),
    ("F SCRATCH 0", 1000),
    ("F SCRATCH 21", 2000),
    ("F SCRATCH 22", 300),
    ("F SCRATCH 23", 200),
    ("F SCRATCH 58", 500),
    ("F SCANS sent", 20_000),
    ("F SCANS !31", 1000),
    ("F SCANS !32", 1000),
    ("F TEXT in full", 500),
    ("F TEXT as a sum", 500),
    ("F TEXT of 600 bytes", 1),
    ("F TEXT of 601 bytes", 1),
    ("F TEXT as long as can be", 1),
    ("F TEXT as long as can be at rest word 0", 1),
    ("F files whose first 8192 bytes are refused otherwise", 10),
    ("F lists of 100 scans or more", 12),
    ("F lists of scans that are not used", 2),
    ("F longest files", 2),
    ("F longest files at rest word 0", 1),
    ("F longest files of 16 read points", 2),
    ("F longest files of 16 read points at rest word 0", 2),
    ("F walks of more than 63 passes", 30),
    ("F walks of 4095 passes", 1),
    ("F SCANS that ends at mark 0", 10),
    ("F SCANS that ends at mark 1", 1000),
    ("F first sent, other if past sensors read 0", 60),
    ("F first sent, other if past sensors read 1", 40),
    ("F first sent, other if an index counted sensors alone", 10),
    (
        "F first sent, other if only the first past sensor read as now",
        10,
    ),
    ("F first sent, other if past outputs read 1", 10),
    ("F first sent behind 31, other if that set the mark", 10),
    ("F first sent behind 31, other if that were the first", 10),
    ("F first sent behind 32, other if that set the mark", 10),
    ("F first sent behind 32, other if that were the first", 10),
    ("F first sent, no rising edge, simple", 10),
    ("F first sent, no rising edge, combined", 10),
    ("F first sent, no falling edge, simple", 10),
    ("F first sent, no falling edge, combined", 10),
    ("F first sent, no edge of read point 0", 10),
    ("F first sent, no edge of a later sensor", 10),
    ("F first sent, no edge of a sensor behind a past point", 10),
    ("F second sent, other if it read as the first", 10),
    ("F mark 0, none sent", 10),
    ("S cases", 400),
    ("S LOAD 1", 1),
    ("S STATE sent", 1000),
    ("S STATE !30", 100),
    ("S STATE !31", 100),
    ("S STATE !32", 100),
    ("S 33, f 0, at once", 50),
    ("S 33, f 1, first pass flips", 20),
    ("S 33, f 1, first pass flips nothing", 20),
    ("S 33, f 2 to 11, first pass flips", 50),
    ("S 33, f 2 to 11, first pass flips nothing", 50),
    ("S 33, f 12, first pass flips", 5),
    ("S 33, a clash", 300),
    ("S STATE that ends at mark 0", 50),
    ("S STATE that ends at mark 1", 500),
    ("S states of mark 0", 300),
    ("S states of mark 1", 300),
    ("S states whose mark is another byte", 5),
    ("S states of no words", 1),
    ("S lists as long as can be", 1),
    ("S first sent, other if past sensors read 0", 60),
    ("S first sent, other if past sensors read 1", 40),
    ("S first sent, other if an index counted sensors alone", 10),
    (
        "S first sent, other if only the first past sensor read as now",
        10,
    ),
    ("S first sent, other if past outputs read 1", 10),
    ("S first sent behind 31, other if that set the mark", 10),
    ("S first sent behind 31, other if that were the first", 10),
    ("S first sent behind 32, other if that set the mark", 10),
    ("S first sent behind 32, other if that were the first", 10),
    ("S first sent, no rising edge, simple", 10),
    ("S first sent, no rising edge, combined", 10),
    ("S first sent, no falling edge, simple", 10),
    ("S first sent, no falling edge, combined", 10),
    ("S first sent, no edge of read point 0", 10),
    ("S first sent, no edge of a later sensor", 10),
    ("S first sent, no edge of a sensor behind a past point", 10),
    ("S second sent, other if it read as the first", 10),
    ("S mark 0, none sent", 10),
    (
        "S first sent, other if past sensors read the state's word",
        50,
    ),
    ("S first sent, other if past outputs read 0", 10),
    ("S first sent behind 33, other if that set the mark", 10),
    ("S first sent behind 33, other if that were the first", 10),
    ("S mark 0, 30 by the past sensor word", 10),
    ("S mark 0, 33", 50),
    ("S mark 0, 33 that is sent if past sensors read 0", 10),
    ("S mark 0, a past sensor word that is not read", 200),
    ("S mark 1, sent other than at mark 0", 80),
    ("S 22 in place of 23", 4),
    ("B 22 in place of 23", 5),
    ("R 22 in place of 23", 4),
    ("cases with 22 in place of 23", 130),
    ("pairs of states but for the mark", 150),
    ("pairs whose answers differ", 80),
    ("N cases", 60),
    ("N LOAD 1", 1),
    ("N NAMES R", 100),
    ("N NAMES O", 100),
    ("N NAMES !40", 500),
    ("N NAMES !41", 1000),
    ("B cases", 60),
    ("B LOAD 1", 1),
    ("B WRITES 0", 200),
    ("B WRITES 24", 200),
    ("B JUDGES 0", 100),
    ("B JUDGES 21", 100),
    ("B JUDGES 22", 50),
    ("B JUDGES 23", 15),
    ("B JUDGES 58", 300),
    ("B JUDGES that were 21", 450),
    ("B STARTS 0", 100),
    ("B STARTS 21", 100),
    ("B STARTS 22", 50),
    ("B STARTS 23", 15),
    ("B STARTS 58", 300),
    ("B LINES 0", 100),
    ("B LINES put", 100),
    ("B TEXTS 0", 100),
    ("B TEXTS 24", 100),
    ("R cases", 300),
    ("R sets well formed", 30),
    ("R sets with a count beyond the places", 10),
    ("R sets whose file is refused by 4", 5),
    ("R sets whose file is refused by 5", 5),
    ("R sets whose file is refused by 6", 10),
    ("R sets whose file is refused by 7", 20),
    ("R sets whose file is refused by 8", 3),
    ("R sets whose file is refused by 10", 3),
    ("R sets whose file is refused by 11", 1),
    ("R sets whose file loads to another", 50),
    ("R SET verdict 0", 10),
    ("R SET verdict 20", 250),
    ("R SET verdict 22", 3),
    ("R SET verdict 23", 1),
    ("R SET verdict 58", 10),
    ("R NAMES R", 50),
    ("R NAMES O", 50),
    ("R NAMES !20", 1000),
    ("R NAMES !40", 10),
    ("R NAMES !41", 10),
    ("R STATE sent", 50),
    ("R STATE !30", 500),
    ("R STATE !31", 3),
    ("R STATE !32", 3),
    ("R STATE !33", 3),
    ("R 33, a clash", 10),
    ("R STATE that ends at mark 0", 100),
    ("R STATE that ends at mark 1", 100),
    ("R states of mark 0", 100),
    ("R states of mark 1", 100),
    ("R states whose mark is another byte", 5),
    (
        "R first sent, other if past sensors read the state's word",
        2,
    ),
    ("R mark 1, sent other than at mark 0", 2),
];

/// What a corpus must have and has not, or has too little of.
pub fn missing(counts: &Counts) -> Vec<String> {
    let needed = NEEDED.iter().chain(skips::NEEDED);
    let needed = needed.map(|&(key, least)| (String::from(key), least));
    let enough = |key: &str, least: usize| counts.get(key).is_some_and(|&count| count >= least);
    needed
        .chain(misses::needed())
        .chain(packed::needed())
        .chain(namings::needed())
        .chain(starts::needed())
        .chain(narrow::needed())
        .chain(misloads::needed())
        .chain(fronts::needed())
        .filter(|(key, least)| !enough(key, *least))
        .map(|(key, _)| key)
        .collect()
}

/// The counts of a corpus.
pub fn counts(cases: &[Case]) -> Counts {
    let mut counts = Counts::new();
    let mut pairs = Pairs::default();
    for case in cases {
        let kind = kind(case);
        let answer = answer(case);
        add(&mut counts, format!("{kind} cases"));
        for line in answer.lines() {
            for sort in sorts_of_line(line) {
                add(&mut counts, format!("{kind} {sort}"));
            }
        }
        for sort in sorts_of_case(case, &answer) {
            add(&mut counts, format!("{kind} {sort}"));
        }
        pairs.add(case, &answer);
    }
    let changed = |kind| counts.get(&format!("{kind} {}", misses::CHANGED));
    let changed = ["F", "B", "R"].iter().filter_map(changed).sum();
    counts.insert(format!("cases with {}", misses::CHANGED), changed);
    let (all, differing) = pairs.counts();
    counts.insert(String::from("pairs of states but for the mark"), all);
    counts.insert(String::from("pairs whose answers differ"), differing);
    counts
}

fn add(counts: &mut Counts, key: String) {
    *counts.entry(key).or_default() += 1;
}

fn kind(case: &Case) -> char {
    match case {
        Case::File { .. } => 'F',
        Case::State { .. } => 'S',
        Case::Names { .. } => 'N',
        Case::Buffers { .. } => 'B',
        Case::Raw { .. } => 'R',
    }
}

/// What a line of the answer counts as. The lines of a text, which begin with
/// a small letter, are not counted.
fn sorts_of_line(line: &str) -> Vec<String> {
    let words: Vec<&str> = line.split(' ').collect();
    match words[0] {
        "JUDGE" | "LOAD" => vec![words[..2].join(" ")],
        "WRITE" => vec![format!("WRITE {}", words[2])],
        "TEXT" => vec![String::from(sort_of_text(words[1]))],
        "ACCEPT" | "NOVECTOR" | "NOEND" | "CLASH" => vec![words[0].to_string()],
        "SET" => ["write", "verdict", "text"]
            .iter()
            .zip(&words[1..])
            .map(|(operation, item)| format!("SET {operation} {}", answered(item)))
            .collect(),
        "SCANS" | "STATE" => sorts_of_scans(&words),
        "SCRATCH" => sorts_of_items(words[0], &words[2..]),
        "FIND" | "NAMES" => {
            let mut sorts = sorts_of_items(words[0], &words[1..]);
            sorts.extend(narrow::of_items(line));
            sorts
        }
        "WRITES" | "JUDGES" | "STARTS" | "LINES" | "TEXTS" => sorts_of_items(words[0], &words[1..]),
        _ => Vec::new(),
    }
}

fn sorts_of_items(line: &str, items: &[&str]) -> Vec<String> {
    let sort = |item: &&str| format!("{line} {}", item_sort(line, item));
    items.iter().map(sort).collect()
}

/// What the items of a list of scans count as, and the mark at its end.
fn sorts_of_scans(words: &[&str]) -> Vec<String> {
    let end = words.iter().position(|&word| word == "=");
    let mut sorts = sorts_of_items(words[0], &words[1..end.unwrap_or(words.len())]);
    let mark = words[words.len() - 1];
    sorts.push(format!("{} that ends at mark {mark}", words[0]));
    sorts
}

/// What a text counts as by its length.
fn sort_of_text(length: &str) -> &'static str {
    match length.parse() {
        Ok(600) => "TEXT of 600 bytes",
        Ok(601) => "TEXT of 601 bytes",
        Ok(texts::LONGEST) => "TEXT as long as can be",
        Ok(texts::LONGEST_AT_REST_0) => "TEXT as long as can be at rest word 0",
        Ok(length) if length < 600 => "TEXT in full",
        _ => "TEXT as a sum",
    }
}

/// The number of an answer, before its values and the sum.
fn answered(item: &str) -> &str {
    let end = item.find(['/', ':']).unwrap_or(item.len());
    &item[..end]
}

/// What an item counts as.
fn item_sort<'a>(line: &str, item: &'a str) -> &'a str {
    match line {
        _ if item.starts_with('!') => item,
        "FIND" | "NAMES" => &item[..1],
        "SCANS" | "STATE" => "sent",
        "LINES" if answered(item) != "0" => "put",
        _ => answered(item),
    }
}

/// What a case counts as beside its lines.
fn sorts_of_case(case: &Case, answer: &str) -> Vec<String> {
    match case {
        Case::File { file, scans } => {
            let sorts = sorts_of_file(file, scans, answer);
            let mut sorts: Vec<String> = sorts.into_iter().map(String::from).collect();
            sorts.extend(sorts_from_start(file, scans, answer));
            sorts.extend(load(file).iter().flat_map(sorts_of_set));
            sorts.extend(misloads::of_file(file));
            sorts.extend(fronts::of_file(file));
            sorts.extend(sorts_of_rest(file, answer));
            sorts
        }
        Case::State { file, list } => {
            let mut sorts = sorts_of_list(load(file).ok(), list);
            // Verdicts on more read points take long, and no answer has one.
            let few = load(file).ok().filter(|set| set.reads.len() <= 16);
            sorts.extend(group(few));
            sorts
        }
        Case::Raw { set, list, .. } => {
            let mut sorts = sorts_of_list(well_formed(set), list);
            sorts.push(sort_of_form(&form(set)));
            sorts.extend(narrow::of_memory(set));
            sorts.extend(group(well_formed(set)));
            sorts
        }
        Case::Buffers { file, sizes } => {
            let mut sorts = sorts_of_sizes(load(file).ok(), sizes);
            sorts.extend(group(load(file).ok()));
            let of_sizes = |set: &Set| namings::of_sizes(set, sizes);
            sorts.extend(load(file).iter().flat_map(of_sizes));
            let of_sizes = |set: &Set| narrow::of_sizes(set, sizes);
            sorts.extend(load(file).iter().flat_map(of_sizes));
            sorts
        }
        Case::Names { .. } => Vec::new(),
    }
}

/// What the set of a file counts as by what it would show.
fn sorts_of_set(set: &Set) -> Vec<String> {
    let sorts: [fn(&Set) -> Vec<String>; 6] = [
        skips::sorts,
        misses::sorts,
        packed::sorts,
        namings::sorts,
        narrow::of_set,
        misloads::of_set,
    ];
    sorts.iter().flat_map(|sorts| sorts(set)).collect()
}

/// The sizes with which a verdict was refused by 21 when it needed a byte for
/// each vector, and now is not.
fn sorts_of_sizes(set: Option<Set>, sizes: &[u16]) -> Vec<String> {
    let now_enough = |n: usize| {
        let sizes = sizes.iter().map(|&size| usize::from(size));
        sizes
            .filter(|size| (scratch_bytes(n)..1 << n).contains(size))
            .count()
    };
    let count = set.map_or(0, |set| now_enough(set.outputs.len()));
    vec![String::from("JUDGES that were 21"); count]
}

/// The group of a rejected set.
fn group(set: Option<Set>) -> Option<String> {
    misses::group(&set?).map(String::from)
}

/// Whether a set made by hand is well formed, and where it fails to be.
fn sort_of_form(form: &Form) -> String {
    match form {
        Form::WellFormed(_) => String::from("sets well formed"),
        Form::NoPlaces => String::from("sets with a count beyond the places"),
        Form::Refused(number) => format!("sets whose file is refused by {number}"),
        Form::Lost => String::from("sets whose file loads to another"),
    }
}

fn sorts_of_file(file: &[u8], scans: &[Words], answer: &str) -> Vec<&'static str> {
    let mut sorts = Vec::new();
    for passes in passes(answer) {
        if passes > 63 {
            sorts.push("walks of more than 63 passes");
        }
        if passes == 4095 {
            sorts.push("walks of 4095 passes");
        }
    }
    if answer.contains("LOADED") {
        sorts.extend(sort_of_length(file));
    }
    let lines: Vec<&str> = answer.lines().collect();
    if lines[1].starts_with("LOAD ") && lines[0] != format!("JUDGE {}", lines[1]) {
        sorts.push("files whose first 8192 bytes are refused otherwise");
    }
    if scans.len() >= 100 && answer.contains("SCANS") {
        sorts.push("lists of 100 scans or more");
    }
    if !scans.is_empty() && !answer.contains("SCANS") {
        sorts.push("lists of scans that are not used");
    }
    sorts
}

fn sort_of_length(file: &[u8]) -> Option<&'static str> {
    match file.len() {
        fronts::LONGEST => Some("longest files"),
        fronts::LONGEST_AT_REST_0 => Some("longest files at rest word 0"),
        long::LONGEST => Some("longest files of 16 read points"),
        long::LONGEST_AT_REST_0 => Some("longest files of 16 read points at rest word 0"),
        _ => None,
    }
}

/// The passes that an answer reports.
fn passes(answer: &str) -> Vec<u32> {
    let line = answer.lines().find(|line| line.starts_with("SCANS"));
    let items = line.unwrap_or("").split(' ');
    items
        .filter_map(|item| item.split_once('/')?.1.parse().ok())
        .collect()
}

/// What the scans of an accepted file count as by the first that is sent.
fn sorts_from_start(file: &[u8], scans: &[Words], answer: &str) -> Vec<String> {
    match load(file) {
        Ok(set) if answer.contains("SCANS") => {
            let mut sorts_of = sorts(&State::fresh(&set), scans);
            sorts_of.extend(starts::from_start(&set, scans));
            sorts_of.extend(narrow::of_list(&State::fresh(&set), scans));
            sorts_of
        }
        _ => Vec::new(),
    }
}

/// What a file counts as by its rest word, or by the field that is refused.
fn sorts_of_rest(file: &[u8], answer: &str) -> Vec<String> {
    match load(file) {
        Ok(set) => starts::of_set(&set, answer),
        Err(refusal) => starts::of_refused(file, refusal.number, refusal.offset)
            .into_iter()
            .collect(),
    }
}

/// What a state made by hand and its scans count as.
fn sorts_of_list(set: Option<Set>, list: &Option<List>) -> Vec<String> {
    let Some(List { first, scans }) = list else {
        return vec![String::from("states of no words")];
    };
    let mut sorts_of = vec![match first.mark {
        mark @ (0 | 1) => format!("states of mark {mark}"),
        _ => String::from("states whose mark is another byte"),
    }];
    if scans.len() == MOST_SCANS {
        sorts_of.push(String::from("lists as long as can be"));
    }
    if let Some(set) = set {
        let state = State::by_hand(&set, first);
        sorts_of.extend(sorts(&state, scans));
        sorts_of.extend(starts::by_hand(&state, scans));
        sorts_of.extend(namings::of_list(&state, scans));
        sorts_of.extend(narrow::of_list(&state, scans));
        sorts_of.extend(sorts_of_33(state, scans));
    }
    sorts_of
}

/// The scans from a hand-made state that are refused by 33: at a clash, or by
/// what f is and by what the first pass does.
fn sorts_of_33(mut state: State, scans: &[Words]) -> Vec<String> {
    let mut sorts = Vec::new();
    for &(sensor, request) in scans {
        let before = state.clone();
        if scan(&mut state, sensor, request) == Err(ScanRefusal::NeverSafe) {
            sorts.extend(sort_of_33(&before, sensor, request));
        }
    }
    sorts
}

fn sort_of_33(state: &State, sensor: u32, request: u16) -> Option<String> {
    let (reads, asked) = taken(state, sensor, request).ok()?;
    let Holds::Forced(holds) = holds(&state.set, &reads) else {
        return Some(String::from("33, a clash"));
    };
    let free = holds.iter().filter(|hold| !hold.is_held()).count();
    let first = start_vector(&holds, &asked);
    let moves = pass(&state.set, &reads, &holds, &first) != first;
    let f = match free {
        0 | 1 | 12 => free.to_string(),
        _ => String::from("2 to 11"),
    };
    let pass = match (free, moves) {
        (0, _) => "at once",
        (_, true) => "first pass flips",
        (_, false) => "first pass flips nothing",
    };
    Some(format!("33, f {f}, {pass}"))
}

#[cfg(test)]
mod tests {
    use super::*;
    use crate::damage::P;

    #[test]
    fn lines_are_counted_by_their_items() {
        let sorts = |line: &str| sorts_of_line(line).join(", ");
        assert_eq!(sorts("JUDGE LOAD 1 5"), "JUDGE LOAD");
        assert_eq!(sorts("LOAD 12 39"), "LOAD 12");
        assert_eq!(
            sorts("SCANS 0/1 !31 = 1 0 1"),
            "SCANS sent, SCANS !31, SCANS that ends at mark 1"
        );
        assert_eq!(sorts("STATE = 1 0 0"), "STATE that ends at mark 0");
        assert_eq!(sorts("STARTS 0:7=2/0 21:3=0/0"), "STARTS 0, STARTS 21");
        assert_eq!(sorts("NAMES R0 O11 !41"), "NAMES R, NAMES O, NAMES !41");
        assert_eq!(sorts("JUDGES 0:7 23/1/2:3"), "JUDGES 0, JUDGES 23");
        assert_eq!(sorts("SCRATCH 16 0:7 21:3"), "SCRATCH 0, SCRATCH 21");
        assert_eq!(sorts("LINES 0:7 13:9"), "LINES 0, LINES put");
        assert_eq!(
            sorts("SET 0/39:1 22/1 20"),
            "SET write 0, SET verdict 22, SET text 20"
        );
        assert_eq!(sorts("output SCANS"), "");
    }

    #[test]
    fn what_is_missing() {
        let case = Case::File {
            file: P.to_vec(),
            scans: Vec::new(),
        };
        let counts = counts(&[case]);
        assert_eq!(counts.get("F ACCEPT"), Some(&1));
        assert!(missing(&counts).contains(&String::from("F ACCEPT")));
    }
}
