//! What a state's mark does in a list of scans. The first scan that is sent is
//! tried again from states that read past points otherwise: where its answer is
//! another one then, the list tells those readings from the right one.

use crate::filter::read_literals_true;
use crate::machine::{scan, taken, ScanRefusal, Sent, State};
use crate::records::{case_bytes, Case, Words};
use crate::set::{Constraint, Kind, Point, Set};
use std::collections::BTreeMap;

/// One scan of a list: the state before it, its words and its answer.
pub struct Turn {
    pub before: State,
    pub words: Words,
    pub answer: Result<Sent, ScanRefusal>,
}

impl Turn {
    /// True if the answer would be another from a state that is changed so.
    pub fn other(&self, change: impl FnOnce(&mut State)) -> bool {
        let mut state = self.before.clone();
        change(&mut state);
        scan(&mut state, self.words.0, self.words.1) != self.answer
    }

    /// True if the answer would be another if past sensors read this word.
    pub fn other_if_read(&self, past_sensor: u32) -> bool {
        self.other(|state| read(state, past_sensor))
    }

    /// True if the answer would be another if past outputs read this word.
    pub fn other_if_past(&self, past_output: u16) -> bool {
        self.other(|state| state.past_output = past_output)
    }
}

/// Lets past sensors read this word.
fn read(state: &mut State, past_sensor: u32) {
    state.past_sensor = past_sensor;
    state.accepted = true;
}

/// The scans of a list from a state.
pub fn turns(first: &State, scans: &[Words]) -> Vec<Turn> {
    let mut state = first.clone();
    let turn = |&words: &Words| {
        let before = state.clone();
        let answer = scan(&mut state, words.0, words.1);
        Turn {
            before,
            words,
            answer,
        }
    };
    scans.iter().map(turn).collect()
}

/// What a list of scans from a state counts as, each sort once.
pub fn sorts(first: &State, scans: &[Words]) -> Vec<String> {
    let turns = turns(first, scans);
    let end = turns.iter().position(|turn| turn.answer.is_ok());
    let (refused, sent) = turns.split_at(end.unwrap_or(turns.len()));
    let mut sorts = Vec::new();
    let other = |turn: &Turn| turn.other(|state| state.accepted = false);
    if !first.accepted {
        sorts.extend(refused.iter().flat_map(sorts_of_refused));
        sorts.extend(sorts_of_sent(refused, sent));
    } else if sent.first().is_some_and(other) {
        sorts.push(String::from("mark 1, sent other than at mark 0"));
    }
    sorts.sort();
    sorts.dedup();
    sorts
}

/// What a refused scan before the first that is sent counts as.
fn sorts_of_refused(turn: &Turn) -> Vec<String> {
    let no_past = |state: &mut State| state.past_sensor = 0;
    let sorts = match turn.answer {
        Err(ScanRefusal::Past) if turn.other(no_past) => vec!["30 by the past sensor word"],
        Err(ScanRefusal::NeverSafe) if turn.other_if_read(0) => {
            vec!["33", "33 that is sent if past sensors read 0"]
        }
        Err(ScanRefusal::NeverSafe) => vec!["33"],
        _ => Vec::new(),
    };
    sorts.iter().map(|sort| format!("mark 0, {sort}")).collect()
}

/// What the scans that are sent count as, and those refused before them.
fn sorts_of_sent(refused: &[Turn], sent: &[Turn]) -> Vec<String> {
    let [first, later @ ..] = sent else {
        return vec![String::from("mark 0, none sent")];
    };
    let mut sorts = sorts_of_first(first);
    sorts.extend(sorts_of_edges(first));
    if first.before.past_sensor != 0 {
        sorts.push(String::from("mark 0, a past sensor word that is not read"));
    }
    for turn in refused {
        sorts.extend(sorts_behind(turn, first));
    }
    let second = later.iter().find(|turn| turn.answer.is_ok());
    if second.is_some_and(|turn| turn.other(|state| state.accepted = false)) {
        sorts.push(String::from("second sent, other if it read as the first"));
    }
    sorts
}

/// The readings of past points that the first scan sent tells from the right
/// one.
fn sorts_of_first(first: &Turn) -> Vec<String> {
    let set = &first.before.set;
    let state_word = first.before.past_sensor;
    let readings = [
        ("past sensors read 0", first.other_if_read(0)),
        ("past sensors read 1", first.other_if_read(all(set))),
        (
            "past sensors read the state's word",
            state_word != 0 && first.other_if_read(state_word),
        ),
        (
            "an index counted sensors alone",
            first.other_if_read(by_count(set, first.words.0)),
        ),
        (
            "only the first past sensor read as now",
            first.other_if_read(of_first_past(set, first.words.0)),
        ),
        ("past outputs read 0", first.other_if_past(0)),
        (
            "past outputs read 1",
            first.other_if_past((1 << set.outputs.len()) - 1),
        ),
    ];
    let other = readings.iter().filter(|(_, other)| *other);
    other
        .map(|(reading, _)| format!("first sent, other if {reading}"))
        .collect()
}

/// The word of all read points.
fn all(set: &Set) -> u32 {
    (1 << set.reads.len()) - 1
}

/// The sensor word with the bit of the k-th sensor at each index k.
fn by_count(set: &Set, sensor: u32) -> u32 {
    let is_sensor = |k: &usize| set.reads[*k].kind == Kind::Sensor;
    let sensors = (0..set.reads.len()).filter(is_sensor);
    sensors
        .enumerate()
        .map(|(count, number)| ((sensor >> number) % 2) << count)
        .sum()
}

/// The sensor word at the index of the first past sensor, 0 elsewhere.
fn of_first_past(set: &Set, sensor: u32) -> u32 {
    let indices = set.reads.iter().filter_map(|point| match point.kind {
        Kind::PastSensor(index) => Some(index),
        _ => None,
    });
    indices.take(1).map(|index| sensor & (1 << index)).sum()
}

/// What the first scan sent counts as behind a refused one.
fn sorts_behind(refused: &Turn, first: &Turn) -> Vec<String> {
    let Err(refusal) = refused.answer else {
        return Vec::new();
    };
    let behind = format!("first sent behind {}", refusal.number());
    let mut sorts = vec![behind.clone()];
    if first.other(|state| state.accepted = true) {
        sorts.push(format!("{behind}, other if that set the mark"));
    }
    let kept = refused.words.0;
    if kept <= all(&first.before.set) && first.other_if_read(kept) {
        sorts.push(format!("{behind}, other if that were the first"));
    }
    sorts
}

/// The edges that are none in the first scan sent, and would be some if past
/// sensors read 0 (rising) or 1 (falling), with another answer.
fn sorts_of_edges(first: &Turn) -> Vec<String> {
    let set = &first.before.set;
    let mut sorts = Vec::new();
    for (word, rising) in [(0, true), (all(set), false)] {
        let mut state = first.before.clone();
        read(&mut state, word);
        let Ok((reads, _)) = taken(&state, first.words.0, first.words.1) else {
            continue;
        };
        if !first.other_if_read(word) {
            continue;
        }
        for constraint in &set.constraints {
            if read_literals_true(constraint, &reads) {
                sorts.extend(sorts_of_edge(set, constraint, rising));
            }
        }
    }
    sorts
}

/// What a constraint counts as that names a sensor and its past, one plain and
/// one negated; a rising edge has the past negated.
fn sorts_of_edge(set: &Set, constraint: &Constraint, rising: bool) -> Vec<String> {
    let names = |number: usize, negated: bool| {
        let mut literals = constraint.literals.iter();
        literals.any(|l| l.point == Point::Read(number) && l.negated == negated)
    };
    let direction = if rising { "rising" } else { "falling" };
    let simple = if constraint.is_simple() {
        "simple"
    } else {
        "combined"
    };
    let mut sorts = Vec::new();
    for (number, point) in set.reads.iter().enumerate() {
        let Kind::PastSensor(index) = point.kind else {
            continue;
        };
        if names(number, rising) && names(index, !rising) {
            sorts.push(format!("{direction} edge, {simple}"));
            sorts.push(String::from(of_index(set, index)));
        }
    }
    let none = |sort| format!("first sent, no {sort}");
    sorts.into_iter().map(none).collect()
}

/// Which sensor an edge is of.
fn of_index(set: &Set, index: usize) -> &'static str {
    let is_past = |k: usize| set.reads[k].kind != Kind::Sensor;
    match index {
        0 => "edge of read point 0",
        _ if (0..index).any(is_past) => "edge of a sensor behind a past point",
        _ => "edge of a later sensor",
    }
}

/// Cases that are the same but for the mark of their state: the answers to each,
/// at mark 0 and at mark 1.
#[derive(Default)]
pub struct Pairs {
    seen: BTreeMap<Vec<u8>, [Option<String>; 2]>,
}

impl Pairs {
    /// Adds a case, if it has a state made by hand, and its answer.
    pub fn add(&mut self, case: &Case, answer: &str) {
        let mut unmarked = case.clone();
        let Some(mark) = mark_of(&mut unmarked) else {
            return;
        };
        let accepted = usize::from(*mark != 0);
        *mark = 0;
        if let Some(bytes) = case_bytes(&unmarked) {
            self.seen.entry(bytes).or_default()[accepted] = Some(answer.to_string());
        }
    }

    /// How many pairs there are, and how many whose answers differ in more than
    /// the mark.
    pub fn counts(&self) -> (usize, usize) {
        let pairs = self.seen.values().filter_map(|answers| match answers {
            [Some(no), Some(yes)] => Some(before_mark(no) != before_mark(yes)),
            _ => None,
        });
        let pairs: Vec<bool> = pairs.collect();
        let differing = pairs.iter().filter(|&&differ| differ).count();
        (pairs.len(), differing)
    }
}

/// The mark of a case's state, if it has one.
pub fn mark_of(case: &mut Case) -> Option<&mut u8> {
    match case {
        Case::State { list, .. } | Case::Raw { list, .. } => {
            list.as_mut().map(|list| &mut list.first.mark)
        }
        _ => None,
    }
}

/// An answer without the mark at its end.
pub fn before_mark(answer: &str) -> &str {
    answer.rsplit_once(' ').map_or(answer, |(before, _)| before)
}

#[cfg(test)]
mod tests {
    use super::*;
    use crate::corpus::counters::{counting, plain};
    use crate::records::{Kept, List};

    /// Read point 1 is the past of sensor 0; "now, not past, A".
    fn edge() -> Set {
        let literals = vec![
            plain(Point::Read(0), false),
            plain(Point::Read(1), true),
            plain(Point::Output(0), false),
        ];
        let kinds = [Kind::Sensor, Kind::PastSensor(0)];
        counting(&kinds, 1, vec![Constraint { literals }])
    }

    fn of(past_sensor: u32, mark: u8, scans: &[Words]) -> Vec<String> {
        let kept = Kept {
            past_sensor,
            past_output: 0,
            mark,
        };
        sorts(&State::by_hand(&edge(), &kept), scans)
    }

    #[test]
    fn the_first_scan_that_is_sent() {
        let at_0 = [
            "first sent, no edge of read point 0",
            "first sent, no rising edge, simple",
            "first sent, other if past sensors read 0",
        ];
        assert_eq!(of(0, 0, &[(1, 1)]), at_0);
        assert_eq!(of(0, 1, &[(1, 1)]), ["mark 1, sent other than at mark 0"]);
        assert!(of(1, 1, &[(1, 1)]).is_empty());
        assert!(of(0, 0, &[(0, 1)]).is_empty());
        let wide = of(4, 0, &[(1, 1)]);
        let none = "mark 0, none sent";
        assert_eq!(wide, ["mark 0, 30 by the past sensor word", none]);
        assert!(of(2, 0, &[(1, 1)]).contains(&at_0[2].replace("read 0", "read the state's word")));
    }

    #[test]
    fn behind_refused_scans() {
        let sorts = of(0, 0, &[(0, 2), (2, 1), (1, 1), (0, 1), (1, 1)]);
        for sort in [
            "first sent behind 31, other if that set the mark",
            "first sent behind 32, other if that set the mark",
            "first sent behind 32, other if that were the first",
        ] {
            assert!(sorts.contains(&String::from(sort)), "{sort}");
        }
        let second = of(0, 0, &[(0, 1), (1, 1)]);
        assert_eq!(second, ["second sent, other if it read as the first"]);
    }

    #[test]
    fn pairs_but_for_the_mark() {
        let mut pairs = Pairs::default();
        for (past_sensor, mark) in [(0, 0), (0, 1), (1, 0), (1, 255), (2, 0)] {
            let first = Kept {
                past_sensor,
                past_output: 0,
                mark,
            };
            let scans = vec![(1, 1)];
            let case = Case::State {
                file: crate::file::write(&edge()),
                list: Some(List { first, scans }),
            };
            pairs.add(&case, &crate::answer::answer(&case));
        }
        assert_eq!(pairs.counts(), (2, 1));
    }
}
