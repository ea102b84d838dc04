//! What a rest word does in a list of scans. Scans of the list are tried again
//! from states that take the rest word otherwise: where the answer is another
//! one then, the list tells those readings from the right one.

use super::marks::{turns, Turn};
use crate::filter::is_safe;
use crate::machine::{scan, taken, State};
use crate::records::Words;
use crate::set::{bits, word, Kind, Set};

/// Sorts of lists from a start of a set with a rest word.
pub const FROM_START: &[&str] = &[
    "rest, first sent, other if a start forgot it",
    "rest, first sent, other if all outputs rested",
    "rest, first sent, other if its bytes were swapped",
    "rest, first sent, other if its low byte alone counted",
    "rest, first sent, other if its high byte alone counted",
    "rest, first sent, other if outputs were counted from the last",
    "rest, first sent, other if past outputs read by their own numbers",
    "rest, first sent, other if past sensors read it",
    "rest, first sent, other if it were requested too",
    "rest, first sent where it is not safe",
    "rest, first sent behind 31, other if that cleared it",
    "rest, first sent behind 31, other if its request were read",
    "rest, first sent behind 32, other if that cleared it",
    "rest, first sent behind several, other if these cleared it",
    "rest, second sent, other if it were read again",
    "rest, second sent, other if what rests stayed on",
    "rest, sent behind a later refusal, other if that brought it back",
];

/// Sorts of lists from a state made by hand of a set with a rest word.
pub const BY_HAND: &[&str] = &[
    "rest, mark 0 and past output word 0, other if it were read",
    "rest, mark 0, first sent, other if it were read",
    "rest, mark 1 and past output word 0, other if it were read",
    "rest, mark 1, first sent, other if it were read",
];

/// What a list of scans from a start counts as, each sort once.
pub fn from_start(set: &Set, scans: &[Words]) -> Vec<String> {
    if set.rest.is_empty() {
        return Vec::new();
    }
    let turns = turns(&State::fresh(set), scans);
    let Some(place) = turns.iter().position(|turn| turn.answer.is_ok()) else {
        return Vec::new();
    };
    let (refused, sent) = turns.split_at(place);
    let mut sorts = of_first(&sent[0]);
    sorts.extend(behind(refused, &sent[0]));
    sorts.extend(of_later(set, &sent[1..]));
    finished(&sorts)
}

/// What a list of scans from a state made by hand counts as: its past outputs
/// are read, whatever the mark, and not the rest word.
pub fn by_hand(first: &State, scans: &[Words]) -> Vec<String> {
    let rest = first.set.rest_word();
    let turns = turns(first, scans);
    let sent = turns.iter().find(|turn| turn.answer.is_ok());
    if rest == 0 || !sent.is_some_and(|turn| turn.other_if_past(rest)) {
        return Vec::new();
    }
    let mark = format!("mark {}", u8::from(first.accepted));
    let mut sorts = vec![format!("{mark}, first sent, other if it were read")];
    if first.past_output == 0 {
        sorts.push(format!(
            "{mark} and past output word 0, other if it were read"
        ));
    }
    finished(&sorts)
}

/// Sorts with the word that they begin with, each once.
fn finished(sorts: &[String]) -> Vec<String> {
    let mut sorts: Vec<String> = sorts.iter().map(|sort| format!("rest, {sort}")).collect();
    sorts.sort();
    sorts.dedup();
    sorts
}

/// The readings of the rest word that the first scan sent tells from the right
/// one, and whether it is a vector that is not safe there.
fn of_first(first: &Turn) -> Vec<String> {
    let set = &first.before.set;
    let mut other = of_word(first);
    if first.other(|state| by_own_number(&mut state.set)) {
        other.push("past outputs read by their own numbers");
    }
    if first.other_if_read(bits_at_reads(set)) {
        other.push("past sensors read it");
    }
    if other_if_requested(first, set.rest_word()) {
        other.push("it were requested too");
    }
    let mut sorts: Vec<String> = other
        .iter()
        .map(|reading| format!("first sent, other if {reading}"))
        .collect();
    if !rest_is_safe(first) {
        sorts.push(String::from("first sent where it is not safe"));
    }
    sorts
}

/// Of these the readings by which the start has another past output word.
fn of_word(first: &Turn) -> Vec<&'static str> {
    let set = &first.before.set;
    let rest = set.rest_word();
    let all = (1 << set.outputs.len()) - 1;
    let readings = [
        ("a start forgot it", 0),
        ("all outputs rested", all),
        ("its bytes were swapped", rest.swap_bytes()),
        ("its low byte alone counted", rest % 256),
        ("its high byte alone counted", rest - rest % 256),
        ("outputs were counted from the last", from_the_last(set)),
    ];
    let other = readings.iter().filter(|(_, past)| {
        // A word out of width would be refused, as every list shows.
        *past <= all && first.other_if_past(*past)
    });
    other.map(|(reading, _)| *reading).collect()
}

/// The rest word with the last output's bit first.
fn from_the_last(set: &Set) -> u16 {
    let mut bits = bits(u32::from(set.rest_word()), set.outputs.len());
    bits.reverse();
    word(&bits) as u16
}

/// Lets each past output read the output that has its own number.
fn by_own_number(set: &mut Set) {
    let n = set.outputs.len();
    for (number, point) in set.reads.iter_mut().enumerate() {
        if matches!(point.kind, Kind::PastOutput(_)) && number < n {
            point.kind = Kind::PastOutput(number);
        }
    }
}

/// The bits of the rest word that have the number of a read point.
fn bits_at_reads(set: &Set) -> u32 {
    word(&bits(u32::from(set.rest_word()), set.reads.len()))
}

/// True if the answer would be another with these outputs requested too.
fn other_if_requested(turn: &Turn, outputs: u16) -> bool {
    let (sensor, request) = turn.words;
    scan(&mut turn.before.clone(), sensor, request | outputs) != turn.answer
}

/// True if the rest word as a vector is safe in this scan.
fn rest_is_safe(turn: &Turn) -> bool {
    let set = &turn.before.set;
    let rest = bits(u32::from(set.rest_word()), set.outputs.len());
    let taken = taken(&turn.before, turn.words.0, turn.words.1);
    taken.is_ok_and(|(reads, _)| is_safe(set, &reads, &rest))
}

/// What the first scan sent counts as behind refused ones.
fn behind(refused: &[Turn], first: &Turn) -> Vec<String> {
    let cleared = first.other_if_past(0);
    let mut sorts = Vec::new();
    if cleared && refused.len() > 1 {
        let sort = "first sent behind several, other if these cleared it";
        sorts.push(String::from(sort));
    }
    for turn in refused {
        let Err(refusal) = turn.answer else {
            continue;
        };
        let behind = format!("first sent behind {}", refusal.number());
        if cleared {
            sorts.push(format!("{behind}, other if that cleared it"));
        }
        let request = turn.words.1;
        let fits = request < 1 << first.before.set.outputs.len();
        if fits && first.other_if_past(request) {
            sorts.push(format!("{behind}, other if its request were read"));
        }
    }
    sorts
}

/// What the scans behind the first that is sent count as.
fn of_later(set: &Set, later: &[Turn]) -> Vec<String> {
    let rest = set.rest_word();
    let mut sorts = Vec::new();
    let Some(second) = later.iter().position(|turn| turn.answer.is_ok()) else {
        return sorts;
    };
    if later[second].other_if_past(rest) {
        sorts.push(String::from("second sent, other if it were read again"));
    }
    if later[second].other(|state| state.past_output |= rest) {
        sorts.push(String::from("second sent, other if what rests stayed on"));
    }
    let back = |pair: &[Turn]| pair[0].answer.is_err() && pair[1].other_if_past(rest);
    let is_sent = |pair: &&[Turn]| pair[1].answer.is_ok();
    if later.windows(2).filter(is_sent).any(back) {
        let sort = "sent behind a later refusal, other if that brought it back";
        sorts.push(String::from(sort));
    }
    sorts
}

/// What a good file with a rest word counts as by its set.
pub fn of_set(set: &Set, answer: &str) -> Vec<String> {
    let rest = set.rest_word();
    let n = set.outputs.len();
    let is = [
        ("of one output", set.rest.len() == 1),
        ("of all outputs", set.rest.len() == n),
        ("of outputs above 7 alone", rest.is_multiple_of(256)),
        ("and no read points", set.reads.is_empty()),
        ("and no constraints", set.constraints.is_empty()),
        ("that is accepted", answer.contains("\nACCEPT\n")),
        ("that is rejected by 22", answer.contains("\nNOVECTOR ")),
        ("that is rejected by 23", answer.contains("\nNOEND ")),
        ("that is rejected by 58", answer.contains("\nCLASH ")),
    ];
    if rest == 0 {
        return Vec::new();
    }
    let is = is.iter().filter(|(_, is)| *is);
    let mut sorts: Vec<String> = is.map(|(what, _)| format!("rest word {what}")).collect();
    sorts.push(format!("rest word, n {n}"));
    sorts
}

/// What a refused file counts as: refused at a field of tag 0x06, or by 12
/// where one follows.
pub fn of_refused(file: &[u8], number: u8, offset: usize) -> Option<String> {
    let tag = file.get(offset)?;
    (*tag == 6).then(|| format!("0x06 refused by {number}"))
}

/// What a corpus must have of these sorts, and how many at least.
pub fn needed() -> Vec<(String, usize)> {
    let lists = FROM_START.iter().map(|sort| (format!("F {sort}"), 12));
    let by_hand = BY_HAND.iter().map(|sort| (format!("S {sort}"), 12));
    let sizes = (1..=12).map(|n| (format!("F rest word, n {n}"), 10));
    let fixed = [
        ("F rest word of one output", 50),
        ("F rest word of all outputs", 50),
        ("F rest word of outputs above 7 alone", 8),
        ("F rest word and no read points", 10),
        ("F rest word and no constraints", 5),
        ("F rest word that is accepted", 250),
        ("F rest word that is rejected by 22", 20),
        ("F rest word that is rejected by 23", 10),
        ("F rest word that is rejected by 58", 20),
        ("F 0x06 refused by 1", 10),
        ("F 0x06 refused by 2", 20),
        ("F 0x06 refused by 4", 20),
        ("F 0x06 refused by 12", 3),
        ("F 0x06 refused by 54", 50),
        ("R sets whose file is refused by 54", 15),
        ("R rest, mark 0, first sent, other if it were read", 2),
        ("R rest, mark 1, first sent, other if it were read", 2),
    ];
    let fixed = fixed.map(|(sort, least)| (String::from(sort), least));
    lists.chain(by_hand).chain(sizes).chain(fixed).collect()
}

#[cfg(test)]
mod tests {
    use super::*;
    use crate::corpus::counters::{counting, plain};
    use crate::records::Kept;
    use crate::set::{Constraint, Point};

    /// Read point 0 is the past of B; "b and A"; B rests on.
    fn brake() -> Set {
        let literals = vec![plain(Point::Read(0), false), plain(Point::Output(0), false)];
        let mut set = counting(&[Kind::PastOutput(1)], 2, vec![Constraint { literals }]);
        set.rest = vec![1];
        set
    }

    #[test]
    fn lists_from_a_start() {
        // Sent 0, and then 1.
        let sorts = [
            "rest, first sent, other if a start forgot it",
            "rest, first sent, other if its high byte alone counted",
            "rest, first sent, other if outputs were counted from the last",
            "rest, first sent, other if past outputs read by their own numbers",
            "rest, first sent, other if it were requested too",
            "rest, second sent, other if it were read again",
            "rest, second sent, other if what rests stayed on",
        ];
        let mut found = from_start(&brake(), &[(0, 1), (0, 1)]);
        let mut wanted = sorts.map(String::from).to_vec();
        found.sort();
        wanted.sort();
        assert_eq!(found, wanted);
        // A set without a rest word is of no sort, and so is a list of none sent.
        let mut without = brake();
        without.rest.clear();
        assert!(from_start(&without, &[(0, 1)]).is_empty());
        assert!(from_start(&brake(), &[(0, 4)]).is_empty());
    }

    #[test]
    fn lists_with_refused_scans() {
        let sorts = from_start(&brake(), &[(0, 4), (2, 1), (0, 1), (0, 4), (0, 1)]);
        for sort in [
            "rest, first sent behind 31, other if that cleared it",
            "rest, first sent behind 31, other if its request were read",
            "rest, first sent behind 32, other if that cleared it",
            "rest, first sent behind several, other if these cleared it",
            "rest, sent behind a later refusal, other if that brought it back",
        ] {
            assert!(sorts.contains(&String::from(sort)), "{sort}");
        }
    }

    #[test]
    fn states_made_by_hand() {
        let of = |past_output, mark| {
            let kept = Kept {
                past_sensor: 0,
                past_output,
                mark,
            };
            by_hand(&State::by_hand(&brake(), &kept), &[(0, 1)])
        };
        assert_eq!(of(0, 0), BY_HAND[..2]);
        assert_eq!(of(0, 1), BY_HAND[2..]);
        assert_eq!(of(1, 0), BY_HAND[1..2]);
        assert!(of(2, 0).is_empty() && of(3, 1).is_empty());
    }
}
