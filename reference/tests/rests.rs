//! Document 02's "Drives that rest on": the rest word in files, starts, scans,
//! texts and memory, and the part of the corpus for it.

use reference::answer::answer;
use reference::by_hand::{both_rest, brake, BRAKE};
use reference::chance::Chance;
use reference::corpus::resting;
use reference::corpus::starts::{by_hand, from_start, BY_HAND, FROM_START};
use reference::file::{load, put_field, write};
use reference::machine::{scan, start, ScanRefusal, State};
use reference::making::{set, Recipe};
use reference::program::line;
use reference::raw::{laid_out, put, well_formed, REST};
use reference::records::{Case, Kept, List, Words};
use reference::set::{ones, Set};
use reference::text::text;
use reference::verdict::judge;
use std::collections::BTreeMap;

fn loaded(file: &[u8]) -> Set {
    load(file).expect("it loads")
}

/// What is sent to a list of scans, or the refusals.
fn scanned(mut state: State, scans: &[Words]) -> Vec<Result<u32, u8>> {
    let answer = |&(sensor, request): &Words| {
        let before = state.clone();
        let answer = scan(&mut state, sensor, request);
        assert!(answer.is_ok() || state == before);
        answer.map(|sent| sent.vector).map_err(ScanRefusal::number)
    };
    scans.iter().map(answer).collect()
}

/// The same from a start of a file.
fn from(file: &[u8], scans: &[Words]) -> Vec<Result<u32, u8>> {
    scanned(start(&loaded(file)).expect("it is accepted"), scans)
}

fn refusal(file: &[u8]) -> Option<(u8, usize)> {
    load(file).err().map(|r| (r.number, r.offset))
}

/// Outputs A and B without read points, then other bytes, at offset 13.
fn behind_outputs(rest: &[u8]) -> Vec<u8> {
    [b"\x01\0\x02\0\x02\x03\0\x01A\x03\0\x01B", rest].concat()
}

#[test]
fn the_brake() {
    assert_eq!(brake(2), BRAKE);
    let twice = [(0, 1), (0, 1)];
    // With B at rest on A is held in the first scan.
    assert_eq!(from(&brake(2), &twice), [Ok(0), Ok(1)]);
    assert_eq!(from(&brake(3), &twice), [Ok(0), Ok(1)]);
    assert_eq!(from(&brake(0), &twice), [Ok(1), Ok(1)]);
    assert_eq!(from(&brake(1), &twice), [Ok(1), Ok(1)]);
}

#[test]
fn refused_scans_change_nothing() {
    let scans = [(0, 4), (0, 1), (0, 1)];
    assert_eq!(from(&brake(2), &scans), [Err(32), Ok(0), Ok(1)]);
    let scans = [(1, 1), (2, 0), (0, 0x8001), (0, 1), (0, 4), (0, 1)];
    let answers = [Err(31), Err(31), Err(32), Ok(0), Err(32), Ok(1)];
    assert_eq!(from(&brake(2), &scans), answers);
    // B is sent on, so that A is held in the next scan; it is not rest that is
    // read then.
    let scans = [(0, 3), (0, 3), (0, 1), (0, 1)];
    assert_eq!(from(&brake(2), &scans), [Ok(2), Ok(2), Ok(0), Ok(1)]);
    assert_eq!(from(&brake(1), &scans), [Ok(3), Ok(2), Ok(0), Ok(1)]);
}

#[test]
fn a_start_takes_the_rest_word() {
    for rest in 0..4 {
        let state = start(&loaded(&brake(rest))).expect("it is accepted");
        assert_eq!((state.past_output, state.past_sensor), (rest, 0));
        assert!(!state.accepted);
    }
}

#[test]
fn the_rest_word_need_not_be_safe() {
    assert_eq!(line(&both_rest()), "ACCEPT 0 2 1\n");
    let set = loaded(&both_rest());
    assert_eq!(set.rest, [0, 1]);
    assert_eq!(start(&set).map(|state| state.past_output), Ok(3));
    assert_eq!(from(&both_rest(), &[(0, 3), (0, 1)]), [Ok(0), Ok(1)]);
}

#[test]
fn states_made_by_hand_keep_their_word() {
    for mark in [0, 1] {
        for (past_output, first) in [(0, Ok(1)), (1, Ok(1)), (2, Ok(0)), (3, Ok(0)), (4, Err(30))] {
            let kept = Kept {
                past_sensor: 0,
                past_output,
                mark,
            };
            for rest in 0..4 {
                let state = State::by_hand(&loaded(&brake(rest)), &kept);
                assert_eq!(scanned(state, &[(0, 1)]), [first]);
            }
        }
    }
}

#[test]
fn the_example() {
    let file = include_bytes!("../../examples/brake.set");
    assert_eq!(line(file), "ACCEPT 2 2 4\n");
    let set = loaded(file);
    assert_eq!(set.rest_word(), 2);
    assert!(text(&set).contains("\npast wasbrake of brake\nrest brake\nnever stop on"));
    // The belt waits for a scan in which the brake is off.
    let scans = [(0, 1), (0, 1), (1, 1), (0, 1), (0, 1)];
    let answers = [Ok(0), Ok(1), Ok(2), Ok(0), Ok(1)];
    assert_eq!(from(file, &scans), answers);
}

#[test]
fn the_field_is_refused() {
    let end = [5, 0, 0];
    let with = |field: &[u8]| refusal(&behind_outputs(&[field, &end].concat()));
    assert_eq!(with(&[6, 0, 2, 0, 0]), Some((54, 13)));
    for word in 0..=u16::MAX {
        let [high, low] = word.to_be_bytes();
        let good = (1..4).contains(&word);
        let refused = (!good).then_some((54, 13));
        assert_eq!(with(&[6, 0, 2, high, low]), refused);
    }
    // 4 precedes 54, and 1 precedes 4.
    assert_eq!(with(&[6, 0, 0]), Some((4, 13)));
    assert_eq!(with(&[6, 0, 1, 0]), Some((4, 13)));
    assert_eq!(with(&[6, 0, 3, 0, 0, 0]), Some((4, 13)));
    assert_eq!(with(&[6, 0xFF, 0xFF, 0, 1]), Some((1, 13)));
    for cut in [
        [6].as_slice(),
        &[6, 0],
        &[6, 0, 2],
        &[6, 0, 2, 0],
        &[6, 0, 3, 0, 0],
    ] {
        assert_eq!(refusal(&behind_outputs(cut)), Some((1, 13)));
    }
    assert_eq!(refusal(&behind_outputs(&[6, 0, 2, 0, 1])), Some((1, 18)));
}

#[test]
fn the_field_is_due_once_behind_the_outputs() {
    let field = [6, 0, 2, 0, 1];
    let end = [5, 0, 0];
    let constraint = [4, 0, 2, 0x40, 0];
    let of = |parts: &[&[u8]]| refusal(&behind_outputs(&parts.concat()));
    assert_eq!(of(&[&field, &constraint, &end]), None);
    assert_eq!(of(&[&field, &end]), None);
    assert_eq!(of(&[&field, &field, &end]), Some((2, 18)));
    assert_eq!(of(&[&constraint, &field, &end]), Some((2, 18)));
    assert_eq!(of(&[&field, &constraint, &field, &end]), Some((2, 23)));
    assert_eq!(of(&[&end, &field]), Some((12, 16)));
    // 2 precedes 4 and 54.
    assert_eq!(of(&[&constraint, &[6, 0, 0], &end]), Some((2, 18)));
    assert_eq!(of(&[&constraint, &[6, 0, 2, 0, 0], &end]), Some((2, 18)));
    assert_eq!(of(&[&field, &[6, 0, 1, 9], &end]), Some((2, 18)));
    assert_eq!(of(&[&field, &[6, 0, 9], &end]), Some((1, 18)));
    // Before the counts, a read point and an output.
    assert_eq!(refusal(&[field.as_slice(), &BRAKE].concat()), Some((2, 0)));
    for at in [5, 11, 15] {
        let file = [&BRAKE[..at], &field, &BRAKE[at..]].concat();
        assert_eq!(refusal(&file), Some((2, at)));
    }
}

#[test]
fn behind_64_constraints() {
    let mut file = behind_outputs(&[6, 0, 2, 0, 3]);
    for _ in 0..64 {
        put_field(&mut file, 4, &[0x40, 0]);
    }
    let at = file.len();
    let with = |tail: &[u8]| [&file, tail].concat();
    let set = loaded(&with(&[5, 0, 0]));
    assert_eq!((set.rest.len(), set.constraints.len()), (2, 64));
    assert_eq!(refusal(&with(&[6, 0, 2, 0, 1, 5, 0, 0])), Some((2, at)));
    assert_eq!(refusal(&with(&[4, 0, 2, 0x40, 0, 5, 0, 0])), Some((3, at)));
}

#[test]
fn round_trips() {
    let mut chance = Chance::new(9);
    for n in 1..=12 {
        let mut set = set(&mut chance, Recipe::Loose, 5, n, 4);
        let without = write(&set);
        assert!(!without.windows(4).any(|four| four == [6, 0, 2, 0]));
        let plain_text = text(&set);
        for word in (0..n).map(|k| 1 << k).chain([(1 << n) - 1]) {
            set.rest = ones(word);
            assert_eq!(set.rest_word(), word);
            let file = write(&set);
            assert_eq!(file.len(), without.len() + 5);
            assert_eq!(load(&file).as_ref(), Ok(&set));
            assert_eq!(well_formed(&laid_out(&set)).as_ref(), Some(&set));
            let rests = text(&set).lines().count() - plain_text.lines().count();
            assert_eq!(rests, set.rest.len());
        }
    }
}

#[test]
fn high_byte_first() {
    let mut set = set(&mut Chance::new(4), Recipe::Planted, 0, 12, 1);
    set.rest = vec![1, 8];
    let file = write(&set);
    let field = [6, 0, 2, 1, 2];
    assert!(file.windows(5).any(|five| five == field));
    let raw = laid_out(&set);
    assert_eq!(raw[REST..REST + 2], [1, 2]);
    assert_eq!(State::fresh(&set).past_output, 0x0102);
}

#[test]
fn the_verdict_does_not_read_the_rest_word() {
    let mut chance = Chance::new(12);
    for recipe in [Recipe::Loose, Recipe::Bent, Recipe::Clash, Recipe::Chain] {
        for _ in 0..20 {
            let mut set = set(&mut chance, recipe, 3, 3, 6);
            let verdict = judge(&set);
            for word in 1..8 {
                set.rest = ones(word);
                assert_eq!(judge(&set), verdict);
            }
        }
    }
}

#[test]
fn sets_in_memory() {
    let raw = laid_out(&loaded(&BRAKE));
    let of = |word: u16| {
        let mut set = raw.clone();
        put(&mut set, REST, &word.to_be_bytes());
        let first = Kept::default();
        let scans = vec![(0, 1)];
        answer(&Case::Raw {
            set,
            list: Some(List { first, scans }),
            names: vec![b"A".to_vec()],
        })
    };
    // The state's own past output word, 0, is read.
    for word in 0..4 {
        let lines = of(word);
        assert!(lines.ends_with("\nNAMES O0\nSTATE 1/0 = 0 1 1\n"));
        let length = if word == 0 { 29 } else { 34 };
        assert!(lines.starts_with(&format!("SET 0/{length}:")));
    }
    for word in [4, 5, 0x0100, 0x1000, 0x8000, 0xFFFF] {
        let lines = "SET 20 20 20\nNAMES !20\nSTATE !30 = 0 0 0\n";
        assert_eq!(of(word), lines);
    }
}

/// The sorts of a case of the part by its rest word.
fn sorts(case: &Case) -> Vec<String> {
    match case {
        Case::File { file, scans } => match load(file) {
            Ok(set) => from_start(&set, scans),
            Err(_) => Vec::new(),
        },
        Case::State { file, list } => {
            let List { first, scans } = match list {
                Some(list) => list,
                None => return Vec::new(),
            };
            by_hand(&State::by_hand(&loaded(file), first), scans)
        }
        _ => Vec::new(),
    }
}

#[test]
fn the_part_has_enough_of_each_sort() {
    let mut counts: BTreeMap<String, usize> = BTreeMap::new();
    for sort in resting(1).iter().flat_map(sorts) {
        *counts.entry(sort).or_default() += 1;
    }
    for sort in FROM_START.iter().chain(BY_HAND) {
        let count = counts.get(*sort).copied().unwrap_or(0);
        assert!(count >= 12, "{sort}: {count}");
    }
}
