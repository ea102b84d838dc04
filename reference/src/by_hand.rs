//! Document 01's "Tried by hand" as files and scans, and the like for later
//! requests, for the front of a corpus or of one of its parts.

use crate::damage::P;
use crate::records::{Case, Kept, List, Words};

/// A file of sensors, pasts of these sensors and outputs, with constraints as
/// they stand in a file.
fn file(sensors: u8, pasts: &[u8], outputs: u8, constraints: &[&[u8]]) -> Vec<u8> {
    let mut bytes = vec![1, 0, 2, sensors + pasts.len() as u8, outputs];
    for number in 0..sensors {
        bytes.extend([2, 0, 4, 0, 0, b's', b'0' + number]);
    }
    for (number, &index) in pasts.iter().enumerate() {
        bytes.extend([2, 0, 4, 2, index, b'p', b'0' + number as u8]);
    }
    for number in 0..outputs {
        bytes.extend([3, 0, 1, b'A' + number]);
    }
    for literals in constraints {
        bytes.extend([4, 0, literals.len() as u8]);
        bytes.extend(*literals);
    }
    bytes.extend([5, 0, 0]);
    bytes
}

/// P with the two ranks of its second constraint exchanged.
fn p_exchanged() -> Vec<u8> {
    let mut bytes = P.to_vec();
    bytes[33] = 1;
    bytes[35] = 0;
    bytes
}

/// Read point 1 is the past of sensor 0; "now, not past, A".
fn edge() -> Vec<u8> {
    file(1, &[0], 1, &[&[0, 0, 0x81, 0, 0x40, 0]])
}

/// Document 02's "No rising edge on power-up": the edge from a start with
/// refused scans before, the edge of a second sensor, and one scan from states
/// made by hand: past sensor word and mark.
pub fn power_up() -> Vec<Case> {
    let second = file(2, &[1], 1, &[&[1, 0, 0x82, 0, 0x40, 0]]);
    let mut cases = vec![
        Case::File {
            file: edge(),
            scans: vec![(1, 2), (2, 1), (1, 1), (0, 1), (1, 1), (1, 1)],
        },
        Case::File {
            file: second,
            scans: vec![(2, 1), (1, 1), (2, 1), (3, 1)],
        },
    ];
    for (past_sensor, mark) in [(0, 1), (0, 0), (1, 0), (1, 1), (2, 0), (4, 0)] {
        let first = Kept {
            past_sensor,
            past_output: 0,
            mark,
        };
        let scans = vec![(1, 1)];
        cases.push(Case::State {
            file: edge(),
            list: Some(List { first, scans }),
        });
    }
    cases
}

/// Sensor s, outputs A and B; "A, not B" and "A, B", where B yields; "s, not A,
/// B"; "s, not A, not B".
#[rustfmt::skip]
pub const K5: [u8; 54] = [
    0x01, 0, 2, 1, 2,
    0x02, 0, 3, 0, 0, b's',
    0x03, 0, 1, b'A',
    0x03, 0, 1, b'B',
    0x04, 0, 4, 0x40, 1, 0xC1, 0,
    0x04, 0, 4, 0x40, 1, 0x41, 0,
    0x04, 0, 6, 0, 0, 0xC0, 0, 0x41, 0,
    0x04, 0, 6, 0, 0, 0xC0, 0, 0xC1, 0,
    0x05, 0, 0,
];

/// "A, not B" and "A, B", where B yields: the walk from request 1 is endless.
const PAIR: [&[u8]; 2] = [&[0x40, 1, 0xC1, 0], &[0x40, 1, 0x41, 0]];

/// "A" and "not A": no vector is safe.
const CLASH: [&[u8]; 2] = [&[0x40, 0], &[0xC0, 0]];

/// Document 02's "Missing vectors come before endless walks": that set; the pair
/// at all words and the clash under s; the pair under "not s" and the clash under
/// a second sensor; the pair alone, under s; the clash under "not s" and the pair
/// under s.
pub fn missing_first() -> Vec<Case> {
    let (s, not_s, t): (&[u8], &[u8], &[u8]) = (&[0, 0], &[0x80, 0], &[1, 0]);
    let of = |sensors: u8, under: &[(&[u8], [&[u8]; 2])]| {
        let two = |(reads, outputs): &(&[u8], [&[u8]; 2])| outputs.map(|o| [*reads, o].concat());
        let constraints: Vec<Vec<u8>> = under.iter().flat_map(two).collect();
        let constraints: Vec<&[u8]> = constraints.iter().map(Vec::as_slice).collect();
        file(sensors, &[], 2, &constraints)
    };
    let files = [
        K5.to_vec(),
        of(1, &[(&[], PAIR), (s, CLASH)]),
        of(2, &[(not_s, PAIR), (t, CLASH)]),
        of(1, &[(s, PAIR)]),
        of(1, &[(not_s, CLASH), (s, PAIR)]),
    ];
    files.map(rejected).to_vec()
}

/// "A and B" in each of the four ways: no vector is safe, and nothing is forced.
const SHUT: [&[u8]; 4] = [
    &[0x40, 0, 0x41, 0],
    &[0x40, 0, 0xC1, 0],
    &[0xC0, 0, 0x41, 0],
    &[0xC0, 0, 0xC1, 0],
];

/// Document 02's "Simple constraints that contradict": the case of document 01;
/// the same under the second of two sensors; "B", "not B"; A and B both, either
/// first; "A", "not B", "C", "not C"; the four of A and B under "not s" and the
/// clash under s; the pair under "not s" and a clash of B under s; the four
/// alone; "A and B", "A and not B", "not A". Then scans of the first from states
/// made by hand.
pub fn clashes() -> Vec<Case> {
    let (s, not_s, t): (&[u8], &[u8], &[u8]) = (&[0, 0], &[0x80, 0], &[1, 0]);
    let (not_b, b): (&[u8], &[u8]) = (&[0xC1, 0], &[0x41, 0]);
    let under = |reads: &[u8], outputs: &[&[u8]]| -> Vec<Vec<u8>> {
        outputs.iter().map(|o| [reads, o].concat()).collect()
    };
    let of = |sensors: u8, outputs: u8, constraints: &[Vec<Vec<u8>>]| {
        let constraints: Vec<&[u8]> = constraints.iter().flatten().map(Vec::as_slice).collect();
        file(sensors, &[], outputs, &constraints)
    };
    let [a, not_a] = CLASH;
    let first = of(1, 1, &[under(s, &[not_a, a])]);
    let files = [
        first.clone(),
        of(2, 1, &[under(t, &[not_a, a])]),
        of(0, 2, &[under(&[], &[b, not_b])]),
        of(0, 2, &[under(&[], &[a, not_a, b, not_b])]),
        of(0, 2, &[under(&[], &[b, not_b, a, not_a])]),
        of(0, 3, &[under(&[], &[a, not_b, &[0x42, 0], &[0xC2, 0]])]),
        of(1, 2, &[under(not_s, &SHUT), under(s, &CLASH)]),
        of(1, 2, &[under(not_s, &PAIR), under(s, &[b, not_b])]),
        of(0, 2, &[under(&[], &SHUT)]),
        of(0, 2, &[under(&[], &[SHUT[0], SHUT[1], not_a])]),
    ];
    let mut cases: Vec<Case> = files.map(rejected).to_vec();
    for (past_output, mark) in [(0, 0), (0, 1), (1, 0), (1, 1)] {
        let first_state = Kept {
            past_sensor: 1,
            past_output,
            mark,
        };
        let scans = vec![(1, 0), (1, 1), (0, 1), (1, 1), (0, 0)];
        cases.push(Case::State {
            file: first.clone(),
            list: Some(List {
                first: first_state,
                scans,
            }),
        });
    }
    cases
}

/// A file without scans.
fn rejected(file: Vec<u8>) -> Case {
    let scans = Vec::new();
    Case::File { file, scans }
}

/// Read point b is the past of B; outputs A and B; B rests on; "b and A".
#[rustfmt::skip]
pub const BRAKE: [u8; 34] = [
    0x01, 0, 2, 1, 2,
    0x02, 0, 3, 1, 1, b'b',
    0x03, 0, 1, b'A',
    0x03, 0, 1, b'B',
    0x06, 0, 2, 0, 2,
    0x04, 0, 4, 0x00, 0, 0x40, 0,
    0x05, 0, 0,
];

/// That file with another rest word, or none where it is 0.
pub fn brake(rest: u16) -> Vec<u8> {
    let field: Vec<u8> = match rest {
        0 => Vec::new(),
        _ => [&[6, 0, 2], rest.to_be_bytes().as_slice()].concat(),
    };
    [&BRAKE[..19], &field, &BRAKE[24..]].concat()
}

/// No read points, outputs A and B, both at rest on, and "A and B".
pub fn both_rest() -> Vec<u8> {
    let mut bytes = file(0, &[], 2, &[&[0x40, 0, 0x41, 0]]);
    bytes.splice(13..13, [6, 0, 2, 0, 3]);
    bytes
}

/// Document 02's "Drives that rest on": that file with each rest word and
/// requests for A, refused scans first or between; a rest word that is not
/// safe; and states made by hand, where no rest word is read.
pub fn resting() -> Vec<Case> {
    let lists: [&[Words]; 4] = [
        &[(0, 1), (0, 1)],
        &[(0, 4), (0, 1), (0, 1)],
        &[
            (0, 4),
            (1, 1),
            (2, 3),
            (0, 1),
            (0, 4),
            (0, 3),
            (1, 1),
            (0, 1),
        ],
        &[(0, 4), (1, 1)],
    ];
    let mut cases = Vec::new();
    for rest in 0..5 {
        for scans in lists {
            let (file, scans) = (brake(rest), scans.to_vec());
            cases.push(Case::File { file, scans });
        }
    }
    cases.push(Case::File {
        file: both_rest(),
        scans: vec![(0, 3), (0, 1), (0, 3)],
    });
    cases.extend(resting_states());
    cases
}

/// Two requests for A from states of that file, with its rest word and without
/// one: past output word and mark; and a state of no words.
fn resting_states() -> Vec<Case> {
    let mut cases = Vec::new();
    for (past_output, mark) in [(0, 0), (0, 1), (1, 0), (2, 0), (2, 1), (4, 0)] {
        let first = Kept {
            past_sensor: 0,
            past_output,
            mark,
        };
        for rest in [0, 2] {
            let scans = vec![(0, 1), (0, 1)];
            cases.push(Case::State {
                file: brake(rest),
                list: Some(List { first, scans }),
            });
        }
    }
    cases.push(Case::State {
        file: brake(2),
        list: None,
    });
    cases
}

/// Files for document 02's "Twenty sensors" with the answers to them, in the
/// words of another author.
const TWENTY: &str = include_str!("../twenty.txt");

/// A file of these and what loading it is to answer: nothing if it loads, else
/// refusal and offset.
pub type Told = (Vec<u8>, Option<(u8, usize)>);

/// Those files with the answers.
pub fn twenty_told() -> Vec<Told> {
    let lines = TWENTY.lines().filter(|line| !line.starts_with('#'));
    lines.filter_map(told).collect()
}

/// The answer, what the file is, and its bytes in hexadecimal.
fn told(line: &str) -> Option<Told> {
    let [answer, _, file]: [&str; 3] = line.split('|').collect::<Vec<_>>().try_into().ok()?;
    let file = file.trim().as_bytes().chunks(2);
    let byte = |digits: &[u8]| u8::from_str_radix(std::str::from_utf8(digits).ok()?, 16).ok();
    let file: Option<Vec<u8>> = file.map(byte).collect();
    let refusal = match answer.trim().split_once(' ') {
        Some((number, offset)) => Some((number.parse().ok()?, offset.parse().ok()?)),
        None => None,
    };
    Some((file?, refusal))
}

/// Those files, with scans up to a word of bit 20 for those that load.
pub fn twenty() -> Vec<Case> {
    let case = |(file, _): Told| Case::File {
        file,
        scans: [
            0,
            1,
            1 << 16,
            (1 << 16) + 1,
            (1 << 17) - 1,
            1 << 17,
            1 << 19,
            1 << 20,
        ]
        .map(|sensor| (sensor, 1))
        .to_vec(),
    };
    twenty_told().into_iter().map(case).collect()
}

/// The cases in the order of the paper; for the last, files that are refused.
pub fn cases() -> Vec<Case> {
    let case = |file: Vec<u8>, scans: &[Words]| Case::File {
        file,
        scans: scans.to_vec(),
    };
    let mut more = P.to_vec();
    more.push(0);
    vec![
        case(P.to_vec(), &[(0, 1), (0, 3), (1, 3), (1, 2)]),
        case(p_exchanged(), &[(0, 1), (1, 1)]),
        case(file(1, &[], 1, &[&[0, 0, 0xC0, 0], &[0, 0, 0x40, 0]]), &[]),
        case(
            file(0, &[], 2, &[&[0x40, 1, 0xC1, 0], &[0x40, 1, 0x41, 0]]),
            &[],
        ),
        case(file(0, &[], 2, &[&[0x40, 0, 0x41, 0]]), &[(0, 3)]),
        case(
            file(0, &[], 3, &[&[0x40, 0, 0x41, 1], &[0x40, 1, 0x42, 0]]),
            &[(0, 7)],
        ),
        case(edge(), &[(1, 1), (1, 1)]),
        case(Vec::new(), &[]),
        case(P[..38].to_vec(), &[]),
        case(more, &[]),
        case(file(16, &[], 8, &[]), &[(0xFFFF, 0xFF)]),
        case(file(16, &[], 9, &[]), &[]),
        case(file(1, &[], 0, &[]), &[]),
        case(file(1, &[], 13, &[]), &[]),
    ]
}
