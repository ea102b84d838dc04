//! Sets for their text: about as long as is still printed in full, the longest
//! there is, and names that look like words of the text.

use super::counters::{counting, plain};
use crate::file::write;
use crate::records::Case;
use crate::set::{Constraint, Kind, Literal, Point, ReadPoint, Set};

/// The bytes of the longest text, and of the longest without a rest word.
pub const LONGEST: usize = 33_828;
pub const LONGEST_AT_REST_0: usize = 33_660;

/// Files whose texts have 599, 600, 601 and the most bytes without a rest word,
/// and odd names.
pub fn cases() -> Vec<Case> {
    let near = [(50, 2), (37, 10), (42, 7)];
    let mut sets = near.map(|(plain, ranked)| lone(plain, ranked)).to_vec();
    sets.push(wordiest());
    sets.push(odd_names());
    sets.iter()
        .map(|set| Case::File {
            file: write(set),
            scans: vec![(0, 0), (0, 1), (1, 1), (0, 5)],
        })
        .collect()
}

/// One output, with so many constraints that show no rank and that show one:
/// 13 bytes, 11 for each of the first and 18 for each of the others.
pub fn lone(plain_ones: usize, ranked: usize) -> Set {
    let constraint = |rank| Constraint {
        literals: vec![Literal {
            rank,
            ..plain(Point::Output(0), false)
        }],
    };
    let mut constraints = vec![constraint(0); plain_ones];
    constraints.extend(vec![constraint(5); ranked]);
    let mut set = counting(&[], 1, constraints);
    set.outputs[0] = b"A".to_vec();
    set
}

/// As many outputs as there can be and as many read points as they leave, all
/// of them pasts with long names; 64 constraints that name every point negated,
/// with ranks of three digits.
pub fn wordiest() -> Set {
    let reads = (0..12).map(|k| plain(Point::Read(k), true));
    let outputs = (0..12).map(|k| Literal {
        rank: 100 + k as u8,
        ..plain(Point::Output(k), true)
    });
    let constraint = Constraint {
        literals: reads.chain(outputs).collect(),
    };
    Set {
        reads: (0..12)
            .map(|k| ReadPoint {
                kind: Kind::PastOutput(11 - k),
                name: format!("past..{k:02}").into_bytes(),
            })
            .collect(),
        outputs: (0..12)
            .map(|k| format!("output{k:02}").into_bytes())
            .collect(),
        rest: Vec::new(),
        constraints: vec![constraint; 64],
    }
}

/// Nearly the longest text there is; output 0 is held both ways at word 0, so
/// that it is soon judged.
pub fn wordy() -> Set {
    let mut set = wordiest();
    for (place, negated) in [(0, false), (63, true)] {
        let reads = (0..12).map(|k| plain(Point::Read(k), true));
        let output = plain(Point::Output(0), negated);
        set.constraints[place].literals = reads.chain([output]).collect();
    }
    set
}

/// Points named by the words and signs of the text, and by digits.
fn odd_names() -> Set {
    let names = [
        "on", "off", "and", "rank", "of", "end", "never", "#", "7", "07", "007", "~",
    ];
    let (reads, outputs) = names.split_at(7);
    let kinds = [
        Kind::Sensor,
        Kind::PastSensor(0),
        Kind::PastOutput(1),
        Kind::Sensor,
        Kind::PastSensor(3),
        Kind::PastOutput(4),
        Kind::Sensor,
    ];
    let mut constraints = Vec::new();
    for k in 0..outputs.len() {
        let other = (k + 1) % outputs.len();
        let mut literals = vec![
            plain(Point::Read(k), k % 2 == 0),
            plain(Point::Read(k + 2), k % 3 == 0),
            Literal {
                rank: [0, 10, 100, 7, 255][k],
                ..plain(Point::Output(k), false)
            },
            plain(Point::Output(other), true),
        ];
        literals.truncate(if k == 3 { 3 } else { 4 });
        literals.sort_by_key(|literal| literal.point);
        constraints.push(Constraint { literals });
    }
    let mut set = counting(&kinds, outputs.len(), constraints);
    for (point, name) in set.reads.iter_mut().zip(reads) {
        point.name = name.as_bytes().to_vec();
    }
    set.outputs = outputs.iter().map(|n| n.as_bytes().to_vec()).collect();
    set
}

#[cfg(test)]
mod tests {
    use super::*;
    use crate::file::load;
    use crate::text::text;

    #[test]
    fn lengths_of_texts() {
        let lengths = [(50, 2, 599), (37, 10, 600), (42, 7, 601)];
        for (plain, ranked, length) in lengths {
            assert_eq!(text(&lone(plain, ranked)).len(), length);
        }
        assert_eq!(text(&wordiest()).len(), LONGEST_AT_REST_0);
    }

    #[test]
    fn all_of_them_load() {
        for case in cases() {
            let Case::File { file, .. } = case else {
                panic!("a file");
            };
            assert!(load(&file).is_ok());
        }
    }
}
