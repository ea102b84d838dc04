//! Loading, with each refusal but 54 and 59 and the orders that docs/DECISIONS.md
//! decides, and writing and finding. `rests.rs` has 54, `wide.rs` 59.

use reference::chance::Chance;
use reference::damage::P;
use reference::file::{load, put_field, write, write_into, Written};
use reference::finding::{find, FindRefusal};
use reference::making::{set, Recipe};
use reference::set::{Kind, Point};

/// A file of some fields.
fn joined(fields: &[(u8, &[u8])]) -> Vec<u8> {
    let mut file = Vec::new();
    for (tag, body) in fields {
        put_field(&mut file, *tag, body);
    }
    file
}

/// One sensor s, outputs A and B, then other bytes, at offset 19.
fn before(rest: &[u8]) -> Vec<u8> {
    let front = joined(&[(1, &[1, 2]), (2, b"\0\0s"), (3, b"A"), (3, b"B")]);
    assert_eq!(front.len(), 19);
    [front.as_slice(), rest].concat()
}

#[track_caller]
fn refused(file: &[u8], number: u8, offset: usize) {
    let refusal = load(file).expect_err("it is refused");
    assert_eq!((refusal.number, refusal.offset), (number, offset));
}

/// Refused at the field after the points.
#[track_caller]
fn refused_after_points(rest: &[u8], number: u8) {
    refused(&before(rest), number, 19);
}

#[test]
fn refusal_1() {
    refused(&[], 1, 0);
    refused(&[1], 1, 0);
    refused(&[1, 0], 1, 0);
    refused(&[1, 0, 2, 0], 1, 0);
    for end in 0..P.len() {
        let starts = [0, 5, 13, 18, 22, 29, 36];
        let offset = starts.into_iter().filter(|&s| s <= end).max();
        refused(&P[..end], 1, offset.unwrap_or(0));
    }
    refused_after_points(&[], 1);
    refused_after_points(&[5, 0, 1], 1);
    // 1 precedes 2, whatever the tag.
    refused_after_points(&[0x99, 0, 1], 1);
    refused_after_points(&[0x99, 0xFF, 0xFF, 0], 1);
    refused_after_points(&[0x99], 1);
}

#[test]
fn refusal_2() {
    refused_after_points(&[0x99, 0, 0], 2);
    refused_after_points(&[3, 0, 1, b'C'], 2);
    refused_after_points(&[1, 0, 2, 1, 2], 2);
    refused(&joined(&[(5, &[])]), 2, 0);
    refused(&joined(&[(1, &[1, 1]), (3, b"A")]), 2, 5);
    refused(&joined(&[(1, &[0, 1]), (2, b"\0\0s")]), 2, 5);
    refused(&joined(&[(1, &[0, 2]), (3, b"A"), (5, &[])]), 2, 9);
    refused(&joined(&[(1, &[0, 2]), (3, b"A"), (4, &[0x40, 0])]), 2, 9);
    // 2 precedes 4.
    refused_after_points(&[3, 0, 0], 2);
}

#[test]
fn refusal_3() {
    let mut full = before(&[]);
    for _ in 0..64 {
        put_field(&mut full, 4, &[0x40, 0]);
    }
    let with = |tail: &[u8]| [full.as_slice(), tail].concat();
    assert_eq!(load(&with(&[5, 0, 0])).map(|s| s.constraints.len()), Ok(64));
    refused(&with(&[4, 0, 2, 0x40, 0]), 3, full.len());
    // 1 precedes 3, which precedes 4 and 9.
    refused(&with(&[4, 0, 2, 0x40]), 1, full.len());
    refused(&with(&[4, 0, 1, 0x40]), 3, full.len());
    refused(&with(&[4, 0, 0]), 3, full.len());
    refused(&with(&[4, 0, 2, 0x50, 0]), 3, full.len());
    refused(&with(&[3, 0, 0]), 2, full.len());
    refused(&with(&[5, 0, 0, 4]), 12, full.len() + 3);
}

#[test]
fn refusal_4() {
    refused(&[1, 0, 0], 4, 0);
    refused(&[1, 0, 1, 0], 4, 0);
    refused(&[1, 0, 3, 0, 1, 0], 4, 0);
    for length in [0, 1, 2, 11, 258] {
        let body = vec![b'x'; length];
        refused(&joined(&[(1, &[1, 1]), (2, &body)]), 4, 5);
    }
    for length in [0, 9, 257] {
        let body = vec![b'x'; length];
        refused(&joined(&[(1, &[0, 1]), (3, &body)]), 4, 5);
    }
    for length in [0, 1, 3, 47, 49, 50, 258] {
        refused(&before(&joined(&[(4, &vec![0x40; length])])), 4, 19);
    }
    refused_after_points(&[5, 0, 1, 0], 4);
}

#[test]
fn too_many_literals_are_9_or_10() {
    let mut body: Vec<u8> = vec![0, 0, 0x40, 0, 0x41, 0, 0x42, 0];
    refused(&before(&joined(&[(4, &body)])), 9, 19);
    body.truncate(6);
    body.extend([0x41, 0]);
    refused(&before(&joined(&[(4, &body)])), 10, 19);
    refused(&before(&joined(&[(4, &[0x40, 0].repeat(24))])), 10, 19);
}

#[test]
fn refusal_5() {
    refused(&joined(&[(1, &[21, 1])]), 5, 0);
    refused(&joined(&[(1, &[255, 255])]), 5, 0);
    for r in 0..=20 {
        for n in 1..=12 {
            let file = joined(&[(1, &[r, n])]);
            if r + n <= 24 {
                refused(&file, 1, 5);
            } else {
                refused(&file, 5, 0);
            }
        }
    }
}

/// Two read points, the second as given, and two outputs.
fn second(body: &[u8]) -> Vec<u8> {
    joined(&[
        (1, &[2, 2]),
        (2, b"\0\0s"),
        (2, body),
        (3, b"A"),
        (3, b"B"),
        (5, &[]),
    ])
}

#[test]
fn refusal_6() {
    for (kind, index) in [(0, 1), (1, 2), (2, 1), (2, 2), (3, 0), (255, 0)] {
        refused(&second(&[kind, index, b't']), 6, 11);
        // 6 precedes 7 and 8.
        refused(&second(&[kind, index, 0]), 6, 11);
        refused(&second(&[kind, index, b's']), 6, 11);
    }
    for (kind, index) in [(0, 0), (1, 0), (1, 1), (2, 0)] {
        assert!(load(&second(&[kind, index, b't'])).is_ok());
    }
    // The first read point has none before it, and a past has no past.
    refused(&joined(&[(1, &[1, 1]), (2, b"\x02\0s")]), 6, 5);
    let past_of_past = joined(&[
        (1, &[3, 1]),
        (2, b"\0\0s"),
        (2, b"\x01\0t"),
        (2, b"\x02\x01u"),
    ]);
    refused(&past_of_past, 6, 17);
}

#[test]
fn kinds_are_kept() {
    let set = load(&second(b"\x01\x01t")).expect("it loads");
    assert_eq!(set.reads[1].kind, Kind::PastOutput(1));
    let set = load(&second(b"\x02\x00t")).expect("it loads");
    assert_eq!(set.reads[1].kind, Kind::PastSensor(0));
}

#[test]
fn refusal_7() {
    for byte in [0, 0x20, 0x7F, 0x80, 0xFF] {
        refused(&second(&[0, 0, byte]), 7, 11);
        refused(&second(&[0, 0, b's', byte]), 7, 11);
        refused(&joined(&[(1, &[0, 1]), (3, &[b'A', byte])]), 7, 5);
    }
    for byte in [0x21, 0x7E] {
        assert!(load(&second(&[0, 0, byte])).is_ok());
    }
}

#[test]
fn refusal_8() {
    refused(&second(b"\0\0s"), 8, 11);
    let as_read = joined(&[(1, &[1, 1]), (2, b"\0\0s"), (3, b"s")]);
    refused(&as_read, 8, 11);
    let as_output = joined(&[(1, &[0, 2]), (3, b"s"), (3, b"s")]);
    refused(&as_output, 8, 9);
    assert!(load(&second(b"\0\0ss")).is_ok());
}

/// One constraint after the points, then the end.
fn constraint(body: &[u8]) -> Vec<u8> {
    before(&joined(&[(4, body), (5, &[])]))
}

#[test]
fn refusal_9() {
    for first in [0x10, 0x20, 0x50, 0x60, 0x70, 0xD0, 0x01, 0x81, 0x42, 0xCF] {
        refused(&constraint(&[first, 0, 0x41, 0]), 9, 19);
    }
    refused(&constraint(&[0x00, 1, 0x41, 0]), 9, 19);
    // Inside one literal 9 precedes 10.
    refused(&constraint(&[0x40, 0, 0x00, 1]), 9, 19);
    // 9 precedes 11.
    refused(&constraint(&[0x01, 0]), 9, 19);
}

#[test]
fn refusal_10() {
    refused(&constraint(&[0x40, 0, 0x40, 0]), 10, 19);
    refused(&constraint(&[0x40, 0, 0xC0, 0]), 10, 19);
    refused(&constraint(&[0x40, 0, 0x00, 0]), 10, 19);
    refused(&constraint(&[0x00, 0, 0x80, 0]), 10, 19);
    // Literal by literal: the second's 10 comes before the third's 9.
    refused(&constraint(&[0x41, 0, 0x40, 0, 0x50, 0]), 10, 19);
    refused(&constraint(&[0x41, 0, 0x50, 0, 0x40, 0]), 9, 19);
}

#[test]
fn refusal_11() {
    refused(&constraint(&[0x00, 0]), 11, 19);
    refused(&constraint(&[0x80, 0]), 11, 19);
}

#[test]
fn refusal_12() {
    refused(&before(&[5, 0, 0, 0]), 12, 22);
    refused(&before(&[5, 0, 0, 5, 0, 0]), 12, 22);
    assert!(load(&before(&[5, 0, 0])).is_ok());
}

#[test]
fn longest_file() {
    let mut file = joined(&[(1, &[16, 8])]);
    for number in 0..16 {
        let mut body = vec![0, 0];
        body.extend(format!("read..{number:02}").into_bytes());
        put_field(&mut file, 2, &body);
    }
    for number in 0..8 {
        put_field(&mut file, 3, format!("output.{number}").as_bytes());
    }
    put_field(&mut file, 6, &[0, 0x81]);
    let mut body: Vec<u8> = (0..16).flat_map(|k| [k, 0]).collect();
    body.extend((0..8).flat_map(|k| [0x40 + k, k]));
    for _ in 0..64 {
        put_field(&mut file, 4, &body);
    }
    put_field(&mut file, 5, &[]);
    assert_eq!(file.len(), 3573);
    assert_eq!(load(&file).map(|set| write(&set)), Ok(file));
}

#[test]
fn writing_into_a_buffer() {
    let set = load(&P).expect("P loads");
    let mut long = [0xEE; 45];
    assert_eq!(write_into(&set, &mut long), Written::Wrote(39));
    assert_eq!(long[..39], P);
    assert_eq!(long[39..], [0xEE; 6]);
    let mut exact = [0xEE; 39];
    assert_eq!(write_into(&set, &mut exact), Written::Wrote(39));
    assert_eq!(exact, P);
    let mut short = [0xEE; 38];
    assert_eq!(write_into(&set, &mut short), Written::Short(39));
    assert_eq!(short, [0xEE; 38]);
    assert_eq!(write_into(&set, &mut []), Written::Short(39));
}

#[test]
fn round_trips() {
    let mut chance = Chance::new(7);
    for _ in 0..200 {
        let (r, n) = (chance.between(0, 12), chance.between(1, 12));
        let set = set(&mut chance, Recipe::Loose, r, n, 8);
        let file = write(&set);
        assert_eq!(load(&file), Ok(set));
    }
}

#[test]
fn finding() {
    let set = load(&P).expect("P loads");
    assert_eq!(find(&set, b"007"), Ok(Point::Read(0)));
    assert_eq!(find(&set, b"07"), Ok(Point::Output(0)));
    assert_eq!(find(&set, b"7"), Ok(Point::Output(1)));
    let number = |name: &[u8]| find(&set, name).map_err(FindRefusal::number);
    assert_eq!(number(b""), Err(40));
    assert_eq!(number(b"123456789"), Err(40));
    assert_eq!(number(&[0; 9]), Err(40));
    assert_eq!(number(b"7\0"), Err(41));
    assert_eq!(number(b"7\0\0\0\0\0\0\0"), Err(41));
    assert_eq!(number(b"0007"), Err(41));
    assert_eq!(number(b"0"), Err(41));
    assert_eq!(number(&[0]), Err(41));
    assert_eq!(number(&[0xFF; 8]), Err(41));
}
