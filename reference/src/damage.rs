//! Damaged set files, made by hand and by chance from good ones.

use crate::chance::Chance;
use crate::file::put_field;

/// The file of set P of document 01.
pub const P: [u8; 39] = [
    0x01, 0x00, 0x02, 0x01, 0x02, //
    0x02, 0x00, 0x05, 0x00, 0x00, 0x30, 0x30, 0x37, //
    0x03, 0x00, 0x02, 0x30, 0x37, //
    0x03, 0x00, 0x01, 0x37, //
    0x04, 0x00, 0x04, 0x00, 0x00, 0x41, 0x00, //
    0x04, 0x00, 0x04, 0x40, 0x00, 0xC1, 0x01, //
    0x05, 0x00, 0x00,
];

/// Files to be refused whatever the seed; a few may load.
pub fn fixed() -> Vec<Vec<u8>> {
    let mut files = vec![Vec::new()];
    files.extend(counts_only());
    files.extend(truncated(&P));
    files.extend(each_byte_changed(&P));
    files.extend(bad_points());
    files.extend(bad_literals());
    files.extend(constraint_lengths());
    files.extend(too_many());
    files.extend(bad_ends());
    files
}

/// Files damaged by chance, so many from each good file.
pub fn by_chance(chance: &mut Chance, good: &[u8], count: usize) -> Vec<Vec<u8>> {
    (0..count).map(|_| damage(chance, good)).collect()
}

/// Every r from 0 to 255 with n 0 and 13, and all pairs near the bounds.
fn counts_only() -> Vec<Vec<u8>> {
    let mut files = Vec::new();
    for r in 0..=255 {
        for n in [0, 13] {
            files.push(joined(&[(1, &[r, n]), (5, &[])]));
        }
    }
    for r in 0..=17 {
        for n in 1..=12 {
            files.push(joined(&[(1, &[r, n])]));
        }
    }
    for n in [14, 128, 240, 255] {
        files.push(joined(&[(1, &[0, n]), (5, &[])]));
    }
    files
}

/// Every shorter front of a file.
pub fn truncated(good: &[u8]) -> Vec<Vec<u8>> {
    (0..good.len()).map(|end| good[..end].to_vec()).collect()
}

/// A file with each of its bytes changed in a few ways.
pub fn each_byte_changed(good: &[u8]) -> Vec<Vec<u8>> {
    let mut files = Vec::new();
    for place in 0..good.len() {
        for change in [1, 2, 4, 16, 128, 255] {
            let mut file = good.to_vec();
            file[place] ^= change;
            files.push(file);
        }
    }
    files
}

/// A file of some fields.
pub fn joined(fields: &[(u8, &[u8])]) -> Vec<u8> {
    let mut file = Vec::new();
    for (tag, body) in fields {
        put_field(&mut file, *tag, body);
    }
    file
}

/// Two read points and two outputs, the second read point or output as given.
fn with_points(second: &[u8], output: &[u8]) -> Vec<u8> {
    joined(&[
        (1, &[2, 2]),
        (2, b"\0\0a"),
        (2, second),
        (3, b"c"),
        (3, output),
        (5, &[]),
    ])
}

/// Bad kinds, indexes, names and lengths of names.
fn bad_points() -> Vec<Vec<u8>> {
    let mut files = Vec::new();
    for kind in [0, 1, 2, 3, 4, 128, 255] {
        for index in [0, 1, 2, 3, 15, 16, 255] {
            files.push(with_points(&[kind, index, b'b'], b"d"));
        }
    }
    for byte in [0, 1, 0x20, 0x21, 0x7E, 0x7F, 0x80, 0xFF] {
        files.push(with_points(&[0, 0, byte], b"d"));
        files.push(with_points(&[0, 0, b'b', byte], b"d"));
        files.push(with_points(b"\0\0b", &[byte]));
        files.push(with_points(b"\0\0b", &[b'd', byte, b'd']));
        // The bad index comes first, and the bad byte before a name used.
        files.push(with_points(&[3, 0, byte], b"d"));
        files.push(with_points(&[0, 0, b'a', byte], b"a"));
    }
    for name in [b"a", b"b", b"c"] {
        files.push(with_points(b"\0\0b", name));
    }
    files.push(with_points(b"\0\0a", b"d"));
    files.push(with_points(b"\x01\x02a", b"d"));
    for length in [0, 1, 2, 3, 8, 9, 10, 11, 255, 256, 300] {
        let long = vec![b'x'; length];
        files.push(with_points(b"\0\0b", &long));
        let body: Vec<u8> = [0, 0].into_iter().chain(long).take(length).collect();
        files.push(with_points(&body, b"d"));
    }
    // The past of a read point that is itself a past, or comes later.
    for kind in [1, 2] {
        files.push(joined(&[
            (1, &[3, 1]),
            (2, b"\0\0a"),
            (2, &[kind, 0, b'b']),
            (2, b"\x02\x01c"),
            (3, b"d"),
            (5, &[]),
        ]));
    }
    files
}

/// Two sensors, three outputs and one constraint.
fn with_constraint(body: &[u8]) -> Vec<u8> {
    let mut file = three_outputs();
    put_field(&mut file, 4, body);
    put_field(&mut file, 5, &[]);
    file
}

/// Two sensors and three outputs, up to the first constraint.
fn three_outputs() -> Vec<u8> {
    joined(&[
        (1, &[2, 3]),
        (2, b"\0\0s"),
        (2, b"\0\0t"),
        (3, b"A"),
        (3, b"B"),
        (3, b"C"),
    ])
}

/// Every first byte of a lone literal, and orders of two and three.
fn bad_literals() -> Vec<Vec<u8>> {
    let mut files = Vec::new();
    for first in 0..=255 {
        files.push(with_constraint(&[first, 0]));
        files.push(with_constraint(&[first, 1, 0x42, 0]));
    }
    let orders: [&[u8]; 12] = [
        &[0x40, 0, 0x40, 0],
        &[0x40, 0, 0xC0, 0],
        &[0x41, 0, 0x40, 0],
        &[0x40, 0, 0x00, 0],
        &[0x01, 0, 0x00, 0, 0x40, 0],
        &[0x00, 0, 0x80, 0, 0x40, 0],
        &[0x41, 0, 0x40, 0, 0x50, 0],
        &[0x41, 0, 0x50, 0, 0x40, 0],
        &[0x40, 0, 0x00, 1],
        &[0x00, 0, 0x01, 0],
        &[0x01, 0, 0x00, 0],
        &[0x00, 0, 0x02, 0],
    ];
    files.extend(orders.map(with_constraint));
    files
}

/// Every length of a constraint's body from 0 to 60, and a long one.
fn constraint_lengths() -> Vec<Vec<u8>> {
    let mut files = Vec::new();
    for length in (0..=60).chain([256, 258, 300]) {
        files.push(with_constraint(&vec![0; length]));
    }
    files
}

/// Constraints beyond the 64th: good, of bad length, bad inside, cut off.
fn too_many() -> Vec<Vec<u8>> {
    let mut full = three_outputs();
    for _ in 0..64 {
        put_field(&mut full, 4, &[0x00, 0x00, 0x40, 0x00]);
    }
    let tails: [&[u8]; 9] = [
        &[4, 0, 2, 0x40, 0, 5, 0, 0],
        &[4, 0, 0, 5, 0, 0],
        &[4, 0, 1, 0x40, 5, 0, 0],
        &[4, 0, 2, 0x50, 0, 5, 0, 0],
        &[4, 0, 2, 0x40],
        &[4, 0],
        &[3, 0, 1, b'D'],
        &[5, 0, 1, 0],
        &[5, 0, 0, 4],
    ];
    tails
        .iter()
        .map(|tail| [full.as_slice(), tail].concat())
        .collect()
}

/// Damage at and after the end field, and tags that are not due.
fn bad_ends() -> Vec<Vec<u8>> {
    let mut files = Vec::new();
    let before_end = &P[..36];
    let tails: [&[u8]; 12] = [
        &[],
        &[5],
        &[5, 0],
        &[5, 0, 1],
        &[5, 0, 1, 0],
        &[5, 1, 0],
        &[5, 0, 0, 0],
        &[5, 0, 0, 5, 0, 0],
        &[0x99, 0, 9],
        &[0x99, 0, 0],
        &[0, 0, 0, 5, 0, 0],
        &[6, 0, 1, 0, 5, 0, 0],
    ];
    for tail in tails {
        files.push([before_end, tail].concat());
    }
    files.push([P.as_slice(), &[0; 5000]].concat());
    for tag in 0..=7 {
        files.push(joined(&[(tag, &[0, 1])]));
        files.push(joined(&[(1, &[0, 1]), (tag, b"ab")]));
        files.push(joined(&[(1, &[1, 1]), (tag, b"\0\0a"), (3, b"b")]));
        files.push(joined(&[(1, &[0, 1]), (3, b"b"), (tag, b"\x40\0")]));
    }
    files
}

/// Splits a good file into its fields.
pub fn fields(good: &[u8]) -> Vec<Vec<u8>> {
    let mut rest = good;
    let mut fields = Vec::new();
    while let [_, high, low, ..] = rest {
        let length = 3 + 256 * usize::from(*high) + usize::from(*low);
        let (field, after) = rest.split_at(length.min(rest.len()));
        fields.push(field.to_vec());
        rest = after;
    }
    fields
}

/// One damage by chance.
fn damage(chance: &mut Chance, good: &[u8]) -> Vec<u8> {
    match chance.below(10) {
        0 => good[..chance.below(good.len())].to_vec(),
        1 => cut_at_field(chance, good),
        2 | 3 => one_byte(chance, good),
        4 => one_length(chance, good),
        5 => swapped(chance, good),
        6 => doubled(chance, good),
        7 => dropped(chance, good),
        8 => trailing(chance, good),
        _ => inserted(chance, good),
    }
}

/// Cut off 0 to 3 bytes after the beginning of some field.
fn cut_at_field(chance: &mut Chance, good: &[u8]) -> Vec<u8> {
    let fields = fields(good);
    let kept = chance.below(fields.len());
    let mut file = fields[..kept].concat();
    let more = chance.below(4).min(fields[kept].len() - 1);
    file.extend(&fields[kept][..more]);
    file
}

fn one_byte(chance: &mut Chance, good: &[u8]) -> Vec<u8> {
    let mut file = good.to_vec();
    let place = chance.below(file.len());
    file[place] = chance.byte();
    file
}

/// The length of some field one or two more or less than it was.
fn one_length(chance: &mut Chance, good: &[u8]) -> Vec<u8> {
    let mut fields = fields(good);
    let place = chance.below(fields.len());
    let change = [1, 2, 254, 255][chance.below(4)];
    fields[place][2] = fields[place][2].wrapping_add(change);
    fields.concat()
}

/// Two fields, or only their tags, in each other's place.
fn swapped(chance: &mut Chance, good: &[u8]) -> Vec<u8> {
    let mut fields = fields(good);
    let (one, other) = (chance.below(fields.len()), chance.below(fields.len()));
    if chance.one_in(2) {
        fields.swap(one, other);
    } else {
        let tag = fields[one][0];
        fields[one][0] = fields[other][0];
        fields[other][0] = tag;
    }
    fields.concat()
}

/// Some field twice; with points this doubles a name or the count is off.
fn doubled(chance: &mut Chance, good: &[u8]) -> Vec<u8> {
    let mut fields = fields(good);
    let from = chance.below(fields.len());
    let to = chance.below(fields.len());
    if chance.one_in(2) {
        fields[to] = fields[from].clone();
    } else {
        fields.insert(to, fields[from].clone());
    }
    fields.concat()
}

fn dropped(chance: &mut Chance, good: &[u8]) -> Vec<u8> {
    let mut fields = fields(good);
    fields.remove(chance.below(fields.len()));
    fields.concat()
}

fn trailing(chance: &mut Chance, good: &[u8]) -> Vec<u8> {
    let mut file = good.to_vec();
    for _ in 0..chance.between(1, 6) {
        file.push(chance.byte());
    }
    file
}

/// One byte more somewhere inside.
fn inserted(chance: &mut Chance, good: &[u8]) -> Vec<u8> {
    let mut file = good.to_vec();
    file.insert(chance.below(good.len()), chance.byte());
    file
}
