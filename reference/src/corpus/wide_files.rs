//! Files with constraints of three-byte literals: each way in which such a field
//! is refused, both tags in every order, the field at other places and in sets
//! of few read points, and damaged files.

use super::wide::{all_sizes, crowded};
use crate::chance::Chance;
use crate::damage::{by_chance, fields, joined};
use crate::file::{load, put_field, write};
use crate::records::Case;
use crate::verdict::{judge, Verdict};

/// The tags of constraints.
const NARROW: u8 = 4;
pub const WIDE: u8 = 7;
const REST: u8 = 6;
const END: u8 = 5;

const TO_DAMAGE: usize = 36;
const DAMAGED_EACH: usize = 8;

/// All files, without scans.
pub fn cases(chance: &mut Chance) -> Vec<Case> {
    let mut files = fixed();
    files.extend(damaged(chance));
    files
        .into_iter()
        .map(|file| Case::File {
            file,
            scans: Vec::new(),
        })
        .collect()
}

/// Files that are the same whatever the seed.
pub fn fixed() -> Vec<Vec<u8>> {
    [
        counts(),
        points(),
        first_bytes(),
        numbers(),
        ranks(),
        orders(),
        high_then_outputs(),
        without_high_numbers(),
        lengths(),
        numbers_of_literals(),
        tags_in_turn(),
        too_many(),
        other_places(),
        few_reads(),
        each_byte(),
    ]
    .concat()
}

/// r sensors and n outputs, up to the first constraint.
fn front(r: u8, n: u8) -> Vec<u8> {
    let mut file = joined(&[(1, &[r, n])]);
    for number in 0..r {
        put_field(&mut file, 2, &[0, 0, b'a' + number]);
    }
    for number in 0..n {
        put_field(&mut file, 3, &[b'A' + number]);
    }
    file
}

/// The same with some constraints, and the end.
fn with(r: u8, n: u8, constraints: &[(u8, &[u8])]) -> Vec<u8> {
    [front(r, n), joined(constraints), joined(&[(END, &[])])].concat()
}

/// One constraint of three-byte literals, and two that force output 0 both ways:
/// if it loads, its verdict takes no time.
fn wide(r: u8, n: u8, body: &[u8]) -> Vec<u8> {
    never([front(r, n), joined(&[(WIDE, body)])].concat())
}

/// "A" and "not A".
const NEVER: [&[u8]; 2] = [&[0x40, 0], &[0xC0, 0]];

/// A file of these bytes, those two constraints and the end.
fn never(front: Vec<u8>) -> Vec<u8> {
    let [one, other] = NEVER.map(|body| (NARROW, body));
    [front, joined(&[one, other, (END, &[])])].concat()
}

/// r from 17 on with each n, without and with points. Up to 20 and 24 together
/// they load.
fn counts() -> Vec<Vec<u8>> {
    let mut files = Vec::new();
    for r in 16..=22u8 {
        for n in 0..=13 {
            files.push(joined(&[(1, &[r, n])]));
            if (r + n).abs_diff(24) < 2 {
                files.push(never(front(r, n)));
            }
        }
    }
    for (r, n) in [
        (17, 1),
        (20, 1),
        (21, 1),
        (21, 3),
        (24, 0),
        (32, 4),
        (36, 4),
    ] {
        files.push(with(r, n, &[]));
    }
    files
}

/// Read points above 15 of each kind, with good and bad indices and names.
fn points() -> Vec<Vec<u8>> {
    let mut files = Vec::new();
    let last_two = |r: u8, one: &[u8], other: &[u8]| {
        let mut file = front(r - 2, 0);
        file[3..5].copy_from_slice(&[r, 2]);
        put_field(&mut file, 2, one);
        put_field(&mut file, 2, other);
        never([file, joined(&[(3, b"A"), (3, b"B")])].concat())
    };
    for r in 17..=20 {
        for index in [0, 1, 2, 14, 15, 16, 17, 18, 19, 20, 32, 255] {
            for kind in [0, 1, 2, 3] {
                files.push(last_two(r, b"\0\0y", &[kind, index, b'z']));
            }
        }
        // The past of a past, a name that is there, a byte that is none.
        files.push(last_two(r, &[2, r - 3, b'y'], &[2, r - 2, b'z']));
        files.push(last_two(r, &[1, 1, b'y'], &[2, r - 2, b'z']));
        for name in [b'a', b'a' + r - 3, b'y', b'A', 0x20, 0x7F] {
            files.push(last_two(r, b"\0\0y", &[0, 0, name]));
        }
    }
    files
}

/// Every first byte of a literal, at a read point and at an output.
fn first_bytes() -> Vec<Vec<u8>> {
    let mut files = Vec::new();
    for first in 0..=255 {
        files.push(wide(17, 2, &[first, 16, 0, 0x40, 1, 9]));
        if first.count_ones() < 3 || first % 16 == 0 {
            files.push(wide(17, 2, &[0, 16, 0, first, 1, 0]));
            files.push(wide(18, 2, &[first, 0, 0, 0x80, 17, 0, 0xC0, 0, 1]));
        }
    }
    files
}

/// Every number of a read point, and many of an output.
fn numbers() -> Vec<Vec<u8>> {
    let mut files = Vec::new();
    for number in 0..=255 {
        files.push(wide(20, 4, &[0x80, number, 0, 0x40, 0, 0]));
        let near = [0x0F, 0x10, 0x1F, 0x20].iter();
        if number < 40 || near.into_iter().any(|low| number % 64 == *low) {
            files.push(wide(17, 3, &[0, number, 0, 0xC0, 2, 7]));
            files.push(wide(17, 3, &[0, 16, 0, 0x40, number, 7]));
            files.push(wide(
                20,
                4,
                &[0, 1, 0, 0, number, 0, 0x40, 0, 9, 0xC0, 3, 0],
            ));
        }
        if (15..=20).contains(&number) {
            files.push(wide(18, 3, &[0, number, 0, 0x40, 2, 7]));
            files.push(wide(19, 3, &[0x80, number, 0, 0x40, 2, 7]));
        }
    }
    files
}

/// Ranks at read points, and any at outputs.
fn ranks() -> Vec<Vec<u8>> {
    let mut files = Vec::new();
    for rank in [1, 15, 16, 17, 128, 255] {
        files.push(wide(17, 2, &[0, 16, rank, 0x40, 0, 0]));
        files.push(wide(17, 2, &[0, 3, rank, 0, 16, 0, 0x40, 0, 0]));
        files.push(wide(17, 2, &[0, 3, 0, 0x80, 16, rank, 0x40, 0, 0]));
        files.push(wide(17, 2, &[0, 16, 0, 0x40, 0, rank]));
        files.push(wide(17, 2, &[0, 16, 0, 0x40, 0, 3, 0xC0, 1, rank]));
        files.push(wide(17, 2, &[0, 16, 0, 0xC0, 0, rank, 0x40, 1, rank]));
    }
    files
}

/// Literals that do not rise, or of which a later one is bad in itself.
fn orders() -> Vec<Vec<u8>> {
    let bodies: [&[u8]; 28] = [
        &[0, 16, 0, 0, 16, 0, 0x40, 0, 0],
        &[0, 16, 0, 0x80, 16, 0, 0x40, 0, 0],
        &[0, 17, 0, 0, 16, 0, 0x40, 0, 0],
        &[0, 16, 0, 0, 15, 0, 0x40, 0, 0],
        &[0, 16, 0, 0, 0, 0, 0x40, 0, 0],
        &[0x80, 1, 0, 0, 0, 0, 0, 17, 0, 0x40, 0, 0],
        &[0x40, 0, 0, 0, 16, 0],
        &[0, 16, 0, 0x40, 0, 0, 0, 17, 0],
        &[0, 16, 0, 0x40, 1, 0, 0x40, 0, 0],
        &[0, 16, 0, 0x40, 0, 0, 0xC0, 0, 0],
        &[0, 16, 0, 0x40, 0, 0, 0x40, 0, 5],
        &[0x40, 1, 0, 0x40, 0, 0, 0, 16, 0],
        // 10 before a later 9, and 9 before a later 10.
        &[0, 17, 0, 0, 16, 0, 0x50, 0, 0],
        &[0, 17, 0, 0x10, 16, 0, 0, 16, 0],
        &[0, 17, 0, 0, 16, 1, 0x40, 0, 0],
        &[0, 17, 0, 0, 99, 0, 0, 16, 0],
        &[0x50, 0, 0, 0, 17, 0, 0, 16, 0],
        // Both in one literal, and neither an output.
        &[0, 17, 0, 0x20, 16, 0, 0x40, 0, 0],
        &[0, 17, 0, 0, 16, 0],
        &[0, 16, 0, 0, 17, 0],
        &[0, 16, 0, 0x80, 17, 0],
        &[0, 16, 0, 0, 18, 0],
        // More of 10 before a later 9.
        &[0, 16, 0, 0, 16, 0, 0x40, 0, 0, 0x41, 0, 0],
        &[0, 17, 0, 0x40, 1, 0, 0x40, 0, 0, 0x40, 2, 0],
        &[0x40, 0, 0, 0, 17, 0, 0, 18, 0],
        &[0, 17, 0, 0, 3, 0, 0x80, 16, 255, 0x40, 0, 0],
        // They rise: the bytes do not.
        &[0x80, 0, 0, 0, 17, 0, 0x40, 0, 0],
        &[0x80, 16, 0, 0, 17, 0, 0xC0, 0, 9, 0x40, 1, 3],
    ];
    bodies.map(|body| wide(18, 2, body)).to_vec()
}

/// Each read point above 15 before each output, and behind it.
fn high_then_outputs() -> Vec<Vec<u8>> {
    let mut files = Vec::new();
    for number in 15..20 {
        for output in 0..4 {
            let (read, output) = ([0, number, 0], [0xC0, output, output]);
            files.push(wide(20, 4, &[read, output].concat()));
            files.push(wide(20, 4, &[output, read].concat()));
        }
    }
    files
}

/// Fields without a number above 15: 59, if no literal is refused before. Behind
/// that 11, which is told where there is such a number and no output.
fn without_high_numbers() -> Vec<Vec<u8>> {
    let mut bodies: Vec<Vec<u8>> = (0..17)
        .flat_map(|k| [vec![0, k, 0, 0x40, 0, 0], vec![0x80, k, 0]])
        .collect();
    let others: [&[u8]; 16] = [
        &[0x40, 0, 0],
        &[0xC0, 1, 5],
        &[0x40, 0, 16],
        &[0x40, 0, 0, 0xC0, 1, 255],
        &[0, 0, 0, 0, 15, 0],
        &[0, 14, 0, 0x80, 15, 0, 0xC0, 0, 0],
        // 9 and 10 come before it, wherever they are.
        &[0, 3, 0, 0x40, 1, 0, 0x40, 0, 0],
        &[0, 3, 0, 0, 2, 0, 0x40, 0, 0],
        &[0, 3, 0, 0, 3, 0],
        &[0, 3, 0, 0x60, 0, 0],
        &[0, 3, 0, 0x40, 2, 0],
        &[0, 3, 1],
        &[0x40, 0, 0, 0, 3, 0],
        &[0x40, 0, 0, 0x42, 0, 0],
        &[0, 19, 0],
        &[0x20, 16, 0],
    ];
    bodies.extend(others.map(<[u8]>::to_vec));
    let mut files: Vec<Vec<u8>> = bodies.iter().map(|body| wide(17, 2, body)).collect();
    // Behind good constraints of either tag, and before them.
    for tag in [NARROW, WIDE] {
        let good: &[u8] = match tag {
            WIDE => &[0, 16, 0, 0x40, 0, 0],
            _ => &[0x0F, 0, 0x40, 0],
        };
        for bad in [[0, 15, 0, 0x40, 1, 0].as_slice(), &[0, 16, 0]] {
            files.push(with(17, 2, &[(tag, good), (WIDE, bad)]));
            files.push(with(17, 2, &[(WIDE, bad), (tag, good)]));
        }
    }
    files
}

/// All 24 literals of 20 read points and 4 outputs, in three bytes each.
fn all_literals() -> Vec<u8> {
    let reads = (0..20).flat_map(|k| [(k % 2) << 7, k, 0]);
    let outputs = (0..4).flat_map(|k| [0x40 + ((k % 2) << 7), k, 40 * k]);
    reads.chain(outputs).collect()
}

/// Every length from 0 to 80 and some above: of good literals, and of zeros.
fn lengths() -> Vec<Vec<u8>> {
    let mut files = Vec::new();
    for length in (0..=80).chain([96, 144, 255, 256, 258, 259, 328, 768]) {
        let mut body = all_literals();
        body.rotate_left(48);
        body.resize(length, 0);
        files.push(wide(20, 4, &body));
        if length < 10 || length.is_multiple_of(24) {
            files.push(wide(17, 1, &vec![0; length]));
        }
    }
    files
}

/// Good fields of 2 to 24 literals, and of more: 25 are too long.
fn numbers_of_literals() -> Vec<Vec<u8>> {
    let all = all_literals();
    let mut files = Vec::new();
    for count in 2..=24 {
        // One read point above 15, others from the first on, and the outputs.
        let others = 3 * usize::max(count, 5) - 15;
        let last = 57 + 3 * usize::min(count, 5);
        let body = [&all[..others], &all[57..last]].concat();
        files.push(wide(20, 4, &body));
        if count > 5 {
            files.push(wide(20, 4, &all[72 - 3 * count..]));
        }
    }
    files.push(wide(20, 4, &[all.as_slice(), &[0xC0, 3, 0]].concat()));
    files.push(wide(20, 4, &[&[0, 0, 0], all.as_slice()].concat()));
    files
}

/// A small good constraint of a tag, not the same each time. The first two force
/// output 0 both ways at word 0.
fn small(tag: u8, round: usize) -> Vec<u8> {
    let k = (round % 4) as u8;
    match tag {
        WIDE if round < 2 => joined(&[(WIDE, &[0x80, 16, 0, 0x40 + 0x80 * k, 0, 0])]),
        NARROW if round < 2 => joined(&[(NARROW, NEVER[round])]),
        WIDE => joined(&[(WIDE, &[0x80 * (k % 2), 16 + k, 0, 0x40, k, k])]),
        _ => joined(&[(NARROW, &[0x0C + k, 0, 0xC0 + k, 3 * k])]),
    }
}

/// Both tags in every order of up to five constraints, with a rest word and
/// without; and the same constraint in the other tag's bytes.
fn tags_in_turn() -> Vec<Vec<u8>> {
    let mut files = Vec::new();
    for count in 1..=5 {
        for choice in 0..1 << count {
            let tag = |k: usize| if (choice >> k) % 2 == 1 { WIDE } else { NARROW };
            let fields: Vec<u8> = (0..count).flat_map(|k| small(tag(k), k)).collect();
            let rest = match choice % 3 {
                0 => joined(&[(REST, &[0, 9])]),
                _ => Vec::new(),
            };
            let end = joined(&[(END, &[])]);
            let r = if count == 1 { 17 } else { 20 };
            files.push([front(r, 4), rest, fields, end].concat());
        }
    }
    for (tag, body) in [
        (NARROW, [0x0F, 0, 0x40, 0, 0xC1, 1].as_slice()),
        (NARROW, &[0x00, 16, 0, 0x40, 0, 0]),
        (NARROW, &[0x10, 0, 0x40, 0]),
        (WIDE, &[0x0F, 0, 0x40, 0, 0xC1, 1]),
        (WIDE, &[0x0F, 0, 0, 0x40, 0, 0]),
        (WIDE, &[0, 0x0F, 0, 0, 0x10, 0, 0x40, 0, 0]),
    ] {
        files.push(with(17, 2, &[(tag, body)]));
        files.push(with(
            17,
            2,
            &[(NARROW, NEVER[0]), (NARROW, NEVER[1]), (tag, body)],
        ));
    }
    files
}

/// 63, 64 and 65 constraints of one tag, of both in turn, or of one and then the
/// other; and what a 65th may be that is bad in itself.
fn too_many() -> Vec<Vec<u8>> {
    let mut files = Vec::new();
    let shares: [fn(usize) -> bool; 7] = [
        |_| true,
        |_| false,
        |k| k % 2 == 0,
        |k| k % 2 == 1,
        |k| k < 32,
        |k| k == 64,
        |k| k < 64,
    ];
    for count in [63, 64, 65, 66] {
        for is_wide in shares {
            let tag = |k| if is_wide(k) { WIDE } else { NARROW };
            let fields: Vec<u8> = (0..count).flat_map(|k| small(tag(k), k)).collect();
            files.push([front(20, 4), fields, joined(&[(END, &[])])].concat());
        }
    }
    let tails: [&[u8]; 8] = [
        &[WIDE, 0, 6, 0, 16, 0, 0x40, 0, 0, 5, 0, 0],
        &[WIDE, 0, 0, 5, 0, 0],
        &[WIDE, 0, 4, 0, 16, 0, 0, 5, 0, 0],
        &[WIDE, 0, 3, 0x40, 0, 0, 5, 0, 0],
        &[WIDE, 0, 3, 0x50, 0],
        &[WIDE, 0],
        &[WIDE, 0, 75],
        &[8, 0, 0],
    ];
    for tag in [NARROW, WIDE] {
        let full: Vec<u8> = (0..64).flat_map(|k| small(tag, k)).collect();
        files.extend(tails.map(|tail| [&front(20, 4), &full, tail].concat()));
    }
    files
}

/// A field of three-byte literals at every place of a good file, beside the good
/// ones; and cut off.
fn other_places() -> Vec<Vec<u8>> {
    let good = [
        front(17, 2),
        joined(&[(REST, &[0, 2])]),
        joined(&[(WIDE, &[0, 16, 0, 0x40, 0, 0]), (NARROW, &[0, 0, 0x41, 0])]),
        joined(&[(END, &[])]),
    ]
    .concat();
    let all = fields(&good);
    let other = joined(&[(WIDE, &[0x80, 16, 0, 0xC0, 1, 4])]);
    let mut files = vec![good.clone()];
    for place in 0..=all.len() {
        let (front, back) = all.split_at(place);
        files.push([front.concat(), other.clone(), back.concat()].concat());
    }
    // The rest word behind the first constraint.
    let (front, back) = all.split_at(21);
    files.push([&front.concat(), [6, 0, 2, 0, 1].as_slice(), &back.concat()].concat());
    let start = front.concat().len() - 9;
    files.extend((start..good.len()).map(|end| good[..end].to_vec()));
    files
}

/// Sets of at most 16 read points that say 0x07: no number is good and above 15.
fn few_reads() -> Vec<Vec<u8>> {
    let mut files = Vec::new();
    for r in 0..=16u8 {
        for number in [0, r.saturating_sub(1), r, 15, 16, 17, 19, 32] {
            files.push(wide(r, 2, &[0, number, 0, 0x40, 0, 0]));
        }
        files.push(wide(r, 2, &[0x40, 0, 0]));
    }
    let bodies: [&[u8]; 10] = [
        &[],
        &[0x40, 0],
        &[0x40, 0, 0, 0],
        &[0, 0, 0],
        &[0, 0, 1],
        &[0, 16, 0],
        &[0, 0, 0, 0, 0, 0],
        &[0x40, 1, 0, 0x40, 0, 0],
        &[0x40, 16, 0],
        &[0x40, 0, 0, 0x40, 16, 0],
    ];
    for r in [1, 16] {
        files.extend(bodies.map(|body| wide(r, 2, body)));
        let many = joined(&[(NARROW, &[0x40, 0])]).repeat(64);
        let last = joined(&[(WIDE, &[0x40, 0, 0]), (END, &[])]);
        files.push([front(r, 2), many, last].concat());
    }
    files
}

/// Each bit of each byte of two constraints changed.
fn each_byte() -> Vec<Vec<u8>> {
    let body = [0, 2, 0, 0x80, 16, 0, 0, 18, 0, 0x40, 0, 0, 0xC0, 2, 17];
    let [one, other] = NEVER.map(|body| (NARROW, body));
    let narrow: (u8, &[u8]) = (NARROW, &[0x8F, 0, 0x41, 1]);
    let good = with(19, 3, &[(WIDE, &body), narrow, one, other]);
    let start = front(19, 3).len();
    let mut files = Vec::new();
    for place in start..good.len() - 13 {
        for bit in 0..8 {
            let mut file = good.clone();
            file[place] ^= 1 << bit;
            files.push(file);
        }
    }
    files
}

/// Good files damaged by chance, in any field or in one of three-byte literals.
fn damaged(chance: &mut Chance) -> Vec<Vec<u8>> {
    let mut files = Vec::new();
    let sizes = all_sizes();
    for round in 0..TO_DAMAGE {
        let (r, n) = sizes[round % sizes.len()];
        let m = chance.between(1, 6);
        let good = write(&crowded(chance, r, n, m));
        let mut bad = by_chance(chance, &good, DAMAGED_EACH / 2);
        for _ in 0..DAMAGED_EACH {
            bad.extend(one_field(chance, &good));
        }
        // What loads in spite of it is kept if its verdict takes no time.
        bad.retain(|file| load(file).is_err() || is_early(file));
        files.extend(bad);
    }
    files
}

/// True if a file loads to a set that fails at a low word.
fn is_early(file: &[u8]) -> bool {
    let Ok(set) = load(file) else {
        return false;
    };
    let verdict = judge(&set).without_clash();
    matches!(verdict, Verdict::NoVector(word) if word < 1 << 12)
}

/// A file with one field of three-byte literals damaged, if it has one.
fn one_field(chance: &mut Chance, good: &[u8]) -> Option<Vec<u8>> {
    let mut fields = fields(good);
    let of_tag = |tag: u8, fields: &[Vec<u8>]| {
        let places = (0..fields.len()).filter(|&k| fields[k][0] == tag);
        places.collect::<Vec<usize>>()
    };
    let places = of_tag(WIDE, &fields);
    if places.is_empty() {
        return None;
    }
    let place = places[chance.below(places.len())];
    let field = &mut fields[place];
    let literal = 3 + 3 * chance.below((field.len() - 3) / 3);
    match chance.below(8) {
        0 => field[literal] ^= 1 << chance.below(6),
        1 => field[literal + 1] = field[literal + 1].wrapping_sub(16),
        2 => field[literal + 1] = chance.byte(),
        3 => field[literal + 2] ^= 1 << chance.below(8),
        4 => field.swap(literal + 1, literal + 2),
        5 => {
            let more = literal.min(field.len() - 3);
            let again = field[more..more + 3].to_vec();
            field.splice(more..more, again);
            field[2] = (field.len() - 3) as u8;
        }
        6 => {
            field.drain(literal..literal + 3);
            field[2] = (field.len() - 3) as u8;
        }
        _ => field[0] = NARROW,
    }
    Some(fields.concat())
}

#[cfg(test)]
mod tests {
    use super::*;

    fn answer(file: &[u8]) -> Option<(u8, usize)> {
        load(file).err().map(|r| (r.number, r.offset))
    }

    /// The numbers of refusals, 0 for a file that loads.
    fn refusals(files: &[Vec<u8>]) -> Vec<u8> {
        let number = |file: &Vec<u8>| answer(file).map_or(0, |(number, _)| number);
        files.iter().map(number).collect()
    }

    #[test]
    fn literals_one_by_one() {
        let firsts: Vec<u8> = (0..=255)
            .map(|first| refusals(&[wide(17, 2, &[first, 16, 0, 0x40, 1, 9])])[0])
            .collect();
        for (first, number) in firsts.into_iter().enumerate() {
            // Number 16 is too large for an output.
            let due = if matches!(first, 0 | 0x80) { 0 } else { 9 };
            assert_eq!(number, due, "{first}");
        }
        for number in 0..=255 {
            let due = match number {
                0..=15 => 59,
                16..=19 => 0,
                _ => 9,
            };
            let file = wide(20, 4, &[0x80, number, 0, 0x40, 0, 0]);
            assert_eq!(refusals(&[file]), [due], "{number}");
        }
    }

    #[test]
    fn orders_of_literals() {
        let due = [
            10, 10, 10, 10, 10, 10, 10, 10, 10, 10, 10, 10, 10, 9, 9, 9, 9, 9, 10, 11, 11, 9, 10,
            10, 10, 10, 0, 0,
        ];
        assert_eq!(refusals(&orders()), due);
        let high = refusals(&high_then_outputs());
        for (place, number) in high.into_iter().enumerate() {
            let due = match (place / 8, place % 2) {
                (0, 0) => 59,
                (_, 0) => 0,
                _ => 10,
            };
            assert_eq!(number, due, "{place}");
        }
    }

    #[test]
    fn no_number_above_15() {
        let refusals = refusals(&without_high_numbers());
        for (place, number) in refusals[..34].iter().enumerate() {
            let due = match (place / 2, place % 2) {
                (16, 0) => 0,
                (16, _) => 11,
                _ => 59,
            };
            assert_eq!(*number, due, "{place}");
        }
        let others = [59, 59, 59, 59, 59, 59, 10, 10, 10, 9, 9, 9, 10, 9, 9, 9];
        assert_eq!(refusals[34..50], others);
        assert_eq!(refusals[50..], [59, 59, 11, 11, 59, 59, 11, 11]);
    }

    #[test]
    fn lengths_of_bodies() {
        for length in 0..=80 {
            let mut body = all_literals();
            body.resize(length, 0);
            let number = refusals(&[wide(20, 4, &body)])[0];
            let good = (3..=72).contains(&length) && length % 3 == 0;
            assert_eq!(number != 4, good, "{length}");
        }
        let mut counts = refusals(&numbers_of_literals());
        assert_eq!(counts.split_off(counts.len() - 2), [4, 4]);
        assert!(counts.len() > 40 && counts.iter().all(|&number| number == 0));
    }

    #[test]
    fn both_tags() {
        let turns = refusals(&tags_in_turn());
        assert!(turns[..62].iter().all(|&number| number == 0));
        let others = [0, 0, 9, 9, 9, 9, 9, 9, 9, 9, 0, 0];
        assert_eq!(turns[62..], others);
        for (place, number) in refusals(&too_many())[..28].iter().enumerate() {
            assert_eq!(*number, if place < 14 { 0 } else { 3 }, "{place}");
        }
        let tails = [3, 3, 3, 3, 1, 1, 1, 2];
        assert_eq!(refusals(&too_many())[28..], [tails, tails].concat());
    }

    #[test]
    fn other_places_and_few_reads() {
        let places = refusals(&other_places());
        assert_eq!(places[0], 0);
        // At the end's place, behind each constraint and behind the rest word.
        let good = places[1..26].iter().filter(|&&number| number == 0);
        assert_eq!(good.count(), 3);
        assert_eq!(places[25..27], [12, 2]);
        for file in few_reads() {
            let number = refusals(&[file])[0];
            assert!([3, 4, 9, 10, 59].contains(&number), "{number}");
        }
    }
}
