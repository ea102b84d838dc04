//! Files whose field of the rest word is refused, stands elsewhere or is
//! damaged, and good ones beside them.

use super::long::{full_then, longest, WORD};
use crate::by_hand::BRAKE;
use crate::chance::Chance;
use crate::damage::{each_byte_changed, fields, joined, truncated, P};
use crate::file::put_field;

/// The tag of the field.
const REST: u8 = 6;

/// Files to be refused whatever the seed, and some that load.
pub fn fixed() -> Vec<Vec<u8>> {
    let mut files = words_and_widths();
    files.extend(lengths());
    files.extend(cut_off());
    files.extend(other_tags());
    files.extend(other_places(&BRAKE, 4));
    files.extend(other_places(&three_and_two(), 6));
    let smallest = joined(&[(1, &[0, 1]), (3, b"A"), (REST, &[0, 1]), (5, &[])]);
    files.extend(other_places(&smallest, 2));
    files.extend(behind_many());
    files.extend(truncated(&BRAKE));
    files.extend(each_byte_changed(&BRAKE));
    files.extend(long_files());
    files
}

/// One past point, n outputs, some bytes, one constraint and the end.
fn with(n: u8, bytes: &[u8]) -> Vec<u8> {
    let mut file = joined(&[(1, &[1, n]), (2, &[1, n - 1, b'b'])]);
    for number in 0..n {
        put_field(&mut file, 3, &[b'A' + number]);
    }
    file.extend(bytes);
    put_field(&mut file, 4, &[0, 0, 0x40 + n - 1, 0]);
    put_field(&mut file, 5, &[]);
    file
}

/// The field of a rest word.
fn field(word: u16) -> Vec<u8> {
    joined(&[(REST, &word.to_be_bytes())])
}

/// For each n, 0, words with a bit at n or above, the most and the least that
/// are allowed, and words with their bytes swapped.
fn words_and_widths() -> Vec<Vec<u8>> {
    let mut files = Vec::new();
    for n in 1..=12u8 {
        let all: u16 = (1 << n) - 1;
        let last: u16 = 1 << (n - 1);
        let mut words = vec![0, 1, last, all, last.swap_bytes(), 0x0100, 0x8000, 0xFFFF];
        words.extend([1 << n, all + 1 + last, 1 << 12, (1 << 12) + 1, !all]);
        words.sort();
        words.dedup();
        files.extend(words.iter().map(|&word| with(n, &field(word))));
    }
    for word in [
        0x0102, 0x0201, 0x0801, 0x0108, 0x0304, 0x0403, 0x1001, 0x0110,
    ] {
        files.push(with(12, &field(word)));
        files.push(with(9, &field(word)));
    }
    files
}

/// Bodies of other lengths: a good word and more, and one that is bad too.
fn lengths() -> Vec<Vec<u8>> {
    let mut files = Vec::new();
    for length in [0, 1, 3, 4, 8, 255, 256, 258, 512, 514] {
        for byte in [0, 1, 0xFF] {
            let body: Vec<u8> = [0, byte].into_iter().cycle().take(length).collect();
            files.push(with(2, &joined(&[(REST, &body)])));
        }
    }
    files
}

/// Headers and bodies that run past the end, and files that end there.
fn cut_off() -> Vec<Vec<u8>> {
    let tails: [&[u8]; 12] = [
        &[6],
        &[6, 0],
        &[6, 0, 2],
        &[6, 0, 2, 0],
        &[6, 0, 1],
        &[6, 0, 3, 0, 1],
        &[6, 0, 2, 0, 1],
        &[6, 0, 2, 0, 0],
        &[6, 0xFF, 0xFF],
        &[6, 0xFF, 0xFF, 0, 1, 5, 0, 0],
        &[6, 2, 0, 0, 1, 5, 0, 0],
        &[6, 0, 2, 0, 1, 5, 0],
    ];
    let front = joined(&[(1, &[0, 2]), (3, b"A"), (3, b"B")]);
    tails.map(|tail| [&front, tail].concat()).to_vec()
}

/// The field with another tag, in its place.
fn other_tags() -> Vec<Vec<u8>> {
    let tags = [0, 1, 2, 3, 4, 5, 7, 8, 0x46, 0x60, 0x86, 0xFF];
    tags.map(|tag| with(2, &joined(&[(tag, &[0, 1])]))).to_vec()
}

/// Two read points, three outputs, the first and last resting, and two
/// constraints.
fn three_and_two() -> Vec<u8> {
    joined(&[
        (1, &[2, 3]),
        (2, b"\x01\x02p"),
        (2, b"\0\0s"),
        (3, b"A"),
        (3, b"B"),
        (3, b"C"),
        (6, &[0, 5]),
        (4, &[0, 0, 0x40, 0]),
        (4, &[0x81, 0, 0x41, 0, 0xC2, 1]),
        (5, &[]),
    ])
}

/// A file that has the field at this place: without it, and with another, good
/// or bad, at each place, beside it and alone.
fn other_places(file: &[u8], place: usize) -> Vec<Vec<u8>> {
    let with_it = fields(file);
    let mut without = with_it.clone();
    without.remove(place);
    let others: [&[u8]; 5] = [
        &[6, 0, 2, 0, 1],
        &[6, 0, 2, 0, 0],
        &[6, 0, 1, 1],
        &[6, 0, 0],
        &[6, 1, 0, 0, 1],
    ];
    let mut files = vec![without.concat()];
    for fields in [with_it, without] {
        for at in 0..=fields.len() {
            let (front, back) = fields.split_at(at);
            for other in others {
                files.push([&front.concat(), other, &back.concat()].concat());
            }
        }
    }
    files
}

/// The field behind 63 and 64 constraints, and before them; and behind a bad
/// output, where that is told.
fn behind_many() -> Vec<Vec<u8>> {
    let mut files = Vec::new();
    for count in [63, 64, 65] {
        let many = joined(&[(4, &[0x40, 0])]).repeat(count);
        let front = joined(&[(1, &[0, 1]), (3, b"A")]);
        let rest = field(1);
        let end = joined(&[(5, &[])]);
        files.push([front.clone(), many.clone(), rest.clone(), end.clone()].concat());
        files.push([front, rest, many, end].concat());
    }
    let doubled = [(1, [0, 2].as_slice()), (3, b"A"), (3, b"A"), (6, &[0, 0])];
    files.push(joined(&doubled));
    // A field of tag 0x06 behind the end of P.
    files.push([P.as_slice(), &field(1)].concat());
    files.push([P.as_slice(), &[6]].concat());
    files
}

/// The longest file with a rest word with a byte more, and with a field in the
/// end's place that ends near byte 4,096; a field of tag 0x06 that does.
fn long_files() -> Vec<Vec<u8>> {
    let mut full = longest(WORD, false);
    full.rest = vec![0, 7];
    let mut files = Vec::new();
    for tag in [5, 6] {
        files.extend([4095, 4096, 4097].map(|end| full_then(&full, tag, end)));
    }
    for end in [4096, 4097] {
        let mut file = P[..22].to_vec();
        let body = vec![0; end - 22 - 3];
        put_field(&mut file, REST, &body);
        files.push(file);
    }
    let mut more = full_then(&full, 5, 3573);
    more.push(6);
    files.push(more);
    files
}

/// A good file with a rest word, its field damaged by chance or moved.
pub fn by_chance(chance: &mut Chance, good: &[u8]) -> Vec<Vec<u8>> {
    let fields = fields(good);
    let Some(place) = fields.iter().position(|field| field[0] == REST) else {
        return Vec::new();
    };
    let offset = fields[..place].concat().len();
    let mut one_byte = good.to_vec();
    one_byte[offset + chance.below(5)] = chance.byte();
    let mut one_bit = good.to_vec();
    one_bit[offset + chance.between(3, 4)] ^= 1 << chance.below(8);
    let cut = good[..offset + chance.between(0, 5)].to_vec();
    let mut swapped = good.to_vec();
    swapped.swap(offset + 3, offset + 4);
    let mut doubled = fields.clone();
    doubled.insert(chance.between(place, fields.len()), fields[place].clone());
    let mut moved = fields.clone();
    let field = moved.remove(place);
    moved.insert(chance.below(fields.len()), field);
    vec![
        one_byte,
        one_bit,
        cut,
        swapped,
        doubled.concat(),
        moved.concat(),
    ]
}

#[cfg(test)]
mod tests {
    use super::*;
    use crate::file::load;

    fn answer(file: &[u8]) -> Option<(u8, usize)> {
        load(file).err().map(|r| (r.number, r.offset))
    }

    #[test]
    fn words_by_their_width() {
        for n in 1..=12 {
            let all: u16 = (1 << n) - 1;
            let offset = 11 + 4 * usize::from(n);
            for word in (0..=2 * all + 1).chain((0..16).map(|k| 1 << k)) {
                let good = word != 0 && word <= all;
                let refused = (!good).then_some((54, offset));
                assert_eq!(answer(&with(n, &field(word))), refused);
            }
        }
    }

    #[test]
    fn bodies_and_places() {
        assert!(lengths().iter().all(|file| answer(file) == Some((4, 19))));
        // Offset 13 is the field's, 18 the next one's.
        let cut: Vec<_> = cut_off().iter().map(|file| answer(file)).collect();
        let at_field = Some((1, 13));
        assert_eq!(cut[..6], [at_field; 6]);
        assert_eq!(cut[6..9], [Some((1, 18)), Some((54, 13)), at_field]);
        assert_eq!(cut[9..], [at_field, at_field, Some((1, 18))]);
        let places = other_places(&three_and_two(), 6);
        let good = places.iter().filter(|file| answer(file).is_none());
        // Without the field, and with a good one in its place.
        assert_eq!(good.count(), 2);
        assert_eq!(places.len(), 1 + 5 * 11 + 5 * 10);
    }

    #[test]
    fn long_files_with_a_rest_word() {
        let answers: Vec<_> = long_files().iter().map(|file| answer(file)).collect();
        assert_eq!(answers[..3], [Some((4, 3570)); 3]);
        assert_eq!(answers[3..6], [Some((2, 3570)); 3]);
        assert_eq!(
            answers[6..],
            [Some((4, 22)), Some((4, 22)), Some((12, 3573))]
        );
    }
}
