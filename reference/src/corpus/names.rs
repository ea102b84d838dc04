//! Names to find: the points' own, and others that are nearly these.

use super::files::small_set;
use crate::chance::Chance;
use crate::damage::P;
use crate::file::load;
use crate::making::Recipe;
use crate::records::Case;
use crate::set::Set;

const SETS: usize = 60;
const POINTS_EACH: usize = 6;

/// Names for set P and for other sets, and for a file that is refused.
pub fn cases(chance: &mut Chance) -> Vec<Case> {
    let mut files = vec![P.to_vec(), P[..38].to_vec()];
    for _ in 0..SETS {
        files.push(small_set(chance, Recipe::Planted));
    }
    let mut cases = Vec::new();
    for file in files {
        let names = match load(&file) {
            Ok(set) => names(chance, &set),
            Err(_) => vec![b"7".to_vec(), Vec::new()],
        };
        cases.push(Case::Names { file, names });
    }
    cases
}

/// Own names of all points, some of them bent in every way, and names that no
/// point bears.
pub fn names(chance: &mut Chance, set: &Set) -> Vec<Vec<u8>> {
    let mut own: Vec<Vec<u8>> = set.reads.iter().map(|point| point.name.clone()).collect();
    own.extend(set.outputs.iter().cloned());
    let mut names = own.clone();
    for _ in 0..POINTS_EACH {
        let name = &own[chance.below(own.len())];
        names.extend(nearly(chance, name));
    }
    names.push(Vec::new());
    for length in [1, 8, 9, 255] {
        names.push(vec![0; length]);
        names.push(
            (0..length)
                .map(|_| chance.between(0x21, 0x7E) as u8)
                .collect(),
        );
        names.push((0..length).map(|_| chance.byte()).collect());
    }
    names
}

/// A few names that are nearly a point's; some may be another point's.
pub fn nearly(chance: &mut Chance, name: &[u8]) -> Vec<Vec<u8>> {
    let place = chance.below(name.len());
    let (front, back) = name.split_at(place);
    let at_place = |bytes: &[u8]| [front, bytes, &back[1..]].concat();
    let between = |bytes: &[u8]| [front, bytes, back].concat();
    let high = [0x7F, 0x80, 0xFF, name[place] | 0x80][chance.below(4)];
    let mut padded = name.to_vec();
    padded.resize(8, 0);
    vec![
        [name, &[chance.between(0x21, 0x7E) as u8]].concat(),
        name[..name.len() - 1].to_vec(),
        name[1..].to_vec(),
        [name, &[0]].concat(),
        [&[0], name].concat(),
        between(&[0]),
        at_place(&[0]),
        [name, b" "].concat(),
        [b" ", name].concat(),
        other_case(name),
        [b"0", name].concat(),
        between(&[high]),
        at_place(&[high]),
        at_place(&[name[place] ^ 1]),
        [padded.as_slice(), &[0]].concat(),
        padded,
        [name, name].concat(),
    ]
}

fn other_case(name: &[u8]) -> Vec<u8> {
    let other = |byte: &u8| {
        if byte.is_ascii_uppercase() {
            byte.to_ascii_lowercase()
        } else {
            byte.to_ascii_uppercase()
        }
    };
    name.iter().map(other).collect()
}
