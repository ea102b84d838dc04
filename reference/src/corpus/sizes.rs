//! Buffers of many sizes: at and around what each operation needs.

use super::counters::{counting, Counter};
use super::files::small_set;
use super::long::longest;
use super::texts::wordy;
use crate::chance::Chance;
use crate::damage::P;
use crate::file::{load, write};
use crate::making::{set, Recipe};
use crate::program::judged;
use crate::records::Case;
use crate::set::Kind;
use crate::text::text;
use crate::verdict::judge;

const SETS_EACH: usize = 11;
const LARGEST: usize = 40_000;

/// Sizes for sets of all recipes and of each number of outputs, and for a file
/// that is refused.
pub fn cases(chance: &mut Chance) -> Vec<Case> {
    let mut files = vec![P.to_vec(), P[..38].to_vec()];
    for recipe in [Recipe::Loose, Recipe::Bent, Recipe::Chain, Recipe::Clash] {
        for _ in 0..SETS_EACH {
            files.push(small_set(chance, recipe));
        }
    }
    for n in 1..=12 {
        let m = chance.between(0, 64);
        files.push(write(&set(chance, Recipe::Planted, 2, n, m)));
    }
    files.push(write(&wordy()));
    files.push(write(&longest(0, true)));
    let endless = Counter::plain(6).turning().constraints(0);
    files.push(write(&counting(&[Kind::Sensor], 6, endless)));
    files
        .into_iter()
        .map(|file| {
            let sizes = sizes(&file);
            Case::Buffers { file, sizes }
        })
        .collect()
}

/// Sizes around each length that a file needs, if it is a good one.
pub fn sizes(file: &[u8]) -> Vec<u16> {
    let Ok(set) = load(file) else {
        return around(&[]);
    };
    around(&[
        file.len(),
        // The scratch when it was a byte for each vector.
        1 << set.outputs.len(),
        // The line when no clash was named.
        judged(&set, judge(&set).without_clash()).len(),
        text(&set).len(),
    ])
}

/// No bytes, one, and sizes around each of these lengths.
pub fn around(lengths: &[usize]) -> Vec<u16> {
    let mut sizes = vec![0, 1];
    for length in lengths {
        sizes.extend([length - 1, *length, length + 1, length + 100]);
    }
    sizes.sort();
    sizes.dedup();
    sizes.retain(|&size| size <= LARGEST);
    sizes.into_iter().map(|size| size as u16).collect()
}
