//! What the corpus holds: its cases in order, the same for the same seed.

pub mod active;
pub mod broken;
pub mod clashes;
pub mod counters;
pub mod counts;
pub mod edges;
pub mod eights;
pub mod examples;
pub mod files;
pub mod fronts;
pub mod long;
pub mod marking;
pub mod marks;
pub mod misloads;
pub mod misses;
pub mod names;
pub mod namings;
pub mod narrow;
pub mod order;
pub mod packed;
pub mod paths;
pub mod rest_files;
pub mod rests;
pub mod scratch;
pub mod sizes;
pub mod skips;
pub mod starts;
pub mod states;
pub mod texts;
pub mod wide;
pub mod wide_files;
pub mod wide_memory;

use crate::chance::Chance;
use crate::records::Case;

/// The generator of a part by its number.
fn part(seed: u64, number: u64) -> Chance {
    Chance::new(seed.wrapping_add(number << 32))
}

/// All cases. Each part but the files has a generator of its own, so that it
/// can change and leave the others as they are.
pub fn corpus(seed: u64) -> Vec<Case> {
    let part = |number: u64| part(seed, number);
    let mut cases = examples::cases(&mut part(1));
    cases.extend(files::cases(&mut Chance::new(seed)));
    cases.extend(counters::cases(&mut part(2)));
    cases.extend(long::cases());
    cases.extend(texts::cases());
    cases.extend(states::long_lists(&mut part(3)));
    cases.extend(states::cases(&mut part(4)));
    cases.extend(names::cases(&mut part(5)));
    cases.extend(sizes::cases(&mut part(6)));
    cases.extend(broken::cases(&mut part(7)));
    cases.extend(states::other_marks(&cases));
    cases.extend(edges::cases(&mut part(8)));
    cases.extend(skipping(seed));
    cases.extend(order::others(&mut part(12)));
    cases.extend(resting(seed));
    cases.extend(packing(seed));
    cases.extend(clashing(seed));
    cases.extend(widening(seed));
    cases
}

/// The part of the sets with 17 to 20 read points.
pub fn widening(seed: u64) -> Vec<Case> {
    wide::cases(&mut part(seed, 16))
}

/// The part of the sets whose simple constraints contradict.
pub fn clashing(seed: u64) -> Vec<Case> {
    clashes::cases(&mut part(seed, 15))
}

/// The part of the sets with a rest word.
pub fn resting(seed: u64) -> Vec<Case> {
    rests::cases(&mut part(seed, 13))
}

/// The part of the sets whose vectors have one bit each.
pub fn packing(seed: u64) -> Vec<Case> {
    scratch::cases(&mut part(seed, 14))
}

/// The parts that show what a verdict skips or misses wrongly.
pub fn skipping(seed: u64) -> Vec<Case> {
    let mut cases = active::cases(&mut part(seed, 9));
    cases.extend(paths::cases(&mut part(seed, 10)));
    cases.extend(ordering(seed));
    cases
}

/// Of these the part that shows in which order it goes.
pub fn ordering(seed: u64) -> Vec<Case> {
    order::cases(&mut part(seed, 11))
}
