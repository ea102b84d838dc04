//! The repository's example sets, as they lie in `examples/`.

use crate::chance::Chance;
use crate::file::load;
use crate::making::scans;
use crate::records::Case;

const EXAMPLES: &[&[u8]] = &[
    include_bytes!("../../../examples/p.set"),
    include_bytes!("../../../examples/parcel-hall.set"),
    include_bytes!("../../../examples/sorting.set"),
    include_bytes!("../../../examples/sorting-mended.set"),
    include_bytes!("../../../examples/pusher.set"),
    include_bytes!("../../../examples/brake.set"),
    include_bytes!("../../../examples/outfeed.set"),
    include_bytes!("../../../examples/long-sorter.set"),
];

const SCANS_EACH: usize = 60;

/// Each example with scans; those of a set that is rejected are not used.
pub fn cases(chance: &mut Chance) -> Vec<Case> {
    let mut cases = Vec::new();
    for &file in EXAMPLES {
        let scans = match load(file) {
            Ok(set) => scans(chance, &set, SCANS_EACH),
            Err(_) => Vec::new(),
        };
        cases.push(Case::File {
            file: file.to_vec(),
            scans,
        });
    }
    cases
}

#[cfg(test)]
mod tests {
    use super::*;
    use crate::answer::answer;

    #[test]
    fn what_the_examples_pages_say() {
        let lines: Vec<String> = cases(&mut Chance::new(1))
            .iter()
            .map(|case| answer(case).lines().take(1).collect())
            .collect();
        let said = [
            "JUDGE ACCEPT 1 2 2",
            "JUDGE ACCEPT 3 4 5",
            "JUDGE CLASH 176 4",
            "JUDGE ACCEPT 16 7 22",
            "JUDGE ACCEPT 3 2 3",
            "JUDGE ACCEPT 2 2 4",
            "JUDGE NOVECTOR 7",
            "JUDGE ACCEPT 20 4 19",
        ];
        assert_eq!(lines, said);
    }
}
