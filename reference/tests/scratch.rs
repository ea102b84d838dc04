//! Document 02's "The verdict inside the box": one bit of scratch for each
//! vector, and the part of the corpus for it.

use reference::answer::answer;
use reference::corpus::packed::{needed, sorts, told_rightly};
use reference::corpus::packing;
use reference::damage::P;
use reference::file::load;
use reference::filter::pulls;
use reference::lent::{sum, FILL};
use reference::records::Case;
use reference::set::{bits, Set};
use reference::verdict::{judge, scratch_bytes, Verdict};
use std::collections::{BTreeMap, BTreeSet};
use std::sync::OnceLock;

/// A set of the part, the sizes of its buffers, if it has such, and what the
/// verdict and the start answer with each scratch of `around_needed`.
struct Member {
    set: Set,
    file: Vec<u8>,
    sizes: Option<Vec<u16>>,
    verdict: Verdict,
    judges: Vec<String>,
    starts: Vec<String>,
}

/// The sets of the part in the corpus that is committed, made once for all
/// tests.
fn members() -> &'static [Member] {
    static MEMBERS: OnceLock<Vec<Member>> = OnceLock::new();
    MEMBERS.get_or_init(|| packing(1).into_iter().map(member).collect())
}

fn member(case: Case) -> Member {
    let (file, sizes) = match case {
        Case::File { file, .. } => (file, None),
        Case::Buffers { file, sizes } => (file, Some(sizes)),
        _ => panic!("a file or buffers"),
    };
    let set = load(&file).expect("it loads");
    let [judges, starts] = judged(&file, &around_needed(&set));
    Member {
        verdict: judge(&set),
        set,
        file,
        sizes,
        judges,
        starts,
    }
}

/// One byte less than the verdict needs, just so many, as many as it needed
/// before, and more.
fn around_needed(set: &Set) -> [usize; 4] {
    let n = set.outputs.len();
    [scratch_bytes(n) - 1, scratch_bytes(n), 1 << n, 4096]
}

/// The items of a line of the answer.
fn items(lines: &str, word: &str) -> Vec<String> {
    let mut lines = lines.lines().map(|line| line.split(' '));
    let line = lines.find(|line| line.clone().next() == Some(word));
    let items = line.expect("the line").skip(1);
    items.map(String::from).collect()
}

/// The items of the verdict and of the start with scratch of these sizes.
fn judged(file: &[u8], sizes: &[usize]) -> [Vec<String>; 2] {
    let lines = answer(&Case::Buffers {
        file: file.to_vec(),
        sizes: sizes.iter().map(|&size| size as u16).collect(),
    });
    ["JUDGES", "STARTS"].map(|word| items(&lines, word))
}

fn words(verdict: Verdict) -> String {
    match verdict {
        Verdict::Accepted => String::from("0"),
        Verdict::NoVector(word) => format!("22/{word}"),
        Verdict::Clash(word, output) => format!("58/{word}/{output}"),
        Verdict::NoEnd(word, request) => format!("23/{word}/{request}"),
    }
}

/// The sum of so many bytes that nothing was written to.
fn untouched(count: usize) -> u64 {
    sum(&vec![FILL; count])
}

#[test]
fn a_bit_for_each_vector() {
    let bytes = [1, 1, 1, 2, 4, 8, 16, 32, 64, 128, 256, 512];
    assert_eq!(
        [1, 2, 3, 4, 5, 6, 7, 8, 9, 10, 11, 12].map(scratch_bytes),
        bytes
    );
    for n in 3..=12 {
        assert_eq!(scratch_bytes(n) * 8, 1 << n);
    }
}

#[test]
fn the_first_untouched_byte() {
    let [judges, starts] = judged(&P, &[0, 1, 2, 3, 4, 512]);
    let behind = |size: usize| format!("0:{}", untouched(size + 16 - 1));
    let sizes = [1, 2, 3, 4, 512];
    let expected = [format!("21:{}", untouched(16))];
    let expected: Vec<String> = expected.into_iter().chain(sizes.map(behind)).collect();
    assert_eq!(judges, expected);
    let states = ["0/0", "2/0", "2/0", "2/0", "2/0", "2/0"];
    let with_state = |(item, state): (&String, &str)| format!("{item}={state}");
    let expected: Vec<String> = expected.iter().zip(states).map(with_state).collect();
    assert_eq!(starts, expected);
}

#[test]
fn one_byte_less_is_21() {
    for member in members() {
        let [short, ..] = around_needed(&member.set);
        let item = format!("21:{}", untouched(short + 16));
        assert_eq!(member.judges[0], item);
        assert_eq!(member.starts[0], format!("{item}=0/0"));
    }
}

#[test]
fn more_scratch_changes_no_verdict() {
    for member in members() {
        let [_, needed, before, more] = around_needed(&member.set);
        for (place, size) in [(1, needed), (2, before), (3, more)] {
            let behind = untouched(size - needed + 16);
            let item = format!("{}:{behind}", words(member.verdict));
            assert_eq!(member.judges[place], item);
            assert!(member.starts[place].starts_with(&format!("{item}=")));
        }
    }
}

#[test]
fn a_file_is_judged_with_enough_and_one_less() {
    for Member { file, verdict, .. } in members() {
        let scans = Vec::new();
        let file = file.clone();
        let lines = answer(&Case::File { file, scans });
        let scratch = items(&lines, "SCRATCH");
        let needed: usize = scratch[0].parse().expect("a number");
        let enough = format!("{}:{}", words(*verdict), untouched(16));
        let short = format!("21:{}", untouched(needed - 1 + 16));
        assert_eq!(scratch[1..], [enough, short]);
        // It stands behind the text and before the start's verdict.
        let (before, after) = lines.split_once("SCRATCH").expect("the line");
        assert!(before.contains("\nTEXT "));
        let next = after.lines().nth(1).expect("a line");
        let starts = ["ACCEPT", "NOVECTOR", "NOEND", "CLASH"];
        assert!(starts.iter().any(|word| next.starts_with(word)), "{next}");
    }
}

#[test]
fn the_part_has_enough_of_each_sort() {
    let mut counts: BTreeMap<String, usize> = BTreeMap::new();
    for member in files() {
        for sort in sorts(&member.set) {
            *counts.entry(format!("F {sort}")).or_default() += 1;
        }
    }
    for (sort, least) in needed() {
        let count = counts.get(&sort).copied().unwrap_or(0);
        assert!(count >= least, "{sort}: {count}");
    }
}

fn files() -> impl Iterator<Item = &'static Member> {
    members().iter().filter(|member| member.sizes.is_none())
}

#[test]
fn nothing_wrong_is_the_verdict() {
    for member in members() {
        let told = told_rightly(&member.set).expect("few read points");
        assert_eq!(told, [member.verdict.without_clash(); 2]);
    }
}

/// Some sorts, told without the verdict that goes wrong.
#[test]
fn sorts_by_their_own_words() {
    for member in files() {
        let n = member.set.outputs.len();
        let sorts = sorts(&member.set);
        let has = |sort: &str| sorts.iter().any(|s| s.ends_with(sort));
        let no_vector = matches!(member.verdict.without_clash(), Verdict::NoVector(_));
        let no_end = matches!(member.verdict, Verdict::NoEnd(..));
        assert_eq!(has("other if a walk ended at its own marks"), no_end);
        let beyond = has("the bits from 2^n on counted as safe");
        assert_eq!(beyond, no_vector && n < 3);
        let tried = has("the bits from 2^n on were tried as requests");
        assert!(tried || no_vector || no_end || n > 2);
        assert!(n < 3 && !no_vector || !tried);
        for modulus in [4, 16, 32, 64, 128, 256] {
            let taken = has(&format!("the byte were taken modulo {modulus}"));
            assert!(!taken || no_end && scratch_bytes(n) > modulus);
        }
        assert!(n > 3 || !has("marks were put in the next byte"));
    }
}

/// True if some output is held at some word.
fn holds_some(set: &Set) -> bool {
    let r = set.reads.len();
    let held = |word| pulls(set, &bits(word, r)).iter().any(|hold| hold.is_held());
    (0..1 << r).any(held)
}

/// Sizes of buffers for each number of outputs with each verdict, each with and
/// without a rest word.
#[test]
fn sizes_for_each_number_of_outputs() {
    let mut seen: BTreeSet<(usize, String, bool)> = BTreeSet::new();
    let mut holding = 0;
    for member in members() {
        let Some(sizes) = &member.sizes else {
            continue;
        };
        let n = member.set.outputs.len();
        let (bit_each, byte_each) = (scratch_bytes(n) as u16, 1 << n);
        let around = [bit_each, byte_each, 512].map(|size| [size - 1, size, size + 1]);
        let due = [around.concat(), vec![0, 1, 2 * bit_each]].concat();
        assert!(due.iter().all(|size| sizes.contains(size)), "{n}");
        let words = words(member.verdict.without_clash());
        let number = words.split('/').next().expect("a number");
        seen.insert((n, number.to_string(), member.set.rest.is_empty()));
        holding += usize::from(holds_some(&member.set));
    }
    // One output is in no combined constraint: no walk of it is endless.
    assert_eq!(seen.len(), 12 * 3 * 2 - 2);
    assert!(holding >= 40, "{holding}");
}
