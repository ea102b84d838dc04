//! The parts of the corpus that show wrong skips, by themselves: what they have
//! of each sort, and their verdicts word by word.

use reference::corpus::skipping;
use reference::corpus::skips::{mask, sorts, NEEDED};
use reference::file::load;
use reference::filter::read_literals_true;
use reference::records::Case;
use reference::set::{bits, Constraint, Set};
use reference::verdict::{first_endless, has_safe_vector, judge, judge_plainly, Verdict};
use std::collections::BTreeMap;
use std::sync::OnceLock;

/// A set of these parts.
struct Member {
    set: Set,
    has_scans: bool,
    verdict: Verdict,
    sorts: Vec<String>,
}

/// The sets of these parts in the corpus that is committed, made once for all
/// tests.
fn members() -> &'static [Member] {
    static MEMBERS: OnceLock<Vec<Member>> = OnceLock::new();
    MEMBERS.get_or_init(|| skipping(1).into_iter().map(member).collect())
}

fn member(case: Case) -> Member {
    let Case::File { file, scans } = case else {
        panic!("a file");
    };
    let set = load(&file).expect("it loads");
    Member {
        has_scans: !scans.is_empty(),
        verdict: judge(&set),
        sorts: sorts(&set),
        set,
    }
}

#[test]
fn the_parts_have_enough_of_each_sort() {
    let mut counts: BTreeMap<String, usize> = BTreeMap::new();
    for sort in members().iter().flat_map(|member| &member.sorts) {
        *counts.entry(format!("F {sort}")).or_default() += 1;
    }
    for (sort, least) in NEEDED {
        let count = counts.get(*sort).copied().unwrap_or(0);
        assert!(count >= *least, "{sort}: {count}");
    }
}

#[test]
fn sharing_answers_is_judging_word_by_word() {
    let mut seen = [0; 3];
    for member in members() {
        assert_eq!(judge_plainly(&member.set), member.verdict);
        assert_eq!(member.has_scans, member.verdict == Verdict::Accepted);
        match member.verdict {
            Verdict::Accepted => seen[0] += 1,
            Verdict::NoVector(_) | Verdict::Clash(..) => seen[1] += 1,
            Verdict::NoEnd(..) => seen[2] += 1,
        }
    }
    assert!(seen.iter().all(|&count| count > 30), "{seen:?}");
}

/// The set at one word: its active constraints without their read literals.
fn at_word(set: &Set, word: u32) -> Set {
    let reads = bits(word, set.reads.len());
    let active = set.constraints.iter();
    let active = active.filter(|constraint| read_literals_true(constraint, &reads));
    let without_reads = |constraint: &Constraint| {
        let literals = constraint.literals.iter().filter(|l| l.is_output());
        Constraint {
            literals: literals.copied().collect(),
        }
    };
    Set {
        reads: Vec::new(),
        outputs: set.outputs.clone(),
        rest: Vec::new(),
        constraints: active.map(without_reads).collect(),
    }
}

/// The first word that fails in some way, with a memory of masks of words that
/// do not, one for each remainder by 251; a word is skipped if what is in its
/// place is as good, by the given reading.
fn first_by_memory<F>(
    set: &Set,
    as_good: fn(u64, u64) -> bool,
    fails: fn(&Set) -> Option<F>,
) -> Option<(u32, F)> {
    let mut places: Vec<Option<u64>> = vec![None; 251];
    for word in 0..1 << set.reads.len() {
        let mask = mask(set, word);
        let place = &mut places[(mask % 251) as usize];
        if place.is_some_and(|good| as_good(good, mask)) {
            continue;
        }
        match fails(&at_word(set, word)) {
            Some(failure) => return Some((word, failure)),
            None => *place = Some(mask),
        }
    }
    None
}

/// The verdict with two such memories: of words with a safe vector, and of
/// words whose walks all end.
fn judge_by_memory(set: &Set, as_good: fn(u64, u64) -> bool) -> Verdict {
    let lacks = |at: &Set| (!has_safe_vector(at, &[])).then_some(());
    let endless = |at: &Set| first_endless(at, &[]);
    if let Some((word, ())) = first_by_memory(set, as_good, lacks) {
        return Verdict::NoVector(word);
    }
    match first_by_memory(set, as_good, endless) {
        Some((word, request)) => Verdict::NoEnd(word, request),
        None => Verdict::Accepted,
    }
}

#[test]
fn a_memory_by_remainders_alone_is_shown() {
    let mut shown = 0;
    for Member {
        set,
        verdict,
        sorts,
        ..
    } in members()
    {
        let verdict = verdict.without_clash();
        assert_eq!(judge_by_memory(set, |good, mask| good == mask), verdict);
        let other = judge_by_memory(set, |_, _| true) != verdict;
        let sort = |sort: &String| sort.ends_with("other if masks counted modulo 251");
        assert_eq!(sorts.iter().any(sort), other);
        shown += usize::from(other);
    }
    assert!(shown >= 15, "{shown}");
}
