//! The verdict: all read words are tried for a safe vector, then all of them
//! for an endless walk. A word without a vector is told with its clash, if it
//! has one.

use crate::filter::{holds, is_safe, walk, Holds, Walk};
use crate::set::{bits, Constraint, Point, Set};
use std::collections::HashMap;

#[derive(Clone, Copy, Debug, PartialEq, Eq)]
pub enum Verdict {
    Accepted,
    /// 22: no safe vector at this read word, and no output forced both ways.
    NoVector(u32),
    /// 58: no safe vector at this read word, and this is the lowest output that
    /// is forced both ways there.
    Clash(u32, usize),
    /// 23: the walk from this request is never safe at this read word.
    NoEnd(u32, u16),
}

impl Verdict {
    /// The verdict without the name of a clash: 22 in place of 58, as it was
    /// before the request "Simple constraints that contradict".
    pub fn without_clash(self) -> Verdict {
        match self {
            Verdict::Clash(word, _) => Verdict::NoVector(word),
            other => other,
        }
    }
}

/// The verdict. A read word counts only through the constraints whose read
/// literals it makes true; words that agree in these share one answer.
pub fn judge(set: &Set) -> Verdict {
    let lacking = |set: &Set, reads: &[bool]| (!has_safe_vector(set, reads)).then_some(());
    if let Some((word, ())) = first_word(set, lacking) {
        return without_vector(set, word);
    }
    match first_word(set, first_endless) {
        Some((word, request)) => Verdict::NoEnd(word, request),
        None => Verdict::Accepted,
    }
}

/// The verdict straight from the paper, every word by itself: slow, and there
/// to test `judge` with.
pub fn judge_plainly(set: &Set) -> Verdict {
    let r = set.reads.len();
    for word in 0..1 << r {
        if !has_safe_vector(set, &bits(word, r)) {
            return without_vector(set, word);
        }
    }
    for word in 0..1 << r {
        if let Some(request) = first_endless(set, &bits(word, r)) {
            return Verdict::NoEnd(word, request);
        }
    }
    Verdict::Accepted
}

/// The verdict in document 01's order, as it was before the request "Missing
/// vectors come before endless walks": each word is tried for a safe vector and
/// then for an endless walk, and the first that fails is told, clash or not. No
/// answer comes from here: it tells which sets have another one now, and the
/// corpus draws its older sets by it, so that they stay the same.
pub fn judge_in_the_old_order(set: &Set) -> Verdict {
    // A failing word has no request where no vector is safe.
    let failing = |set: &Set, reads: &[bool]| match has_safe_vector(set, reads) {
        false => Some(None),
        true => first_endless(set, reads).map(Some),
    };
    match first_word(set, failing) {
        Some((word, None)) => Verdict::NoVector(word),
        Some((word, Some(request))) => Verdict::NoEnd(word, request),
        None => Verdict::Accepted,
    }
}

/// What is told of a read word without a safe vector: the clash, if there is
/// one at this word.
fn without_vector(set: &Set, word: u32) -> Verdict {
    match holds(set, &bits(word, set.reads.len())) {
        Holds::Clash(output) => Verdict::Clash(word, output),
        Holds::Forced(_) => Verdict::NoVector(word),
    }
}

/// The bytes of scratch that a verdict on n outputs needs: one bit for each
/// vector, and one byte where there are fewer than eight. With fewer bytes it
/// is refused by 21. What it leaves in these is free, and bytes behind them stay
/// as they are.
pub fn scratch_bytes(n: usize) -> usize {
    match n {
        0..3 => 1,
        _ => (1 << n) / 8,
    }
}

/// True if any of the 2^n vectors is safe at a read word.
pub fn has_safe_vector(set: &Set, reads: &[bool]) -> bool {
    let n = set.outputs.len();
    let mut vectors = 0..1u32 << n;
    vectors.any(|vector| is_safe(set, reads, &bits(vector, n)))
}

/// The first request whose walk is never safe at a read word.
pub fn first_endless(set: &Set, reads: &[bool]) -> Option<u16> {
    let n = set.outputs.len();
    let endless = |request: &u16| walk(set, reads, &bits(u32::from(*request), n)) == Walk::Endless;
    (0..1u16 << n).find(endless)
}

/// The lowest read word at which a question about a set has an answer, and that
/// answer. The question must hang on the active constraints alone, those whose
/// read literals are all true.
fn first_word<A: Copy>(set: &Set, ask: impl Fn(&Set, &[bool]) -> Option<A>) -> Option<(u32, A)> {
    let mut search = Search {
        set,
        ask,
        known: HashMap::new(),
    };
    let all = (0..set.constraints.len()).collect();
    search.lowest(set.reads.len(), all)
}

/// The read words are gone through as a tree, the highest read point first and
/// off before on, so in rising order. Of a branch it is kept what constraints
/// are still possible, by their places, and branches of the same height that
/// agree in these share one answer.
struct Search<'a, A, F> {
    set: &'a Set,
    ask: F,
    known: HashMap<Branch, Option<(u32, A)>>,
}

/// How many read points of a branch are open, and the places of the constraints
/// that are still possible.
type Branch = (usize, Vec<usize>);

impl<A: Copy, F: Fn(&Set, &[bool]) -> Option<A>> Search<'_, A, F> {
    /// The lowest word with an answer, of those in which the read points below
    /// a number are open and make no others than these constraints active.
    fn lowest(&mut self, open: usize, possible: Vec<usize>) -> Option<(u32, A)> {
        let key = (open, possible);
        if let Some(answer) = self.known.get(&key) {
            return *answer;
        }
        let answer = match open.checked_sub(1) {
            None => {
                let answer = (self.ask)(&active(self.set, &key.1), &[]);
                answer.map(|answer| (0, answer))
            }
            Some(point) => self.below(point, &key.1),
        };
        self.known.insert(key, answer);
        answer
    }

    /// The same with the highest open read point off, and then on.
    fn below(&mut self, point: usize, possible: &[usize]) -> Option<(u32, A)> {
        let left = |on: bool| -> Vec<usize> {
            let stays = |place: &&usize| !forbids(&self.set.constraints[**place], point, on);
            possible.iter().filter(stays).copied().collect()
        };
        let [off, on] = [false, true].map(left);
        self.lowest(point, off).or_else(|| {
            let (word, answer) = self.lowest(point, on)?;
            Some((word + (1 << point), answer))
        })
    }
}

/// True if a read literal of a constraint is false where a read point is so.
fn forbids(constraint: &Constraint, point: usize, on: bool) -> bool {
    let mut literals = constraint.literals.iter();
    literals.any(|literal| literal.point == Point::Read(point) && literal.negated == on)
}

/// The set with these constraints alone, of which only the output literals are
/// left, since their read literals are all true; it has no read points, and its
/// outputs have no names.
fn active(set: &Set, places: &[usize]) -> Set {
    let outputs = |&place: &usize| {
        let literals = set.constraints[place].literals.iter();
        let literals = literals.filter(|literal| literal.is_output());
        Constraint {
            literals: literals.copied().collect(),
        }
    };
    Set {
        reads: Vec::new(),
        outputs: vec![Vec::new(); set.outputs.len()],
        rest: Vec::new(),
        constraints: places.iter().map(outputs).collect(),
    }
}
