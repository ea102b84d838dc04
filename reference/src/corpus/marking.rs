//! A verdict that keeps one bit for each vector, to try wrong ways with.
//!
//! It puts a mark at each vector that is known to be good, vector v at bit v mod
//! 8 of byte v / 8, anew for each read word. It does so in one of two ways: it
//! marks the safe vectors first, tells 22 where there is no mark and walks up to
//! one; or it marks what it has walked over, and ends a walk at a mark as well as
//! at a safe vector. No answer comes from it.

use super::skips::mask;
use crate::filter::{pass, pulls, read_literals_true, start_vector};
use crate::set::{bits, word, Constraint, Point, Set};
use crate::verdict::Verdict;
use std::collections::HashMap;

/// The vectors of a byte.
pub const EIGHT: usize = 8;

/// What is so at a read word.
#[derive(Clone)]
pub struct At {
    /// The start vector of each request.
    starts: Vec<usize>,
    /// Where a pass leads from each vector.
    next: Vec<usize>,
    /// Whether each vector is safe.
    pub safe: Vec<bool>,
    /// The constraints whose read literals are true.
    pub active: Vec<Constraint>,
}

impl At {
    fn new(set: &Set, read_word: u32) -> At {
        let n = set.outputs.len();
        let reads = bits(read_word, set.reads.len());
        let holds = pulls(set, &reads);
        let active = set.constraints.iter();
        let active = active.filter(|constraint| read_literals_true(constraint, &reads));
        let active: Vec<Constraint> = active.cloned().collect();
        let all = || (0..1 << n).map(|vector| bits(vector, n));
        let number = |vector: Vec<bool>| word(&vector) as usize;
        At {
            starts: all()
                .map(|request| number(start_vector(&holds, &request)))
                .collect(),
            next: all()
                .map(|vector| number(pass(set, &reads, &holds, &vector)))
                .collect(),
            safe: safe(&active, 1 << n),
            active,
        }
    }

    pub fn vectors(&self) -> usize {
        self.safe.len()
    }
}

/// Whether each of so many vectors makes none of these constraints true by
/// their output literals.
pub fn safe(active: &[Constraint], vectors: usize) -> Vec<bool> {
    let is_true = |constraint: &Constraint, vector: usize| {
        let mut literals = constraint.literals.iter();
        literals.all(|literal| match literal.point {
            Point::Output(number) => (vector >> number) % 2 == usize::from(!literal.negated),
            Point::Read(_) => true,
        })
    };
    let safe = |vector| !active.iter().any(|constraint| is_true(constraint, vector));
    (0..vectors).map(safe).collect()
}

/// The byte and the bit in it that are a vector's, where there are so many
/// bytes.
pub type Place = fn(usize, usize) -> (usize, usize);

/// How marks are kept.
#[derive(Clone, Copy)]
pub struct Way {
    /// Where a mark is put.
    pub put: Place,
    /// Where it is looked up.
    pub look: Place,
    /// What a byte becomes when a mark is put there.
    pub add: fn(u8, u8) -> u8,
    /// What the scratch has in it at first.
    pub first: u8,
    /// Whether the scratch is cleared for a word, from the number of those
    /// before it.
    pub clears: fn(usize) -> bool,
    /// True if a walk's vectors are marked before it has ended.
    pub early: bool,
    /// True if a mark that a walk before left makes a walk endless.
    pub stops: bool,
    /// The most passes of a walk, from the numbers of vectors and of bytes.
    pub passes: fn(usize, usize) -> usize,
    /// True if the bits from 2^n on count as safe vectors.
    pub safe_beyond: bool,
    /// True if they are tried as requests, and are never safe.
    pub tried_beyond: bool,
    /// The bytes of these that are looked at for a safe vector.
    pub looked: fn(usize) -> std::ops::Range<usize>,
}

fn place(vector: usize, _: usize) -> (usize, usize) {
    (vector / EIGHT, vector % EIGHT)
}

/// The right way.
pub const RIGHT: Way = Way {
    put: place,
    look: place,
    add: |byte, mark| byte | mark,
    first: 0,
    clears: |_| true,
    early: false,
    stops: false,
    passes: |vectors, _| vectors,
    safe_beyond: false,
    tried_beyond: false,
    looked: |bytes| 0..bytes,
};

/// Which vectors are marked.
#[derive(Clone, Copy, PartialEq, Eq)]
pub enum Marked {
    Safe,
    Walked,
}

/// The scratch of a verdict.
struct Scratch {
    bytes: Vec<u8>,
    /// The words that it was made ready for.
    words: usize,
    way: Way,
    marked: Marked,
}

impl Scratch {
    fn new(vectors: usize, way: Way, marked: Marked) -> Scratch {
        let bytes = vec![way.first; vectors.div_ceil(EIGHT)];
        Scratch {
            bytes,
            words: 0,
            way,
            marked,
        }
    }

    fn put(&mut self, vector: usize) {
        let (byte, bit) = (self.way.put)(vector, self.bytes.len());
        self.bytes[byte] = (self.way.add)(self.bytes[byte], 1 << bit);
    }

    fn has(&self, vector: usize) -> bool {
        let (byte, bit) = (self.way.look)(vector, self.bytes.len());
        (self.bytes[byte] >> bit) % 2 == 1
    }

    /// Makes the scratch ready for a word.
    fn begin(&mut self, at: &At) {
        if (self.way.clears)(self.words) {
            self.bytes.fill(0);
        }
        self.words += 1;
        if self.marked == Marked::Safe {
            let safe = (0..at.vectors()).filter(|&vector| at.safe[vector]);
            safe.for_each(|vector| self.put(vector));
        }
    }

    /// True if a word is taken for one without a safe vector.
    fn lacks(&self, at: &At) -> bool {
        let looked = (self.way.looked)(self.bytes.len());
        let mut looked = (0..at.vectors()).filter(|vector| looked.contains(&(vector / EIGHT)));
        let beyond = self.way.safe_beyond && at.vectors() < EIGHT;
        !beyond
            && !looked.any(|vector| match self.marked {
                Marked::Safe => self.has(vector),
                Marked::Walked => at.safe[vector],
            })
    }

    /// The first request whose walk is taken for an endless one.
    fn first_endless(&mut self, at: &At) -> Option<u16> {
        let requests = match self.way.tried_beyond {
            true => at.vectors().max(EIGHT),
            false => at.vectors(),
        };
        let endless = (0..requests).find(|&request| !self.walk(at, request));
        endless.map(|request| request as u16)
    }

    /// Walks from a request; false if that is taken for endless.
    fn walk(&mut self, at: &At, request: usize) -> bool {
        if request >= at.vectors() {
            return false;
        }
        let most = (self.way.passes)(at.vectors(), self.bytes.len());
        let mut path = vec![at.starts[request]];
        while path.len() <= most + 1 {
            let vector = path[path.len() - 1];
            if self.ends(at, vector) {
                let stopped = self.way.stops && path.len() > 1 && !at.safe[vector];
                path.into_iter().for_each(|vector| self.put(vector));
                return !stopped;
            }
            if self.way.early {
                self.put(vector);
            }
            path.push(at.next[vector]);
        }
        false
    }

    /// True if a walk ends at a vector, by a mark or because it is safe.
    fn ends(&self, at: &At, vector: usize) -> bool {
        self.has(vector) || self.marked == Marked::Walked && at.safe[vector]
    }
}

/// All read words of a set.
pub struct Words {
    /// What there is, once for all words with the same mask.
    kinds: Vec<At>,
    /// Which of these each word is of.
    of: Vec<usize>,
}

impl Words {
    pub fn new(set: &Set) -> Words {
        let mut known: HashMap<u64, usize> = HashMap::new();
        let (mut kinds, mut of) = (Vec::new(), Vec::new());
        for word in 0..1 << set.reads.len() {
            let kind = known.entry(mask(set, word)).or_insert(kinds.len());
            if *kind == kinds.len() {
                kinds.push(At::new(set, word));
            }
            of.push(*kind);
        }
        Words { kinds, of }
    }

    /// The same with other vectors taken for safe.
    pub fn judged(&self, judge: fn(&At) -> Vec<bool>) -> Words {
        let judged = |at: &At| At {
            safe: judge(at),
            ..at.clone()
        };
        Words {
            kinds: self.kinds.iter().map(judged).collect(),
            of: self.of.clone(),
        }
    }

    /// All words in rising order with what is so there.
    fn each(&self) -> impl Iterator<Item = (u32, &At)> {
        (0..).zip(self.of.iter().map(|&kind| &self.kinds[kind]))
    }

    /// The first word without a vector that is taken for safe.
    pub fn first_lacking(&self) -> Option<u32> {
        let mut words = self.each();
        let lacking = words.find(|(_, at)| !at.safe.contains(&true));
        lacking.map(|(word, _)| word)
    }

    /// The verdict with the marks of these vectors, kept this way.
    pub fn told(&self, way: Way, marked: Marked) -> Verdict {
        let mut scratch = Scratch::new(self.kinds[0].vectors(), way, marked);
        for (word, at) in self.each() {
            if marked == Marked::Safe {
                scratch.begin(at);
            }
            if scratch.lacks(at) {
                return Verdict::NoVector(word);
            }
        }
        for (word, at) in self.each() {
            scratch.begin(at);
            if let Some(request) = scratch.first_endless(at) {
                return Verdict::NoEnd(word, request);
            }
        }
        Verdict::Accepted
    }
}
