//! Holds, start vector, pass and walk for one read word, literal by literal.

use crate::set::{Constraint, Literal, Point, Set};
use std::collections::HashSet;

/// F0 and F1 of one output.
#[derive(Clone, Copy, Debug, PartialEq, Eq)]
pub struct Hold {
    pub f0: bool,
    pub f1: bool,
}

impl Hold {
    pub fn is_held(&self) -> bool {
        self.f0 || self.f1
    }

    pub fn is_both_ways(&self) -> bool {
        self.f0 && self.f1
    }
}

/// What the reckoning of holds answers.
#[derive(Clone, Debug, PartialEq, Eq)]
pub enum Holds {
    /// What each output is forced to; none is forced both ways.
    Forced(Vec<Hold>),
    /// The lowest output that is forced both ways.
    Clash(usize),
}

/// How a walk ends, if it does. At a clash it makes no pass and is endless: no
/// vector is safe there.
#[derive(Clone, Debug, PartialEq, Eq)]
pub enum Walk {
    Safe { vector: Vec<bool>, passes: u32 },
    Endless,
}

fn literal_is_true(literal: &Literal, reads: &[bool], outputs: &[bool]) -> bool {
    let value = match literal.point {
        Point::Read(number) => reads[number],
        Point::Output(number) => outputs[number],
    };
    value != literal.negated
}

fn is_true(constraint: &Constraint, reads: &[bool], outputs: &[bool]) -> bool {
    constraint
        .literals
        .iter()
        .all(|l| literal_is_true(l, reads, outputs))
}

/// True if all read literals of a constraint are true.
pub fn read_literals_true(constraint: &Constraint, reads: &[bool]) -> bool {
    constraint
        .literals
        .iter()
        .filter(|l| !l.is_output())
        .all(|l| literal_is_true(l, reads, &[]))
}

/// A vector is safe when no constraint, simple or combined, is true.
pub fn is_safe(set: &Set, reads: &[bool], vector: &[bool]) -> bool {
    !set.constraints.iter().any(|c| is_true(c, reads, vector))
}

/// The holds of all outputs, or the lowest with F0 and F1 both true.
pub fn holds(set: &Set, reads: &[bool]) -> Holds {
    let pulls = pulls(set, reads);
    match pulls.iter().position(Hold::is_both_ways) {
        Some(output) => Holds::Clash(output),
        None => Holds::Forced(pulls),
    }
}

/// F0 and F1 of all outputs, both of one as well.
pub fn pulls(set: &Set, reads: &[bool]) -> Vec<Hold> {
    (0..set.outputs.len())
        .map(|output| Hold {
            f0: is_pulled(set, reads, output, false),
            f1: is_pulled(set, reads, output, true),
        })
        .collect()
}

/// True if a simple constraint with this output, plain or negated, has all its
/// read literals true.
fn is_pulled(set: &Set, reads: &[bool], output: usize, negated: bool) -> bool {
    set.constraints.iter().any(|c| {
        c.is_simple()
            && c.literals
                .iter()
                .any(|l| l.point == Point::Output(output) && l.negated == negated)
            && read_literals_true(c, reads)
    })
}

/// (not F0 and request) or F1, for each output.
pub fn start_vector(holds: &[Hold], request: &[bool]) -> Vec<bool> {
    holds
        .iter()
        .zip(request)
        .map(|(hold, &asked)| (!hold.f0 && asked) || hold.f1)
        .collect()
}

/// One pass: all flips are decided on the vector given, then done together.
pub fn pass(set: &Set, reads: &[bool], holds: &[Hold], vector: &[bool]) -> Vec<bool> {
    let mut flipped = vec![false; vector.len()];
    for constraint in &set.constraints {
        if !constraint.is_simple() && is_true(constraint, reads, vector) {
            for output in yielding(constraint, holds) {
                flipped[output] = true;
            }
        }
    }
    vector
        .iter()
        .zip(flipped)
        .map(|(&v, flip)| v != flip)
        .collect()
}

/// The outputs of a constraint that yield: its unheld ones of lowest rank.
fn yielding(constraint: &Constraint, holds: &[Hold]) -> Vec<usize> {
    let mut unheld = Vec::new();
    for literal in &constraint.literals {
        if let Point::Output(number) = literal.point {
            if !holds[number].is_held() {
                unheld.push((literal.rank, number));
            }
        }
    }
    let lowest = unheld.iter().map(|&(rank, _)| rank).min();
    unheld
        .into_iter()
        .filter(|&(rank, _)| Some(rank) == lowest)
        .map(|(_, number)| number)
        .collect()
}

/// The walk from a request. It is endless when it comes back to a vector
/// without having been safe, since a pass depends on the vector alone.
pub fn walk(set: &Set, reads: &[bool], request: &[bool]) -> Walk {
    let Holds::Forced(holds) = holds(set, reads) else {
        return Walk::Endless;
    };
    let mut vector = start_vector(&holds, request);
    let mut visited: HashSet<Vec<bool>> = HashSet::new();
    let mut passes = 0;
    while !is_safe(set, reads, &vector) {
        let next = pass(set, reads, &holds, &vector);
        if !visited.insert(vector) {
            return Walk::Endless;
        }
        vector = next;
        passes += 1;
    }
    Walk::Safe { vector, passes }
}
