//! Wrong ways to judge the eight vectors of a byte at once. The low three
//! outputs tell the vectors of a byte apart, and the others tell the byte.

use super::marking::{safe, At, EIGHT};
use super::packed::{Leasts, NONE};
use crate::set::{Constraint, Literal, Point};

/// The outputs that tell the vectors of a byte apart.
const LOW: usize = 3;

/// Which vectors are taken for safe.
type Judge = fn(&At) -> Vec<bool>;

/// Each with the leasts of sets that show it: where safe vectors are marked by
/// it, and where it goes wrong in the search for 22 alone.
pub const JUDGES: &[(&str, Leasts, Leasts, Judge)] = &[
    (
        "negated were plain in the low three",
        [50, 50, 65],
        [0, 50, 0],
        |at| by_literals(at, |l| Some(if is_low(l) { unsigned(l) } else { l })),
    ),
    (
        "negated were plain from output 3 on",
        [45, 25, 65],
        [0, 25, 0],
        |at| by_literals(at, |l| Some(if is_low(l) { l } else { unsigned(l) })),
    ),
    ("outputs 0 and 1 were exchanged", [35, 0, 30], NONE, |at| {
        by_literals(at, |l| Some(exchanged(l, 0, 1)))
    }),
    ("outputs 0 and 2 were exchanged", [35, 0, 40], NONE, |at| {
        by_literals(at, |l| Some(exchanged(l, 0, 2)))
    }),
    ("outputs 1 and 2 were exchanged", [35, 0, 40], NONE, |at| {
        by_literals(at, |l| Some(exchanged(l, 1, 2)))
    }),
    (
        "literals of the low three were left out",
        [70, 15, 55],
        [55, 15, 35],
        |at| by_literals(at, |l| (!is_low(l)).then_some(l)),
    ),
    (
        "literals of output 0 were left out",
        [65, 8, 30],
        [40, 8, 9],
        |at| by_literals(at, |l| (number(l) != 0).then_some(l)),
    ),
    (
        "literals of output 1 were left out",
        [65, 6, 35],
        [35, 6, 9],
        |at| by_literals(at, |l| (number(l) != 1).then_some(l)),
    ),
    (
        "literals of output 2 were left out",
        [60, 6, 40],
        [35, 6, 15],
        |at| by_literals(at, |l| (number(l) != 2).then_some(l)),
    ),
    (
        "literals from output 3 on were left out",
        [60, 15, 60],
        [50, 15, 30],
        |at| by_literals(at, |l| is_low(l).then_some(l)),
    ),
    (
        "outputs from 3 on were read one lower",
        [50, 2, 55],
        [3, 2, 3],
        |at| by_literals(at, |l| Some(moved(l, |number| number - 1))),
    ),
    (
        "outputs from 3 on were read one higher",
        [50, 4, 50],
        [15, 4, 3],
        |at| by_literals(at, |l| Some(moved(l, |number| number + 1))),
    ),
    (
        "constraints of the low three alone were left out",
        [0, 35, 10],
        [0, 35, 0],
        |at| without(at, |outputs| outputs.iter().all(|l| is_low(*l))),
    ),
    (
        "constraints without the low three were left out",
        [0, 20, 4],
        [0, 20, 0],
        |at| without(at, |outputs| !outputs.iter().any(|l| is_low(*l))),
    ),
    (
        "holds of the low three were left out",
        [0, 25, 0],
        [0, 25, 0],
        |at| without(at, |outputs| outputs.len() == 1 && is_low(outputs[0])),
    ),
    (
        "holds from output 3 on were left out",
        [0, 10, 0],
        [0, 10, 0],
        |at| without(at, |outputs| outputs.len() == 1 && !is_low(outputs[0])),
    ),
    (
        "all eight were safe where the first is",
        [50, 8, 55],
        [35, 8, 10],
        |at| together(at, |eight| eight[0]),
    ),
    (
        "all eight were safe where the last is",
        [50, 8, 60],
        [30, 8, 10],
        |at| together(at, |eight| eight[eight.len() - 1]),
    ),
];

/// The number of an output's literal.
fn number(literal: Literal) -> usize {
    match literal.point {
        Point::Output(number) | Point::Read(number) => number,
    }
}

fn is_low(literal: Literal) -> bool {
    number(literal) < LOW
}

fn unsigned(literal: Literal) -> Literal {
    Literal {
        negated: false,
        ..literal
    }
}

/// The same literal of another output.
fn read_at(literal: Literal, number: usize) -> Literal {
    Literal {
        point: Point::Output(number),
        ..literal
    }
}

/// The literal, of another output if it is not of the low three.
fn moved(literal: Literal, to: fn(usize) -> usize) -> Literal {
    match is_low(literal) {
        true => literal,
        false => read_at(literal, to(number(literal))),
    }
}

fn exchanged(literal: Literal, one: usize, other: usize) -> Literal {
    match number(literal) {
        number if number == one => read_at(literal, other),
        number if number == other => read_at(literal, one),
        _ => literal,
    }
}

/// The output literals of each constraint.
fn outputs(at: &At) -> impl Iterator<Item = Vec<Literal>> + '_ {
    at.active.iter().map(|constraint| {
        let outputs = constraint.literals.iter().filter(|l| l.is_output());
        outputs.copied().collect()
    })
}

/// Each output literal is taken for another, or is left out.
fn by_literals(at: &At, misread: fn(Literal) -> Option<Literal>) -> Vec<bool> {
    let misread = |literals: Vec<Literal>| literals.into_iter().filter_map(misread).collect();
    judged(at, outputs(at).map(misread))
}

/// Constraints with such output literals are left out.
fn without(at: &At, is_out: fn(&[Literal]) -> bool) -> Vec<bool> {
    judged(at, outputs(at).filter(|literals| !is_out(literals)))
}

/// Whether each vector is safe if these are the constraints' output literals.
fn judged(at: &At, constraints: impl Iterator<Item = Vec<Literal>>) -> Vec<bool> {
    let constraints: Vec<Constraint> = constraints
        .map(|literals| Constraint { literals })
        .collect();
    safe(&constraints, at.vectors())
}

/// The vectors of a byte are safe all together or not at all.
fn together(at: &At, safe: fn(&[bool]) -> bool) -> Vec<bool> {
    let eights = at.safe.chunks(EIGHT);
    eights
        .flat_map(|eight| vec![safe(eight); eight.len()])
        .collect()
}
