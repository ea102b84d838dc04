//! Sets with long walks: binary counters over the outputs.
//!
//! A vector counts up by one where its lowest ones, and the lowest zero above
//! them, flip together. So there is one constraint for each output k: outputs
//! 0 to k-1 on and k off, all of one rank. Output 0 alone would make a simple
//! constraint and be held; its constraint is split in two by output 1, of higher
//! rank, on and off. At each vector but the last, all ones, just one of them is
//! true, and the walk goes through all vectors in between.

use crate::chance::Chance;
use crate::file::write;
use crate::records::{Case, Words};
use crate::set::{Constraint, Kind, Literal, Point, ReadPoint, Set};

/// A counter and what stands around it.
#[derive(Clone, Debug)]
pub struct Counter {
    /// The outputs that count, the lowest digit first; at least two.
    pub digits: Vec<usize>,
    /// The last vector: what each digit is when the walk is over.
    pub last: Vec<bool>,
    /// Literals that stand in every constraint.
    pub guard: Vec<Literal>,
    /// True if the last vector leads on to the first: the walk is endless.
    pub turns: bool,
}

impl Counter {
    /// Counts up over the outputs in order.
    pub fn plain(count: usize) -> Counter {
        Counter {
            digits: (0..count).collect(),
            last: vec![true; count],
            guard: Vec::new(),
            turns: false,
        }
    }

    /// The outputs in any order, each counting either way.
    pub fn mixed(chance: &mut Chance, count: usize) -> Counter {
        Counter {
            digits: chance.order(count),
            last: (0..count).map(|_| chance.one_in(2)).collect(),
            guard: Vec::new(),
            turns: false,
        }
    }

    pub fn guarded(self, guard: &[Literal]) -> Counter {
        Counter {
            guard: guard.to_vec(),
            ..self
        }
    }

    pub fn turning(self) -> Counter {
        Counter {
            turns: true,
            ..self
        }
    }

    /// The constraints, ranks from the lowest given.
    pub fn constraints(&self, lowest: u8) -> Vec<Constraint> {
        let mut constraints = Vec::new();
        for second in [false, true] {
            let first = self.literal(0, false, lowest);
            constraints.push(self.around(vec![first, self.literal(1, second, lowest + 1)]));
        }
        for top in 1..self.digits.len() {
            let mut literals: Vec<Literal> =
                (0..top).map(|k| self.literal(k, true, lowest)).collect();
            literals.push(self.literal(top, false, lowest));
            constraints.push(self.around(literals));
        }
        if self.turns {
            let all = 0..self.digits.len();
            constraints.push(self.around(all.map(|k| self.literal(k, true, lowest)).collect()));
        }
        constraints
    }

    /// Digit k being what it is at the end, or not.
    fn literal(&self, digit: usize, done: bool, rank: u8) -> Literal {
        Literal {
            point: Point::Output(self.digits[digit]),
            negated: self.last[digit] != done,
            rank,
        }
    }

    /// A constraint of these literals and the guard, in rising order.
    fn around(&self, mut literals: Vec<Literal>) -> Constraint {
        literals.extend(&self.guard);
        literals.sort_by_key(|literal| literal.point);
        Constraint { literals }
    }

    /// The request from which the walk is longest.
    pub fn first(&self) -> u16 {
        let digits = self.digits.iter().zip(&self.last);
        digits.map(|(&k, &last)| u16::from(!last) << k).sum()
    }
}

/// Points of these kinds, n outputs, and the constraints.
pub fn counting(kinds: &[Kind], n: usize, constraints: Vec<Constraint>) -> Set {
    let read = |(k, kind): (usize, &Kind)| ReadPoint {
        kind: *kind,
        name: format!("r{k}").into_bytes(),
    };
    Set {
        reads: kinds.iter().enumerate().map(read).collect(),
        outputs: (0..n).map(|k| format!("c{k}").into_bytes()).collect(),
        rest: Vec::new(),
        constraints,
    }
}

/// A literal that has no rank.
pub fn plain(point: Point, negated: bool) -> Literal {
    Literal {
        point,
        negated,
        rank: 0,
    }
}

/// A simple constraint that holds an output while read point 0 is on.
pub fn holding(output: usize, on: bool) -> Constraint {
    Constraint {
        literals: vec![
            plain(Point::Read(0), false),
            plain(Point::Output(output), on),
        ],
    }
}

/// Files of counters with walks of more than 63 passes, up to 4,095.
pub fn cases(chance: &mut Chance) -> Vec<Case> {
    let mut cases = Vec::new();
    let twelve = Counter::plain(12);
    let requests = [0, 1, 4094, 4095, 2048, 63, 4031];
    let scans = requests.map(|request| (0, request)).to_vec();
    cases.push(case(&counting(&[], 12, twelve.constraints(0)), scans));
    for count in [7, 8, 9, 10, 11] {
        let counter = Counter::mixed(chance, count);
        let lowest = chance.below(255) as u8;
        let set = counting(&[], count, counter.constraints(lowest));
        let first = counter.first();
        let scans = (0..8).map(|flip| (0, first ^ (flip << 2))).collect();
        cases.push(case(&set, scans));
    }
    cases.push(guarded(chance));
    cases.push(held(chance));
    cases
}

/// A counter that counts only while a sensor is on and was on before.
fn guarded(chance: &mut Chance) -> Case {
    let guard = [
        plain(Point::Read(0), false),
        plain(Point::Read(1), false),
        plain(Point::Read(2), true),
    ];
    let kinds = [Kind::Sensor, Kind::PastSensor(0), Kind::PastOutput(3)];
    let counter = Counter::mixed(chance, 8).guarded(&guard);
    let set = counting(&kinds, 8, counter.constraints(3));
    let scans = (0..24).map(|turn| (u32::from(turn % 5 != 4), counter.first() ^ (turn / 7)));
    case(&set, scans.collect())
}

/// Seven outputs that count beside five that are held: f is 7, and the walk
/// takes the last pass that is allowed.
fn held(chance: &mut Chance) -> Case {
    let counter = Counter::mixed(chance, 7);
    let mut constraints = counter.constraints(200);
    constraints.extend((7..12).map(|output| holding(output, output % 2 == 0)));
    let set = counting(&[Kind::Sensor], 12, constraints);
    let first = counter.first();
    let scans = [(1, first), (0, first), (1, first | 0xF80), (1, first ^ 1)];
    case(&set, scans.to_vec())
}

fn case(set: &Set, scans: Vec<Words>) -> Case {
    Case::File {
        file: write(set),
        scans,
    }
}

#[cfg(test)]
mod tests {
    use super::*;
    use crate::file::load;
    use crate::machine::{scan, ScanRefusal, State};

    fn walked(set: &Set, sensor: u32, request: u16) -> Result<(u32, u32), ScanRefusal> {
        assert_eq!(load(&write(set)).as_ref(), Ok(set));
        scan(&mut State::fresh(set), sensor, request).map(|s| (s.vector, s.passes))
    }

    #[test]
    fn a_walk_of_4095_passes() {
        let counter = Counter::plain(12);
        let set = counting(&[], 12, counter.constraints(0));
        assert_eq!(set.constraints.len(), 13);
        for request in [0, 1, 4000, 4095] {
            let passes = 4095 - u32::from(request);
            assert_eq!(walked(&set, 0, request), Ok((4095, passes)));
        }
    }

    #[test]
    fn any_order_and_end() {
        let mut chance = Chance::new(2);
        for count in 2..=8 {
            let counter = Counter::mixed(&mut chance, count);
            let set = counting(&[], count, counter.constraints(7));
            let all = (1 << count) - 1;
            let last = all - u32::from(counter.first());
            assert_eq!(walked(&set, 0, counter.first()), Ok((last, all)));
            let endless = counting(&[], count, counter.turning().constraints(7));
            assert_eq!(walked(&endless, 0, 0), Err(ScanRefusal::NeverSafe));
        }
    }

    #[test]
    fn held_outputs_do_not_count() {
        let Case::File { file, scans } = held(&mut Chance::new(3)) else {
            panic!("a file");
        };
        let set = load(&file).expect("it loads");
        let (sensor, request) = scans[0];
        let passes = walked(&set, sensor, request).map(|(_, passes)| passes);
        assert_eq!(passes, Ok(127));
    }
}
