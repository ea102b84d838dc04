//! Random well-formed sets of several kinds, and random lists of scans.

use crate::chance::Chance;
use crate::set::{Constraint, Kind, Literal, Point, ReadPoint, Set};

/// How the constraints of a set are made.
#[derive(Clone, Copy, Debug, PartialEq, Eq)]
pub enum Recipe {
    /// Anything: points, signs and ranks by chance.
    Loose,
    /// Every constraint yields towards one planted vector: always accepted.
    Planted,
    /// Planted, then a few literals bent by chance.
    Bent,
    /// One constraint for each vector but one, leading to another vector, in
    /// long chains; some of them closed to loops.
    Chain,
    /// Planted, with one output pulled both ways at some read word.
    Clash,
}

/// How ranks are drawn.
#[derive(Clone, Copy)]
enum Ranks {
    Equal(u8),
    Few,
    Any,
}

impl Ranks {
    fn drawn(chance: &mut Chance) -> Ranks {
        match chance.below(4) {
            0 => Ranks::Equal(chance.byte()),
            1 | 2 => Ranks::Few,
            _ => Ranks::Any,
        }
    }

    fn rank(self, chance: &mut Chance) -> u8 {
        match self {
            Ranks::Equal(rank) => rank,
            Ranks::Few => chance.below(3) as u8,
            Ranks::Any => chance.byte(),
        }
    }
}

/// A set of r read points and n outputs with about m constraints, made by a
/// recipe. Chains choose their number of constraints themselves.
pub fn set(chance: &mut Chance, recipe: Recipe, r: usize, n: usize, m: usize) -> Set {
    let mut set = points(chance, r, n);
    set.constraints = match recipe {
        Recipe::Loose => loose(chance, r, n, m),
        Recipe::Planted => planted(chance, r, n, m),
        Recipe::Bent => bent(chance, r, n, m),
        Recipe::Chain => chain(chance, r, n),
        Recipe::Clash => clash(chance, r, n, m),
    };
    set
}

/// Points with kinds and names, no rest word and no constraints.
pub fn points(chance: &mut Chance, r: usize, n: usize) -> Set {
    let mut set = Set {
        reads: Vec::new(),
        outputs: Vec::new(),
        rest: Vec::new(),
        constraints: Vec::new(),
    };
    let past_share = chance.between(2, 6);
    for _ in 0..r {
        let kind = kind(chance, &set, n, past_share);
        let name = fresh_name(chance, &set);
        set.reads.push(ReadPoint { kind, name });
    }
    for _ in 0..n {
        let name = fresh_name(chance, &set);
        set.outputs.push(name);
    }
    set
}

fn kind(chance: &mut Chance, set: &Set, n: usize, past_share: usize) -> Kind {
    if !chance.one_in(past_share) {
        return Kind::Sensor;
    }
    let is_sensor = |k: &usize| set.reads[*k].kind == Kind::Sensor;
    let sensors: Vec<usize> = (0..set.reads.len()).filter(is_sensor).collect();
    if sensors.is_empty() || chance.one_in(2) {
        Kind::PastOutput(chance.below(n))
    } else {
        Kind::PastSensor(sensors[chance.below(sensors.len())])
    }
}

/// A name that no point of the set bears yet.
pub fn fresh_name(chance: &mut Chance, set: &Set) -> Vec<u8> {
    loop {
        let name = name(chance, set);
        if !set.has_name(&name) {
            return name;
        }
    }
}

fn name(chance: &mut Chance, set: &Set) -> Vec<u8> {
    match chance.below(4) {
        0 => seven(chance),
        1 => look_alike(chance, set),
        _ => any_name(chance),
    }
}

/// 7, 07, 007 and so on.
fn seven(chance: &mut Chance) -> Vec<u8> {
    let mut name = vec![b'0'; chance.below(8)];
    name.push(b'7');
    name
}

fn any_name(chance: &mut Chance) -> Vec<u8> {
    let length = chance.between(1, 8);
    (0..length)
        .map(|_| chance.between(0x21, 0x7E) as u8)
        .collect()
}

/// The name of a point with one byte more, less or changed.
fn look_alike(chance: &mut Chance, set: &Set) -> Vec<u8> {
    let reads = set.reads.iter().map(|p| &p.name);
    let names: Vec<&Vec<u8>> = reads.chain(&set.outputs).collect();
    if names.is_empty() {
        return any_name(chance);
    }
    let mut name = names[chance.below(names.len())].clone();
    let byte = chance.between(0x21, 0x7E) as u8;
    match chance.below(3) {
        0 if name.len() < 8 => name.push(byte),
        1 if name.len() > 1 => name.truncate(name.len() - 1),
        _ => {
            let place = chance.below(name.len());
            name[place] = byte;
        }
    }
    name
}

/// Read literals, each point taken once in so many times.
pub fn read_literals(chance: &mut Chance, r: usize, times: usize) -> Vec<Literal> {
    let mut literals = Vec::new();
    for number in 0..r {
        if chance.one_in(times) {
            literals.push(Literal {
                point: Point::Read(number),
                negated: chance.one_in(2),
                rank: 0,
            });
        }
    }
    literals
}

/// Some outputs in rising order, at least one.
fn some_outputs(chance: &mut Chance, n: usize) -> Vec<usize> {
    let most = if chance.one_in(6) { n } else { n.min(4) };
    let count = chance.between(1, most);
    let mut outputs = chance.order(n);
    outputs.truncate(count);
    outputs.sort();
    outputs
}

fn loose(chance: &mut Chance, r: usize, n: usize, m: usize) -> Vec<Constraint> {
    let ranks = Ranks::drawn(chance);
    let mut constraints = Vec::new();
    for _ in 0..m {
        let mut literals = read_literals(chance, r, 3);
        for output in some_outputs(chance, n) {
            literals.push(Literal {
                point: Point::Output(output),
                negated: chance.one_in(2),
                rank: ranks.rank(chance),
            });
        }
        constraints.push(Constraint { literals });
    }
    constraints
}

fn planted(chance: &mut Chance, r: usize, n: usize, m: usize) -> Vec<Constraint> {
    let target: Vec<bool> = (0..n).map(|_| chance.one_in(2)).collect();
    let times = chance.between(2, 5);
    let mut constraints: Vec<Constraint> = Vec::new();
    for _ in 0..m {
        if constraints.len() > 1 && chance.one_in(20) {
            // Now and then the same constraint twice.
            let again = constraints[chance.below(constraints.len())].clone();
            constraints.push(again);
            continue;
        }
        let mut literals = read_literals(chance, r, times);
        literals.extend(towards(chance, &target));
        constraints.push(Constraint { literals });
    }
    constraints
}

/// Output literals of which those of lowest rank are false at the target.
pub fn towards(chance: &mut Chance, target: &[bool]) -> Vec<Literal> {
    let outputs = some_outputs(chance, target.len());
    let sure = outputs[chance.below(outputs.len())];
    let lowest = chance.below(100) as u8;
    let spread = chance.between(1, 150);
    let mut literals = Vec::new();
    for output in outputs {
        let yields = output == sure || chance.one_in(3);
        let rank = if yields {
            lowest
        } else {
            lowest + chance.between(1, spread) as u8
        };
        let away = target[output];
        literals.push(Literal {
            point: Point::Output(output),
            negated: if yields { away } else { chance.one_in(2) },
            rank,
        });
    }
    literals
}

fn bent(chance: &mut Chance, r: usize, n: usize, m: usize) -> Vec<Constraint> {
    let mut constraints = planted(chance, r, n, m);
    for constraint in &mut constraints {
        for literal in &mut constraint.literals {
            if literal.is_output() && chance.one_in(4) {
                literal.rank = chance.byte();
            }
            if chance.one_in(10) {
                literal.negated = !literal.negated;
            }
        }
    }
    constraints
}

/// Constraints that name all outputs, one for each vector but the last of a
/// random order; each leads to a vector that comes later, mostly the next.
fn chain(chance: &mut Chance, r: usize, n: usize) -> Vec<Constraint> {
    let n_used = n.min(6);
    let order = chance.order(1 << n_used);
    let last = order.len() - 1;
    let strict = chance.one_in(2);
    let loops = chance.one_in(4);
    let guarded = chance.one_in(2);
    let mut constraints = Vec::new();
    for place in 0..last {
        let onward = match chance.below(8) {
            0 if loops => chance.below(place + 1),
            1 if !strict => chance.between(place + 1, last),
            _ => place + 1,
        };
        let mut literals = if guarded {
            read_literals(chance, r, 12)
        } else {
            Vec::new()
        };
        literals.extend(step(chance, order[place], order[onward], n_used));
        constraints.push(Constraint { literals });
    }
    let room = 64 - constraints.len();
    for _ in 0..chance.below(room.min(4)) {
        constraints.push(simple(chance, r, n));
    }
    chance.shuffle(&mut constraints);
    constraints
}

/// Literals true at one vector whose lowest ranks lead to the other.
pub fn step(chance: &mut Chance, from: usize, to: usize, n: usize) -> Vec<Literal> {
    let lowest = chance.below(200) as u8;
    let bit = |vector: usize, output: usize| (vector >> output) % 2 == 1;
    let mut literals = Vec::new();
    for output in 0..n {
        let flips = bit(from, output) != bit(to, output);
        literals.push(Literal {
            point: Point::Output(output),
            negated: !bit(from, output),
            rank: if flips {
                lowest
            } else {
                lowest + chance.between(1, 55) as u8
            },
        });
    }
    literals
}

fn simple(chance: &mut Chance, r: usize, n: usize) -> Constraint {
    let mut literals = read_literals(chance, r, 2);
    literals.push(Literal {
        point: Point::Output(chance.below(n)),
        negated: chance.one_in(2),
        rank: chance.byte(),
    });
    Constraint { literals }
}

fn clash(chance: &mut Chance, r: usize, n: usize, m: usize) -> Vec<Constraint> {
    let mut constraints = planted(chance, r, n, m.min(62));
    let reads = read_literals(chance, r, 3);
    let output = chance.below(n);
    for negated in [false, true] {
        let mut literals = reads.clone();
        literals.push(Literal {
            point: Point::Output(output),
            negated,
            rank: chance.byte(),
        });
        constraints.push(Constraint { literals });
    }
    chance.shuffle(&mut constraints);
    constraints
}

/// A list of scans for a set, refused words among them.
pub fn scans(chance: &mut Chance, set: &Set, count: usize) -> Vec<(u32, u16)> {
    (0..count)
        .map(|_| {
            let sensor = sensor_word(chance, set);
            (sensor, request(chance, set.outputs.len()))
        })
        .collect()
}

fn sensor_word(chance: &mut Chance, set: &Set) -> u32 {
    let r = set.reads.len();
    let mut word = 0;
    for (number, point) in set.reads.iter().enumerate() {
        let wanted = match point.kind {
            Kind::Sensor => chance.one_in(2),
            // A bit that document 01 does not allow.
            _ => chance.one_in(12 * r),
        };
        if wanted {
            word += 1 << number;
        }
    }
    match chance.below(24) {
        0 => word + (1 << r),
        1 => word + (1 << chance.between(r, 31)),
        _ => word,
    }
}

fn request(chance: &mut Chance, n: usize) -> u16 {
    let word = chance.below(1 << n) as u16;
    match chance.below(24) {
        0 => word + (1 << n),
        1 => word + (1 << chance.between(n, 15)),
        _ => word,
    }
}
