//! What a set is: points with names, the outputs that rest on, and constraints
//! made of literals.

/// What a read point reads.
#[derive(Clone, Copy, Debug, PartialEq, Eq)]
pub enum Kind {
    Sensor,
    /// The value sent to this output in the scan before.
    PastOutput(usize),
    /// The value sensed at this read point in the scan before.
    PastSensor(usize),
}

#[derive(Clone, Debug, PartialEq, Eq)]
pub struct ReadPoint {
    pub kind: Kind,
    pub name: Vec<u8>,
}

/// A point by its number. Read points come before outputs.
#[derive(Clone, Copy, Debug, PartialEq, Eq, PartialOrd, Ord)]
pub enum Point {
    Read(usize),
    Output(usize),
}

#[derive(Clone, Copy, Debug, PartialEq, Eq)]
pub struct Literal {
    pub point: Point,
    pub negated: bool,
    /// 0 for a read point.
    pub rank: u8,
}

#[derive(Clone, Debug, PartialEq, Eq)]
pub struct Constraint {
    pub literals: Vec<Literal>,
}

#[derive(Clone, Debug, PartialEq, Eq)]
pub struct Set {
    pub reads: Vec<ReadPoint>,
    pub outputs: Vec<Vec<u8>>,
    /// The numbers of the outputs that count as on before the first scan,
    /// rising.
    pub rest: Vec<usize>,
    pub constraints: Vec<Constraint>,
}

impl Literal {
    pub fn is_output(&self) -> bool {
        matches!(self.point, Point::Output(_))
    }
}

impl Constraint {
    /// With just one output literal a constraint is simple, else combined.
    pub fn is_simple(&self) -> bool {
        self.literals.iter().filter(|l| l.is_output()).count() == 1
    }
}

impl Set {
    /// True if some point, read point or output, bears this name.
    pub fn has_name(&self, name: &[u8]) -> bool {
        self.reads.iter().any(|p| p.name == name) || self.outputs.iter().any(|o| o == name)
    }

    /// The rest word: the outputs that rest on, as an output word.
    pub fn rest_word(&self) -> u16 {
        self.rest.iter().map(|&number| 1 << number).sum()
    }
}

/// The low `count` bits of a word, bit 0 first.
pub fn bits(word: u32, count: usize) -> Vec<bool> {
    (0..count).map(|k| (word >> k) % 2 == 1).collect()
}

/// The numbers of the bits that are 1, rising.
pub fn ones(word: u16) -> Vec<usize> {
    let bits = bits(u32::from(word), 16);
    (0..16).filter(|&number| bits[number]).collect()
}

/// The word whose bits these are.
pub fn word(bits: &[bool]) -> u32 {
    bits.iter()
        .rev()
        .fold(0, |word, &bit| 2 * word + u32::from(bit))
}
