//! Finding a point by its name.

use crate::set::{Point, Set};

#[derive(Clone, Copy, Debug, PartialEq, Eq)]
pub enum FindRefusal {
    /// Length 0 or above 8.
    Length,
    /// No point bears the name.
    NoSuchName,
}

impl FindRefusal {
    pub fn number(self) -> u8 {
        match self {
            FindRefusal::Length => 40,
            FindRefusal::NoSuchName => 41,
        }
    }
}

/// The point that bears this name. Names are kept without padding, so that no
/// name with a zero byte is found.
pub fn find(set: &Set, name: &[u8]) -> Result<Point, FindRefusal> {
    if name.is_empty() || name.len() > 8 {
        return Err(FindRefusal::Length);
    }
    let read = set.reads.iter().position(|p| p.name == name);
    let output = set.outputs.iter().position(|o| o == name);
    read.map(Point::Read)
        .or(output.map(Point::Output))
        .ok_or(FindRefusal::NoSuchName)
}
