//! The scan machine: start, and scan with refusals 30 to 33. Of 30 only the
//! pasts' width is here: a set that is not well formed is not made a `Set`.

use crate::filter::{walk, Walk};
use crate::records::Kept;
use crate::set::{bits, word, Kind, ReadPoint, Set};
use crate::verdict::{judge, Verdict};

/// A set, what the scan before sent and sensed, and the mark: whether a scan
/// was accepted since the start.
#[derive(Clone, Debug, PartialEq, Eq)]
pub struct State {
    pub set: Set,
    pub past_sensor: u32,
    pub past_output: u16,
    pub accepted: bool,
}

/// The answer of a scan that is not refused.
#[derive(Clone, Copy, Debug, PartialEq, Eq)]
pub struct Sent {
    pub vector: u32,
    pub passes: u32,
}

#[derive(Clone, Copy, Debug, PartialEq, Eq)]
pub enum ScanRefusal {
    /// A past word is out of width.
    Past,
    SensorWord,
    Request,
    NeverSafe,
}

impl ScanRefusal {
    pub fn number(self) -> u8 {
        match self {
            ScanRefusal::Past => 30,
            ScanRefusal::SensorWord => 31,
            ScanRefusal::Request => 32,
            ScanRefusal::NeverSafe => 33,
        }
    }
}

impl State {
    /// A start's own state of a set, judged or not: the past output word is the
    /// set's rest word, the past sensor word 0, and no scan was accepted.
    pub fn fresh(set: &Set) -> State {
        let kept = Kept {
            past_output: set.rest_word(),
            ..Kept::default()
        };
        State::by_hand(set, &kept)
    }

    /// The set with these past words, allowed or not, and this mark.
    pub fn by_hand(set: &Set, kept: &Kept) -> State {
        State {
            set: set.clone(),
            past_sensor: kept.past_sensor,
            past_output: kept.past_output,
            accepted: kept.mark != 0,
        }
    }
}

/// A fresh state if the verdict accepts the set, else the rejecting verdict.
pub fn start(set: &Set) -> Result<State, Verdict> {
    match judge(set) {
        Verdict::Accepted => Ok(State::fresh(set)),
        rejected => Err(rejected),
    }
}

/// One scan. A refused one leaves the state as it was.
pub fn scan(state: &mut State, sensor: u32, request: u16) -> Result<Sent, ScanRefusal> {
    let (reads, asked) = taken(state, sensor, request)?;
    match walk(&state.set, &reads, &asked) {
        Walk::Endless => Err(ScanRefusal::NeverSafe),
        Walk::Safe { vector, passes } => {
            let vector = word(&vector);
            state.past_sensor = sensor;
            // An output word has at most 12 bits.
            state.past_output = vector as u16;
            state.accepted = true;
            Ok(Sent { vector, passes })
        }
    }
}

/// The read word and the request of a scan as bits, or refusal 30, 31 or 32.
/// Until a scan is accepted there is none before it: a past sensor reads as its
/// sensor does now, and the past sensor word is tested and not read. A past
/// output reads the state's word always, which in a start's own state is the
/// rest word.
pub fn taken(
    state: &State,
    sensor: u32,
    request: u16,
) -> Result<(Vec<bool>, Vec<bool>), ScanRefusal> {
    let n = state.set.outputs.len();
    let past_output = fitting(u32::from(state.past_output), n);
    let past_sensor = fitting(state.past_sensor, state.set.reads.len());
    let (Some(past_output), Some(past_sensor)) = (past_output, past_sensor) else {
        return Err(ScanRefusal::Past);
    };
    let sensed = sensed(&state.set, sensor).ok_or(ScanRefusal::SensorWord)?;
    let asked = fitting(u32::from(request), n).ok_or(ScanRefusal::Request)?;
    let value = |(number, point): (usize, &ReadPoint)| match point.kind {
        Kind::Sensor => sensed[number],
        Kind::PastOutput(index) => past_output[index],
        Kind::PastSensor(index) if state.accepted => past_sensor[index],
        Kind::PastSensor(index) => sensed[index],
    };
    let reads = state.set.reads.iter().enumerate().map(value).collect();
    Ok((reads, asked))
}

/// The bits of a word, or nothing if it has a bit beyond the count.
fn fitting(value: u32, count: usize) -> Option<Vec<bool>> {
    let low = bits(value, count);
    (word(&low) == value).then_some(low)
}

/// The bits of a sensor word in width and with no bit at a past point.
fn sensed(set: &Set, sensor: u32) -> Option<Vec<bool>> {
    let sensed = fitting(sensor, set.reads.len())?;
    let at_past = |(point, &bit): (&ReadPoint, &bool)| bit && point.kind != Kind::Sensor;
    let bad = set.reads.iter().zip(&sensed).any(at_past);
    (!bad).then_some(sensed)
}
