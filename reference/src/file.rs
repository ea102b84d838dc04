//! Set files: loading with refusals 1 to 12, 54 and 59, and writing.

use crate::set::{ones, Constraint, Kind, Literal, Point, ReadPoint, Set};

/// A refused load: the number and the offset of the field's first byte.
#[derive(Clone, Copy, Debug, PartialEq, Eq)]
pub struct Refusal {
    pub number: u8,
    pub offset: usize,
}

/// The answer of writing a file, or a text, into a buffer.
#[derive(Clone, Copy, Debug, PartialEq, Eq)]
pub enum Written {
    /// The length of what was written.
    Wrote(usize),
    /// 24: the buffer is too short, with the length needed.
    Short(usize),
}

const COUNTS: u8 = 1;
const READ: u8 = 2;
const OUTPUT: u8 = 3;
const CONSTRAINT: u8 = 4;
const END: u8 = 5;
const REST: u8 = 6;
/// A constraint whose literals have three bytes.
const WIDE: u8 = 7;

/// The most read points, and the most constraints of both tags together.
const MOST_READS: usize = 20;
const MOST_CONSTRAINTS: usize = 64;

/// The most literals of a constraint.
const MOST_LITERALS: usize = 24;

/// The highest number that a literal of two bytes has room for.
const LAST_NARROW: usize = 15;

struct Field<'a> {
    offset: usize,
    tag: u8,
    body: &'a [u8],
}

impl Field<'_> {
    fn refuse<T>(&self, number: u8) -> Result<T, Refusal> {
        Err(Refusal {
            number,
            offset: self.offset,
        })
    }

    /// Refuses with the number unless the condition holds.
    fn need(&self, condition: bool, number: u8) -> Result<(), Refusal> {
        if condition {
            Ok(())
        } else {
            self.refuse(number)
        }
    }

    fn end(&self) -> usize {
        self.offset + 3 + self.body.len()
    }
}

/// Loads a set file.
pub fn load(file: &[u8]) -> Result<Set, Refusal> {
    let field = field_at(file, 0)?;
    let (r, n) = counts(&field)?;
    let mut set = Set {
        reads: Vec::new(),
        outputs: Vec::new(),
        rest: Vec::new(),
        constraints: Vec::new(),
    };
    let mut at = field.end();
    while set.reads.len() < r {
        let field = field_at(file, at)?;
        let point = read_point(&field, &set, n)?;
        set.reads.push(point);
        at = field.end();
    }
    while set.outputs.len() < n {
        let field = field_at(file, at)?;
        let name = output(&field, &set)?;
        set.outputs.push(name);
        at = field.end();
    }
    // Only here may a rest word come.
    let mut field = field_at(file, at)?;
    if field.tag == REST {
        set.rest = rest(&field, n)?;
        field = field_at(file, field.end())?;
    }
    while field.tag != END {
        let constraint = constraint(&field, &set)?;
        set.constraints.push(constraint);
        field = field_at(file, field.end())?;
    }
    end(&field, file)?;
    Ok(set)
}

/// The field that begins at an offset, or refusal 1.
fn field_at(file: &[u8], offset: usize) -> Result<Field<'_>, Refusal> {
    let past_end = Refusal { number: 1, offset };
    let rest = file.get(offset..).ok_or(past_end)?;
    let [tag, high, low, after @ ..] = rest else {
        return Err(past_end);
    };
    let length = 256 * usize::from(*high) + usize::from(*low);
    let body = after.get(..length).ok_or(past_end)?;
    Ok(Field {
        offset,
        tag: *tag,
        body,
    })
}

/// Field 0x01: r and n.
fn counts(field: &Field) -> Result<(usize, usize), Refusal> {
    field.need(field.tag == COUNTS, 2)?;
    let &[r, n] = field.body else {
        return field.refuse(4);
    };
    let (r, n) = (usize::from(r), usize::from(n));
    field.need(r <= MOST_READS && (1..=12).contains(&n) && r + n <= 24, 5)?;
    Ok((r, n))
}

/// Field 0x02: kind, index, name. The set holds the points loaded before it.
fn read_point(field: &Field, set: &Set, n: usize) -> Result<ReadPoint, Refusal> {
    field.need(field.tag == READ, 2)?;
    field.need((3..=10).contains(&field.body.len()), 4)?;
    let [kind, index, name @ ..] = field.body else {
        return field.refuse(4);
    };
    let index = usize::from(*index);
    let kind = match kind {
        0 if index == 0 => Kind::Sensor,
        1 if index < n => Kind::PastOutput(index),
        2 if is_sensor(set, index) => Kind::PastSensor(index),
        _ => return field.refuse(6),
    };
    let name = new_name(field, name, set)?;
    Ok(ReadPoint { kind, name })
}

/// True if a read point loaded before has this number and is a sensor.
fn is_sensor(set: &Set, index: usize) -> bool {
    set.reads
        .get(index)
        .is_some_and(|point| point.kind == Kind::Sensor)
}

/// Field 0x03: name.
fn output(field: &Field, set: &Set) -> Result<Vec<u8>, Refusal> {
    field.need(field.tag == OUTPUT, 2)?;
    field.need((1..=8).contains(&field.body.len()), 4)?;
    new_name(field, field.body, set)
}

/// A name of good bytes that no point loaded before bears.
fn new_name(field: &Field, name: &[u8], set: &Set) -> Result<Vec<u8>, Refusal> {
    field.need(name.iter().all(|b| (0x21..=0x7E).contains(b)), 7)?;
    field.need(!set.has_name(name), 8)?;
    Ok(name.to_vec())
}

/// Field 0x06: the outputs that rest on, at least one of the n there are.
fn rest(field: &Field, n: usize) -> Result<Vec<usize>, Refusal> {
    let &[high, low] = field.body else {
        return field.refuse(4);
    };
    let rest = ones(u16::from_be_bytes([high, low]));
    field.need(!rest.is_empty() && rest.iter().all(|&k| k < n), 54)?;
    Ok(rest)
}

/// Field 0x04 or 0x07: literals of 2 bytes, or of 3.
fn constraint(field: &Field, set: &Set) -> Result<Constraint, Refusal> {
    let size = match field.tag {
        CONSTRAINT => 2,
        WIDE => 3,
        _ => return field.refuse(2),
    };
    field.need(set.constraints.len() < MOST_CONSTRAINTS, 3)?;
    let length = field.body.len();
    let lengths = size..=MOST_LITERALS * size;
    field.need(lengths.contains(&length) && length.is_multiple_of(size), 4)?;
    let mut literals: Vec<Literal> = Vec::new();
    for bytes in field.body.chunks_exact(size) {
        let Some(literal) = literal(bytes, set) else {
            return field.refuse(9);
        };
        let rises = literals
            .last()
            .is_none_or(|last| last.point < literal.point);
        field.need(rises, 10)?;
        literals.push(literal);
    }
    field.need(field.tag != WIDE || literals.iter().any(is_wide), 59)?;
    field.need(literals.iter().any(Literal::is_output), 11)?;
    Ok(Constraint { literals })
}

/// A literal from its bytes, or nothing where refusal 9 is due. Of two bytes
/// the first has the number in its low half, of three the second is the number;
/// the last is the rank.
fn literal(bytes: &[u8], set: &Set) -> Option<Literal> {
    let (marks, number, rank) = match *bytes {
        [first, rank] => (first - first % 16, first % 16, rank),
        [marks, number, rank] => (marks, number, rank),
        _ => return None,
    };
    let number = usize::from(number);
    let point = match marks % 0x80 {
        0 if number < set.reads.len() && rank == 0 => Point::Read(number),
        0x40 if number < set.outputs.len() => Point::Output(number),
        _ => return None,
    };
    Some(Literal {
        point,
        negated: marks >= 0x80,
        rank,
    })
}

/// True if a literal names a read point that has no room in two bytes.
fn is_wide(literal: &Literal) -> bool {
    matches!(literal.point, Point::Read(number) if number > LAST_NARROW)
}

/// Field 0x05, and nothing after it.
fn end(field: &Field, file: &[u8]) -> Result<(), Refusal> {
    field.need(field.body.is_empty(), 4)?;
    if field.end() < file.len() {
        return Err(Refusal {
            number: 12,
            offset: field.end(),
        });
    }
    Ok(())
}

/// The file of a set.
pub fn write(set: &Set) -> Vec<u8> {
    let mut file = Vec::new();
    put_field(
        &mut file,
        COUNTS,
        &[low(set.reads.len()), low(set.outputs.len())],
    );
    for point in &set.reads {
        let (kind, index) = match point.kind {
            Kind::Sensor => (0, 0),
            Kind::PastOutput(index) => (1, low(index)),
            Kind::PastSensor(index) => (2, low(index)),
        };
        let mut body = vec![kind, index];
        body.extend(&point.name);
        put_field(&mut file, READ, &body);
    }
    for name in &set.outputs {
        put_field(&mut file, OUTPUT, name);
    }
    if !set.rest.is_empty() {
        put_field(&mut file, REST, &set.rest_word().to_be_bytes());
    }
    for constraint in &set.constraints {
        put_constraint(&mut file, constraint);
    }
    put_field(&mut file, END, &[]);
    file
}

/// Writes the file at the front of a buffer; a short one stays untouched.
pub fn write_into(set: &Set, buffer: &mut [u8]) -> Written {
    put_into(&write(set), buffer)
}

/// Puts bytes at the front of a buffer; a short one stays untouched.
pub fn put_into(bytes: &[u8], buffer: &mut [u8]) -> Written {
    match buffer.get_mut(..bytes.len()) {
        Some(front) => {
            front.copy_from_slice(bytes);
            Written::Wrote(bytes.len())
        }
        None => Written::Short(bytes.len()),
    }
}

/// Appends a constraint: with literals of three bytes if it names a read point
/// that needs them, else of two.
fn put_constraint(file: &mut Vec<u8>, constraint: &Constraint) {
    let literals = &constraint.literals;
    let is_wide = literals.iter().any(is_wide);
    let mut body = Vec::new();
    for literal in literals {
        let (mark, number) = match literal.point {
            Point::Read(number) => (0, low(number)),
            Point::Output(number) => (0x40, low(number)),
        };
        let marks = mark + if literal.negated { 0x80 } else { 0 };
        if is_wide {
            body.extend([marks, number, literal.rank]);
        } else {
            body.extend([marks + number, literal.rank]);
        }
    }
    put_field(file, if is_wide { WIDE } else { CONSTRAINT }, &body);
}

/// Appends one field.
pub fn put_field(file: &mut Vec<u8>, tag: u8, body: &[u8]) {
    file.extend([tag, low(body.len() / 256), low(body.len() % 256)]);
    file.extend(body);
}

/// A small number as a byte; the counts and lengths of a set all fit.
fn low(number: usize) -> u8 {
    u8::try_from(number).unwrap_or(u8::MAX)
}
