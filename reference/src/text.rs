//! The canonical text of a set: one line for each point, each output that rests
//! on and each constraint.

use crate::file::{put_into, Written};
use crate::set::{Constraint, Kind, Literal, Point, Set};

/// The text of a set, every line with its LF.
pub fn text(set: &Set) -> String {
    let mut lines: Vec<String> = Vec::new();
    for name in &set.outputs {
        lines.push(format!("output {}", shown(name)));
    }
    for point in &set.reads {
        lines.push(read_line(set, point.kind, &point.name));
    }
    for &number in &set.rest {
        lines.push(format!("rest {}", name_of(set, Point::Output(number))));
    }
    for constraint in &set.constraints {
        lines.push(constraint_line(set, constraint));
    }
    lines.push(String::from("end"));
    lines.iter().map(|line| format!("{line}\n")).collect()
}

/// Puts the text at the front of a buffer; a short one stays untouched.
pub fn text_into(set: &Set, buffer: &mut [u8]) -> Written {
    put_into(text(set).as_bytes(), buffer)
}

fn read_line(set: &Set, kind: Kind, name: &[u8]) -> String {
    let of = match kind {
        Kind::Sensor => return format!("sensor {}", shown(name)),
        Kind::PastOutput(number) => Point::Output(number),
        Kind::PastSensor(number) => Point::Read(number),
    };
    format!("past {} of {}", shown(name), name_of(set, of))
}

fn constraint_line(set: &Set, constraint: &Constraint) -> String {
    let simple = constraint.is_simple();
    let literal = |literal: &Literal| literal_words(set, literal, simple);
    let literals: Vec<String> = constraint.literals.iter().map(literal).collect();
    format!("never {}", literals.join(" and "))
}

/// A literal's point and sign; at an output the rank, unless it is the 0 of a
/// lone output.
fn literal_words(set: &Set, literal: &Literal, simple: bool) -> String {
    let sign = if literal.negated { "off" } else { "on" };
    let words = format!("{} {sign}", name_of(set, literal.point));
    match literal.point {
        Point::Output(_) if !simple || literal.rank != 0 => {
            format!("{words} rank {}", literal.rank)
        }
        _ => words,
    }
}

fn name_of(set: &Set, point: Point) -> String {
    match point {
        Point::Read(number) => shown(&set.reads[number].name),
        Point::Output(number) => shown(&set.outputs[number]),
    }
}

/// A name's bytes as characters; all are 0x21 to 0x7E.
fn shown(name: &[u8]) -> String {
    name.iter().map(|&byte| char::from(byte)).collect()
}

#[cfg(test)]
mod tests {
    use super::*;
    use crate::damage::P;
    use crate::file::{load, put_field, write};
    use crate::set::ReadPoint;

    /// A loaded file of these fields.
    fn loaded(fields: &[(u8, &[u8])]) -> Set {
        let mut file = Vec::new();
        for (tag, body) in fields {
            put_field(&mut file, *tag, body);
        }
        load(&file).expect("it loads")
    }

    #[test]
    fn set_p() {
        let lines = [
            "output 07",
            "output 7",
            "sensor 007",
            "never 007 on and 7 on",
            "never 07 on rank 0 and 7 off rank 1",
            "end",
            "",
        ];
        let set = load(&P).expect("P loads");
        assert_eq!(text(&set), lines.join("\n"));
    }

    #[test]
    fn no_constraints() {
        let set = loaded(&[(1, &[0, 1]), (3, b"A"), (5, &[])]);
        assert_eq!(text(&set), "output A\nend\n");
    }

    #[test]
    fn past_points_and_ranks() {
        let set = loaded(&[
            (1, &[3, 2]),
            (2, b"\0\0s"),
            (2, b"\x02\0was-s"),
            (2, b"\x01\x01was-B"),
            (3, b"A"),
            (3, b"B"),
            (4, &[0x00, 0, 0x81, 0, 0x40, 0]),
            (4, &[0x82, 0, 0xC1, 10]),
            (4, &[0x40, 255, 0xC1, 0]),
            (5, &[]),
        ]);
        let lines = [
            "output A",
            "output B",
            "sensor s",
            "past was-s of s",
            "past was-B of B",
            "never s on and was-s off and A on",
            "never was-B off and B off rank 10",
            "never A on rank 255 and B off rank 0",
            "end",
            "",
        ];
        assert_eq!(text(&set), lines.join("\n"));
    }

    #[test]
    fn names_that_look_like_words() {
        let set = loaded(&[
            (1, &[4, 3]),
            (2, b"\0\0on"),
            (2, b"\x02\0and"),
            (2, b"\x01\x01#"),
            (2, b"\0\x00007"),
            (3, b"never"),
            (3, b"07"),
            (3, b"7"),
            (
                4,
                &[0, 0, 0x81, 0, 2, 0, 0x83, 0, 0x40, 7, 0x41, 70, 0xC2, 0],
            ),
            (5, &[]),
        ]);
        let lines = [
            "output never",
            "output 07",
            "output 7",
            "sensor on",
            "past and of on",
            "past # of 07",
            "sensor 007",
            "never on on and and off and # on and 007 off \
                and never on rank 7 and 07 on rank 70 and 7 off rank 0",
            "end",
            "",
        ];
        assert_eq!(text(&set), lines.join("\n"));
    }

    #[test]
    fn outputs_that_rest_on() {
        let set = loaded(&[
            (1, &[1, 3]),
            (2, b"\x01\x02rest"),
            (3, b"A"),
            (3, b"7"),
            (3, b"end"),
            (6, &[0, 5]),
            (4, &[0x80, 0, 0x41, 0]),
            (5, &[]),
        ]);
        let lines = [
            "output A",
            "output 7",
            "output end",
            "past rest of end",
            "rest A",
            "rest end",
            "never rest off and 7 on",
            "end",
            "",
        ];
        assert_eq!(text(&set), lines.join("\n"));
    }

    /// Every point named negated in each of 64 constraints, with ranks of three
    /// digits, all read points pasts, and all outputs at rest on.
    fn wordiest(r: usize, n: usize) -> Set {
        let read = |number| ReadPoint {
            kind: Kind::PastOutput(0),
            name: format!("past..{number:02}").into_bytes(),
        };
        let literal = |point, rank| Literal {
            point,
            negated: true,
            rank,
        };
        let reads = (0..r).map(|k| literal(Point::Read(k), 0));
        let outputs = (0..n).map(|k| literal(Point::Output(k), 100));
        let constraint = Constraint {
            literals: reads.chain(outputs).collect(),
        };
        Set {
            reads: (0..r).map(read).collect(),
            outputs: (0..n)
                .map(|k| format!("output{k:02}").into_bytes())
                .collect(),
            rest: (0..n).collect(),
            constraints: vec![constraint; 64],
        }
    }

    #[test]
    fn the_longest_text() {
        let length = |r, n| {
            let set = wordiest(r, n);
            assert_eq!(load(&write(&set)), Ok(set.clone()));
            text(&set).len()
        };
        // 12 lines of 16 bytes, 12 of 26, 12 of 14, 64 of 518, and 4 for the
        // end.
        assert_eq!(length(12, 12), 33_828);
        assert_eq!(length(16, 8), 31_396 + 8 * 14);
        assert_eq!(length(20, 4), 29_132 + 4 * 14);
        for n in 1..=12 {
            assert!(length((24 - n).min(20), n) <= 33_828);
        }
    }

    #[test]
    fn into_a_buffer() {
        let set = load(&P).expect("P loads");
        let length = text(&set).len();
        let mut long = vec![0xEE; length + 3];
        assert_eq!(text_into(&set, &mut long), Written::Wrote(length));
        assert_eq!(&long[..length], text(&set).as_bytes());
        assert_eq!(long[length..], [0xEE; 3]);
        let mut short = vec![0xEE; length - 1];
        assert_eq!(text_into(&set, &mut short), Written::Short(length));
        assert!(short.iter().all(|&byte| byte == 0xEE));
    }
}
