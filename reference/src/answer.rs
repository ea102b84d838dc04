//! What this implementation answers to a case of the corpus, as lines.

use crate::file::{load, write, write_into, Refusal, Written};
use crate::finding::find;
use crate::lent::{sum, Arena};
use crate::machine::{scan, start, State};
use crate::program::{line, put_line};
use crate::raw::well_formed;
use crate::records::{Case, Kept, List, Words};
use crate::set::{Point, Set};
use crate::text::{text, text_into};
use crate::verdict::{judge, scratch_bytes, Verdict};

/// A text that is not longer than this is printed in full.
const SHOWN_TEXT: usize = 600;

/// The buffers that a set made by hand is written and printed into. A file may
/// be longer.
const FILE_BUFFER: usize = 4096;
const TEXT_BUFFER: usize = 40_000;

/// The lines for one case.
pub fn answer(case: &Case) -> String {
    match case {
        Case::File { file, scans } => {
            let loaded = with_set(file, |set| file_lines(set, file, scans));
            format!("JUDGE {}{loaded}", line(file))
        }
        Case::State { file, list } => with_set(file, |set| state_line(Some(set), list)),
        Case::Names { file, names } => with_set(file, |set| names_line(Some(set), names)),
        Case::Buffers { file, sizes } => with_set(file, |set| buffer_lines(set, file, sizes)),
        Case::Raw { set, list, names } => raw_lines(well_formed(set).as_ref(), list, names),
    }
}

/// The lines for the set of a file, or how loading it is refused.
fn with_set(file: &[u8], lines: impl FnOnce(&Set) -> String) -> String {
    match load(file) {
        Ok(set) => lines(&set),
        Err(Refusal { number, offset }) => format!("LOAD {number} {offset}\n"),
    }
}

/// A line of a word and items behind one space each.
fn items(word: &str, items: impl Iterator<Item = String>) -> String {
    let items: String = items.map(|item| format!(" {item}")).collect();
    format!("{word}{items}\n")
}

fn file_lines(set: &Set, file: &[u8], scans: &[Words]) -> String {
    let (r, n, m) = (set.reads.len(), set.outputs.len(), set.constraints.len());
    let loaded = format!("LOADED {r} {n} {m}\n");
    let found = items("FIND", own_names(set).map(|name| found(Some(set), name)));
    let start = start(set);
    let verdict = start.as_ref().err().copied();
    let scratch = scratch_line(set, verdict.unwrap_or(Verdict::Accepted));
    let lines = loaded + &written(set, file) + &found + &printed(set) + &scratch;
    lines + &started(start, scans)
}

fn written(set: &Set, file: &[u8]) -> String {
    let again = write(set);
    let same = if again == file { "same" } else { "differs" };
    format!("WRITE {} {same}\n", again.len())
}

/// The names of all points, read points first.
fn own_names(set: &Set) -> impl Iterator<Item = &Vec<u8>> {
    let reads = set.reads.iter().map(|point| &point.name);
    reads.chain(&set.outputs)
}

fn printed(set: &Set) -> String {
    let text = text(set);
    let sum = sum(text.as_bytes());
    let shown = if text.len() <= SHOWN_TEXT { &text } else { "" };
    format!("TEXT {} {sum}\n{shown}", text.len())
}

/// The bytes that the verdict needs, and what it answers with just so many and
/// with one less.
fn scratch_line(set: &Set, verdict: Verdict) -> String {
    let needed = scratch(set);
    let sizes = [needed, needed - 1].into_iter();
    let line = format!("SCRATCH {needed}");
    items(&line, sizes.map(|size| judged_in(set, verdict, size)))
}

/// The start's verdict and, if the set is accepted, the answers to the scans.
fn started(start: Result<State, Verdict>, scans: &[Words]) -> String {
    match start {
        Ok(state) => format!("ACCEPT\n{}", scanned("SCANS", state, scans)),
        Err(Verdict::NoVector(word)) => format!("NOVECTOR {word}\n"),
        Err(Verdict::Clash(word, output)) => format!("CLASH {word} {output}\n"),
        Err(Verdict::NoEnd(word, request)) => format!("NOEND {word} {request}\n"),
        // Start gives a state in place of this verdict.
        Err(Verdict::Accepted) => String::new(),
    }
}

/// The answers to a list of scans, each from the state the one before left, and
/// what the last state keeps.
fn scanned(word: &str, mut state: State, scans: &[Words]) -> String {
    let mut line = String::from(word);
    for &(sensor, request) in scans {
        line += &match scan(&mut state, sensor, request) {
            Ok(sent) => format!(" {}/{}", sent.vector, sent.passes),
            Err(refusal) => format!(" !{}", refusal.number()),
        };
    }
    let ending = ending(state.past_sensor, state.past_output, state.accepted);
    format!("{line}{ending}\n")
}

/// What stands behind the items of a list: both pasts and the mark.
fn ending(past_sensor: u32, past_output: u16, accepted: bool) -> String {
    format!(" = {past_sensor} {past_output} {}", u8::from(accepted))
}

/// A list of scans from a state made by hand. No set stands for one that is not
/// well formed: every scan is refused by 30.
fn state_line(set: Option<&Set>, list: &Option<List>) -> String {
    let (first, scans) = match list {
        Some(List { first, scans }) => (*first, scans.as_slice()),
        None => (Kept::default(), [].as_slice()),
    };
    match set {
        Some(set) => scanned("STATE", State::by_hand(set, &first), scans),
        None => {
            let refused = " !30".repeat(scans.len());
            let ending = ending(first.past_sensor, first.past_output, first.mark != 0);
            format!("STATE{refused}{ending}\n")
        }
    }
}

fn names_line(set: Option<&Set>, names: &[Vec<u8>]) -> String {
    items("NAMES", names.iter().map(|name| found(set, name)))
}

/// What finding a name gives; 20 where the set is not well formed.
fn found(set: Option<&Set>, name: &[u8]) -> String {
    let Some(set) = set else {
        return String::from("!20");
    };
    match find(set, name) {
        Ok(Point::Read(number)) => format!("R{number}"),
        Ok(Point::Output(number)) => format!("O{number}"),
        Err(refusal) => format!("!{}", refusal.number()),
    }
}

/// The five operations with a buffer of each size.
fn buffer_lines(set: &Set, file: &[u8], sizes: &[u16]) -> String {
    let verdict = judge(set);
    let line = line(file);
    let each = |word: &str, item: &dyn Fn(usize) -> String| {
        items(word, sizes.iter().map(|&size| item(usize::from(size))))
    };
    let writes = each("WRITES", &|size| {
        in_arena(size, |buffer| put(write_into(set, buffer)))
    });
    let judges = each("JUDGES", &|size| judged_in(set, verdict, size));
    let starts = each("STARTS", &|size| {
        let state = state_returned(set, verdict, size);
        format!("{}={state}", judged_in(set, verdict, size))
    });
    let lines = each("LINES", &|size| {
        in_arena(size, |buffer| put_line(&line, buffer).to_string())
    });
    let texts = each("TEXTS", &|size| {
        in_arena(size, |buffer| put(text_into(set, buffer)))
    });
    writes + &judges + &starts + &lines + &texts
}

/// What an operation answers with a lent buffer, and the sum of the arena.
fn in_arena(size: usize, operation: impl Fn(&mut [u8]) -> String) -> String {
    let mut arena = Arena::new(size);
    let answer = operation(arena.lent());
    format!("{answer}:{}", arena.sum())
}

fn put(written: Written) -> String {
    match written {
        Written::Wrote(length) => format!("0/{length}"),
        Written::Short(needed) => format!("24/{needed}"),
    }
}

/// The scratch that the verdict of a set needs.
fn scratch(set: &Set) -> usize {
    scratch_bytes(set.outputs.len())
}

/// The verdict with a scratch of this size. What it leaves in the scratch is
/// free and not summed; behind it, and where it is too short, nothing changes.
fn judged_in(set: &Set, verdict: Verdict, size: usize) -> String {
    let arena = Arena::new(size);
    if size < scratch(set) {
        return format!("21:{}", arena.sum());
    }
    let sum = arena.sum_behind(scratch(set));
    format!("{}:{sum}", verdict_words(verdict))
}

/// The outputs of the set in the state that a start with this scratch returns,
/// and the mark. Where the start is refused, every field of the state is zero.
fn state_returned(set: &Set, verdict: Verdict, size: usize) -> String {
    if size < scratch(set) || verdict != Verdict::Accepted {
        return String::from("0/0");
    }
    let state = State::fresh(set);
    format!("{}/{}", state.set.outputs.len(), u8::from(state.accepted))
}

fn verdict_words(verdict: Verdict) -> String {
    match verdict {
        Verdict::Accepted => String::from("0"),
        Verdict::NoVector(word) => format!("22/{word}"),
        Verdict::Clash(word, output) => format!("58/{word}/{output}"),
        Verdict::NoEnd(word, request) => format!("23/{word}/{request}"),
    }
}

/// The lines for a set made by hand; none stands for one not well formed.
fn raw_lines(set: Option<&Set>, list: &Option<List>, names: &[Vec<u8>]) -> String {
    let answers = match set {
        None => ["20", "20", "20"].map(String::from),
        Some(set) => [
            in_zeros(FILE_BUFFER, |buffer| write_into(set, buffer)),
            verdict_words(judge(set)),
            in_zeros(TEXT_BUFFER, |buffer| text_into(set, buffer)),
        ],
    };
    items("SET", answers.into_iter()) + &names_line(set, names) + &state_line(set, list)
}

/// What writing into a buffer of zeros answers, and the sum of the buffer.
fn in_zeros(size: usize, write: impl Fn(&mut [u8]) -> Written) -> String {
    let mut buffer = vec![0; size];
    let written = put(write(&mut buffer));
    format!("{written}:{}", sum(&buffer))
}

#[cfg(test)]
mod tests {
    use super::*;
    use crate::damage::P;
    use crate::raw::laid_out;
    use crate::records::SET_BYTES;

    const TEXT: &str = "output 07\noutput 7\nsensor 007\nnever 007 on and 7 on\n\
        never 07 on rank 0 and 7 off rank 1\nend\n";

    fn p() -> Vec<u8> {
        P.to_vec()
    }

    /// The sum of so many bytes that nothing was written to.
    fn filled(count: usize) -> u64 {
        sum(&vec![0xA5; count])
    }

    #[test]
    fn a_file() {
        let scans = vec![(0, 1), (0, 3), (1, 3), (2, 0), (0, 4), (1, 2)];
        let lines = [
            "JUDGE ACCEPT 1 2 2",
            "LOADED 1 2 2",
            "WRITE 39 same",
            "FIND R0 O0 O1",
            &format!("TEXT {} {}", TEXT.len(), sum(TEXT.as_bytes())),
            &format!("{TEXT}SCRATCH 1 0:{} 21:{}", filled(16), filled(16)),
            "ACCEPT",
            "SCANS 0/1 3/0 0/1 !31 !32 0/0 = 1 0 1",
            "",
        ];
        assert_eq!(answer(&Case::File { file: p(), scans }), lines.join("\n"));
    }

    #[test]
    fn files_that_are_refused_or_rejected() {
        let of = |file: Vec<u8>| {
            let scans = vec![(0, 0)];
            answer(&Case::File { file, scans })
        };
        assert_eq!(of(Vec::new()), "JUDGE LOAD 1 0\nLOAD 1 0\n");
        let long = [[1, 0, 2, 0, 1, 3, 32, 0].as_slice(), &[b'x'; 8192]].concat();
        assert_eq!(of(long), "JUDGE LOAD 1 5\nLOAD 4 5\n");
        let both_ways = [
            1, 0, 2, 0, 1, 3, 0, 1, b'A', 4, 0, 2, 64, 0, 4, 0, 2, 192, 0,
        ];
        let both_ways = [both_ways.as_slice(), &[5, 0, 0]].concat();
        let scratch = format!("SCRATCH 1 58/0/0:{} 21:{}", filled(16), filled(16));
        let rejected = format!("end\n{scratch}\nCLASH 0 0\n");
        assert!(of(both_ways).ends_with(&rejected));
    }

    #[test]
    fn a_long_text_is_not_shown() {
        let mut file = P[..36].to_vec();
        for _ in 0..20 {
            file.extend(&P[29..36]);
        }
        file.extend([5, 0, 0]);
        let scans = Vec::new();
        let lines = answer(&Case::File { file, scans });
        assert!(lines.contains("\nTEXT 812 "));
        assert!(!lines.contains("output"));
        assert!(lines.ends_with("\nACCEPT\nSCANS = 0 0 0\n"));
    }

    /// A list of scans from these pasts (sensors, outputs) and this mark.
    fn from(pasts: Words, mark: u8, scans: &[Words]) -> Option<List> {
        let first = Kept {
            past_sensor: pasts.0,
            past_output: pasts.1,
            mark,
        };
        let scans = scans.to_vec();
        Some(List { first, scans })
    }

    #[test]
    fn a_state_made_by_hand() {
        let of = |list: Option<List>| answer(&Case::State { file: p(), list });
        assert_eq!(of(None), "STATE = 0 0 0\n");
        assert_eq!(of(from((1, 2), 0, &[])), "STATE = 1 2 0\n");
        assert_eq!(of(from((1, 2), 1, &[])), "STATE = 1 2 1\n");
        assert_eq!(of(from((1, 2), 255, &[])), "STATE = 1 2 1\n");
        assert_eq!(of(from((1, 2), 0, &[(0, 4)])), "STATE !32 = 1 2 0\n");
        assert_eq!(of(from((1, 2), 1, &[(0, 4)])), "STATE !32 = 1 2 1\n");
        let sent = of(from((1, 3), 0, &[(0, 3), (2, 9)]));
        assert_eq!(sent, "STATE 3/0 !31 = 0 3 1\n");
        // 30 comes before 31 and 32, and goes by width alone.
        let wide = of(from((2, 0), 0, &[(0, 0), (2, 9)]));
        assert_eq!(wide, "STATE !30 !30 = 2 0 0\n");
        assert_eq!(of(from((0, 4), 2, &[(0, 0)])), "STATE !30 = 0 4 1\n");
    }

    #[test]
    fn names() {
        let names = ["7", "07", "007", "", "7\0", "0007", "123456789"];
        let names = names.map(|name| name.as_bytes().to_vec()).to_vec();
        let lines = answer(&Case::Names { file: p(), names });
        assert_eq!(lines, "NAMES O1 O0 R0 !40 !41 !41 !40\n");
        let refused = Case::Names {
            file: vec![1],
            names: Vec::new(),
        };
        assert_eq!(answer(&refused), "LOAD 1 0\n");
    }

    #[test]
    fn buffers() {
        let front = |bytes: &[u8], count: usize| sum(&[bytes, &vec![0xA5; count]].concat());
        let text = TEXT.len();
        let case = Case::Buffers {
            file: p(),
            sizes: vec![0, 40],
        };
        let (short, long) = (filled(16), filled(56));
        let lines = [
            format!("WRITES 24/39:{short} 0/39:{}", front(&P, 17)),
            format!("JUDGES 21:{short} 0:{}", filled(55)),
            format!("STARTS 21:{short}=0/0 0:{}=2/0", filled(55)),
            format!("LINES 0:{short} 13:{}", front(b"ACCEPT 1 2 2\n", 43)),
            format!("TEXTS 24/{text}:{short} 24/{text}:{long}"),
            String::new(),
        ];
        assert_eq!(answer(&case), lines.join("\n"));
    }

    #[test]
    fn a_set_made_by_hand() {
        let set = laid_out(&load(&P).expect("P loads"));
        let zeros = |bytes: &[u8], size: usize| {
            let mut buffer = bytes.to_vec();
            buffer.resize(size, 0);
            format!("0/{}:{}", bytes.len(), sum(&buffer))
        };
        let list = from((1, 3), 0, &[(0, 1)]);
        let names = vec![b"7".to_vec(), Vec::new()];
        let lines = [
            format!("SET {}", zeros(&P, 4096)),
            format!("0 {}", zeros(TEXT.as_bytes(), 40_000)),
        ];
        let lines = format!("{}\nNAMES O1 !40\nSTATE 0/1 = 0 0 1\n", lines.join(" "));
        assert_eq!(answer(&Case::Raw { set, list, names }), lines);
    }

    #[test]
    fn a_set_that_is_not_well_formed() {
        for mark in [0, 1] {
            let case = Case::Raw {
                set: vec![0; SET_BYTES],
                list: from((u32::MAX, 7), mark, &[(9, 9), (0, 0)]),
                names: vec![Vec::new(), b"7".to_vec()],
            };
            let lines = "SET 20 20 20\nNAMES !20 !20\nSTATE !30 !30 = 4294967295 7";
            assert_eq!(answer(&case), format!("{lines} {mark}\n"));
        }
    }
}
