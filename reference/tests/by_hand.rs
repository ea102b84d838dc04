//! Document 01's "Tried by hand", starred and unstarred cases, and document 02's
//! "No rising edge on power-up", "Missing vectors come before endless walks" and
//! "Simple constraints that contradict".

use reference::by_hand;
use reference::damage::P;
use reference::file::{load, Refusal};
use reference::filter::{holds, Holds};
use reference::machine::{scan, start, ScanRefusal, Sent, State};
use reference::program::line;
use reference::records::{Case, Kept, Words};
use reference::set::{Constraint, Kind, Literal, Point, ReadPoint, Set};
use reference::verdict::{judge, judge_in_the_old_order, judge_plainly, Verdict};

/// A read literal, plain or negated.
fn read(number: usize, negated: bool) -> Literal {
    Literal {
        point: Point::Read(number),
        negated,
        rank: 0,
    }
}

/// An output literal with its rank.
fn out(number: usize, negated: bool, rank: u8) -> Literal {
    Literal {
        point: Point::Output(number),
        negated,
        rank,
    }
}

/// Read points r0, r1, ... of these kinds, n outputs, and the constraints.
fn set(kinds: &[Kind], n: usize, constraints: &[&[Literal]]) -> Set {
    let point = |(number, kind): (usize, &Kind)| ReadPoint {
        kind: *kind,
        name: format!("r{number}").into_bytes(),
    };
    Set {
        reads: kinds.iter().enumerate().map(point).collect(),
        outputs: (0..n).map(|k| format!("o{k}").into_bytes()).collect(),
        rest: Vec::new(),
        constraints: constraints
            .iter()
            .map(|literals| Constraint {
                literals: literals.to_vec(),
            })
            .collect(),
    }
}

fn p() -> Set {
    load(&P).expect("P loads")
}

/// The answer of the first scan from a start.
fn first(set: &Set, sensor: u32, request: u16) -> Result<Sent, ScanRefusal> {
    let mut state = start(set).expect("the set is accepted");
    scan(&mut state, sensor, request)
}

fn sent(vector: u32, passes: u32) -> Result<Sent, ScanRefusal> {
    Ok(Sent { vector, passes })
}

fn refusal(file: &[u8]) -> Option<(u8, usize)> {
    let refused = |refusal: Refusal| (refusal.number, refusal.offset);
    load(file).err().map(refused)
}

#[test]
fn p_is_accepted() {
    assert_eq!(P.len(), 39);
    assert_eq!(line(&P), "ACCEPT 1 2 2\n");
    let set = p();
    assert_eq!(set.reads[0].name, b"007");
    assert_eq!(set.outputs, vec![b"07".to_vec(), b"7".to_vec()]);
}

#[test]
fn p_at_read_word_0() {
    assert_eq!(first(&p(), 0, 1), sent(0, 1));
    assert_eq!(first(&p(), 0, 3), sent(3, 0));
}

#[test]
fn p_at_read_word_1() {
    let Holds::Forced(held) = holds(&p(), &[true]) else {
        panic!("no clash");
    };
    assert_eq!(held.iter().filter(|hold| !hold.is_held()).count(), 1);
    assert_eq!(first(&p(), 1, 3), sent(0, 1));
    assert_eq!(first(&p(), 1, 2), sent(0, 0));
}

#[test]
fn p_with_ranks_exchanged() {
    let mut file = P;
    file[33] = 1;
    file[35] = 0;
    let set = load(&file).expect("it loads");
    assert_eq!(first(&set, 0, 1), sent(3, 1));
    assert_eq!(first(&set, 1, 1), sent(0, 1));
}

#[test]
fn both_ways_is_a_clash() {
    let set = set(
        &[Kind::Sensor],
        1,
        &[
            &[read(0, false), out(0, true, 0)],
            &[read(0, false), out(0, false, 0)],
        ],
    );
    assert_eq!(judge(&set), Verdict::Clash(1, 0));
    assert_eq!(start(&set), Err(Verdict::Clash(1, 0)));
    assert_eq!(holds(&set, &[true]), Holds::Clash(0));
    assert!(matches!(holds(&set, &[false]), Holds::Forced(_)));
}

fn endless() -> Set {
    set(
        &[],
        2,
        &[
            &[out(0, false, 1), out(1, true, 0)],
            &[out(0, false, 1), out(1, false, 0)],
        ],
    )
}

#[test]
fn endless_walk_is_rejected() {
    assert_eq!(judge(&endless()), Verdict::NoEnd(0, 1));
    assert_eq!(start(&endless()), Err(Verdict::NoEnd(0, 1)));
}

/// "A, not B" and "A, B" behind some read literals, A of rank 1 and B of rank 0:
/// the walk from A alone is endless.
fn pair(reads: &[Literal]) -> [Vec<Literal>; 2] {
    [true, false].map(|negated| [reads, &[out(0, false, 1), out(1, negated, 0)]].concat())
}

/// "A" and "not A" behind some read literals: no vector is safe.
fn clash(reads: &[Literal]) -> [Vec<Literal>; 2] {
    [false, true].map(|negated| [reads, &[out(0, negated, 0)]].concat())
}

/// What is told of the constraints with so many sensors, in document 01's order
/// and now.
fn told(sensors: usize, constraints: &[[Vec<Literal>; 2]]) -> [Verdict; 2] {
    let constraints: Vec<&[Literal]> = constraints.iter().flatten().map(Vec::as_slice).collect();
    let set = set(&vec![Kind::Sensor; sensors], 2, &constraints);
    let now = judge(&set);
    assert_eq!(judge_plainly(&set), now);
    assert_eq!(start(&set), Err(now));
    [judge_in_the_old_order(&set), now]
}

#[test]
fn missing_vectors_come_before_endless_walks() {
    let (s, not_s, t) = (read(0, false), read(0, true), read(1, false));
    // "s, not A, B", "s, not A, not B": at word 1 A may be neither on nor off.
    let not_a = |negated| vec![s, out(0, true, 0), out(1, negated, 0)];
    let k5 = [pair(&[]), [not_a(false), not_a(true)]];
    let changed = [Verdict::NoEnd(0, 1), Verdict::NoVector(1)];
    assert_eq!(told(1, &k5), changed);
    let changed = [Verdict::NoEnd(0, 1), Verdict::Clash(1, 0)];
    assert_eq!(told(1, &[pair(&[]), clash(&[s])]), changed);
    // Words 0 and 2 have the pair, 2 and 3 the clash.
    let changed = [Verdict::NoEnd(0, 1), Verdict::Clash(2, 0)];
    assert_eq!(told(2, &[pair(&[not_s]), clash(&[t])]), changed);
}

#[test]
fn other_rejections_stay() {
    let (s, not_s) = (read(0, false), read(0, true));
    let stays = [Verdict::NoEnd(1, 1); 2];
    assert_eq!(told(1, &[pair(&[s])]), stays);
    let stays = [Verdict::NoVector(0), Verdict::Clash(0, 0)];
    assert_eq!(told(1, &[clash(&[not_s]), pair(&[s])]), stays);
}

#[test]
fn missing_vectors_first_as_files() {
    let lines = by_hand::missing_first();
    let lines = lines.iter().map(|case| match case {
        Case::File { file, .. } => line(file),
        _ => panic!("a file"),
    });
    let told = [
        "NOVECTOR 1\n",
        "CLASH 1 0\n",
        "CLASH 2 0\n",
        "NOEND 1 1\n",
        "CLASH 0 0\n",
    ];
    assert_eq!(lines.collect::<Vec<String>>(), told);
    let set = load(&by_hand::K5).expect("it loads");
    let text = "output A\noutput B\nsensor s\n\
        never A on rank 1 and B off rank 0\nnever A on rank 1 and B on rank 0\n\
        never s on and A off rank 0 and B on rank 0\n\
        never s on and A off rank 0 and B off rank 0\nend\n";
    assert_eq!(reference::text::text(&set), text);
}

#[test]
fn scans_of_a_set_with_both() {
    // Word 0: A off is safe, and the walk from A on is endless. Word 1: no
    // vector is safe. No start gives such a state.
    let mut state = State::fresh(&load(&by_hand::K5).expect("it loads"));
    assert_eq!(scan(&mut state, 0, 0), sent(0, 0));
    assert_eq!(scan(&mut state, 0, 1), Err(ScanRefusal::NeverSafe));
    assert_eq!(scan(&mut state, 0, 2), sent(2, 0));
    for request in 0..4 {
        let answer = scan(&mut state, 1, request);
        assert_eq!(answer, Err(ScanRefusal::NeverSafe));
    }
}

#[test]
fn equal_ranks_flip_together() {
    let set = set(&[], 2, &[&[out(0, false, 4), out(1, false, 4)]]);
    assert_eq!(first(&set, 0, 3), sent(0, 1));
}

#[test]
fn two_constraints_in_one_pass() {
    let set = set(
        &[],
        3,
        &[
            &[out(0, false, 0), out(1, false, 1)],
            &[out(0, false, 1), out(2, false, 0)],
        ],
    );
    assert_eq!(first(&set, 0, 7), sent(2, 1));
}

fn edge() -> Set {
    set(
        &[Kind::Sensor, Kind::PastSensor(0)],
        1,
        &[&[read(0, false), read(1, true), out(0, false, 0)]],
    )
}

/// The answers to a list of scans from a start.
fn list(set: &Set, scans: &[Words]) -> Vec<Result<Sent, u8>> {
    let mut state = start(set).expect("the set is accepted");
    let answer = |&(sensor, request): &Words| {
        let before = state.clone();
        let answer = scan(&mut state, sensor, request);
        // A refused scan leaves the state, an accepted one sets the mark.
        assert!(answer.is_ok() && state.accepted || answer.is_err() && state == before);
        answer.map_err(ScanRefusal::number)
    };
    scans.iter().map(answer).collect()
}

/// A vector that is sent without a pass.
fn at_once(vector: u32) -> Result<Sent, u8> {
    Ok(Sent { vector, passes: 0 })
}

#[test]
fn edge_of_a_sensor() {
    assert!(!start(&edge()).expect("the set is accepted").accepted);
    assert_eq!(list(&edge(), &[(1, 1), (1, 1)]), [at_once(1), at_once(1)]);
    // An edge that is one: off in the first scan, on in the second.
    let scans = [(0, 1), (1, 1), (1, 1)];
    assert_eq!(list(&edge(), &scans), [1, 0, 1].map(at_once));
}

#[test]
fn refused_scans_are_not_the_first() {
    let scans = [(1, 2), (2, 1), (1, 1), (0, 1), (1, 1), (1, 1)];
    let answers = [
        Err(32),
        Err(31),
        at_once(1),
        at_once(1),
        at_once(0),
        at_once(1),
    ];
    assert_eq!(list(&edge(), &scans), answers);
}

#[test]
fn edge_of_the_second_sensor() {
    let set = set(
        &[Kind::Sensor, Kind::Sensor, Kind::PastSensor(1)],
        1,
        &[&[read(1, false), read(2, true), out(0, false, 0)]],
    );
    let scans = [(2, 1), (1, 1), (2, 1), (3, 1)];
    assert_eq!(list(&set, &scans), [1, 1, 0, 1].map(at_once));
}

#[test]
fn edge_from_states_made_by_hand() {
    for (past_sensor, mark, answer) in [
        (0, 1, at_once(0)),
        (0, 0, at_once(1)),
        (1, 0, at_once(1)),
        (1, 1, at_once(1)),
        (2, 0, at_once(1)),
        (4, 0, Err(30)),
    ] {
        let kept = Kept {
            past_sensor,
            past_output: 0,
            mark,
        };
        let mut state = State::by_hand(&edge(), &kept);
        let first = scan(&mut state, 1, 1).map_err(ScanRefusal::number);
        assert_eq!(first, answer, "{kept:?}");
        assert_eq!(state.accepted, mark == 1 || answer.is_ok());
    }
}

#[test]
fn scan_33_is_not_the_first() {
    // At "s and past s" A is forced both ways; "t, not past t, B".
    let kinds = [
        Kind::Sensor,
        Kind::PastSensor(0),
        Kind::Sensor,
        Kind::PastSensor(2),
    ];
    let set = set(
        &kinds,
        2,
        &[
            &[read(0, false), read(1, false), out(0, false, 0)],
            &[read(0, false), read(1, false), out(0, true, 0)],
            &[read(2, false), read(3, true), out(1, false, 0)],
        ],
    );
    let mut state = State::fresh(&set);
    let before = state.clone();
    assert_eq!(scan(&mut state, 1, 2), Err(ScanRefusal::NeverSafe));
    assert_eq!(state, before);
    // The first: the past of t reads as t does now. Then s rises, and t falls and rises.
    assert_eq!(scan(&mut state, 4, 2), sent(2, 0));
    assert!(state.accepted);
    assert_eq!(scan(&mut state, 1, 2), sent(2, 0));
    assert_eq!(scan(&mut state, 4, 2), sent(0, 0));
}

#[test]
fn unstarred_cases() {
    assert_eq!(refusal(&[]), Some((1, 0)));
    assert_eq!(refusal(&P[..38]), Some((1, 36)));
    assert_eq!(refusal(&[P.as_slice(), &[0]].concat()), Some((12, 39)));
}

#[test]
fn counts() {
    // Good counts let the loader go on, to the end of the file at 5.
    assert_eq!(refusal(&[1, 0, 2, 16, 8]), Some((1, 5)));
    assert_eq!(refusal(&[1, 0, 2, 16, 9]), Some((5, 0)));
    for r in 0..=255 {
        assert_eq!(refusal(&[1, 0, 2, r, 0]), Some((5, 0)));
        assert_eq!(refusal(&[1, 0, 2, r, 13]), Some((5, 0)));
    }
}

#[test]
fn program_lines() {
    assert_eq!(line(&[]), "LOAD 1 0\n");
    let long = [P.as_slice(), &[0; 5000]].concat();
    assert_eq!(line(&long), "LOAD 12 39\n");
    let file = reference::file::write(&endless());
    assert_eq!(line(&file), "NOEND 0 1\n");
}

#[test]
fn program_reads_8192_bytes() {
    // A field that ends after byte 8,192 runs past the end for the program.
    let mut file = vec![1, 0, 2, 0, 1, 3, 0x20, 0x00];
    file.extend(vec![b'x'; 8192]);
    assert_eq!(refusal(&file), Some((4, 5)));
    assert_eq!(line(&file), "LOAD 1 5\n");
}

#[test]
fn refused_words() {
    let mut state = start(&edge()).expect("the set is accepted");
    let before = state.clone();
    for (sensor, request, number) in [
        (2, 0, 31),
        (3, 2, 31),
        (4, 0, 31),
        (1 << 31, 0, 31),
        (0, 2, 32),
        (1, 0x8001, 32),
    ] {
        let refused = scan(&mut state, sensor, request).map_err(ScanRefusal::number);
        assert_eq!(refused, Err(number));
        assert_eq!(state, before);
    }
    // The past of a refused scan is not read, and it is not the first one.
    assert_eq!(scan(&mut state, 1, 1), sent(1, 0));
}

#[test]
fn refused_scan_between_two() {
    let mut state = start(&edge()).expect("the set is accepted");
    assert_eq!(scan(&mut state, 0, 1), sent(1, 0));
    assert_eq!(scan(&mut state, 1, 2), Err(ScanRefusal::Request));
    assert_eq!(scan(&mut state, 1, 1), sent(0, 0));
    assert_eq!(scan(&mut state, 0, 2), Err(ScanRefusal::Request));
    assert_eq!(scan(&mut state, 1, 1), sent(1, 0));
}

#[test]
fn past_output_is_what_was_sent() {
    // Output 0 may not be on in two scans running.
    let set = set(
        &[Kind::PastOutput(0)],
        1,
        &[&[read(0, false), out(0, false, 9)]],
    );
    let mut state = start(&set).expect("the set is accepted");
    let answers: Vec<_> = (0..4).map(|_| scan(&mut state, 0, 1)).collect();
    assert_eq!(answers, [sent(1, 0), sent(0, 0), sent(1, 0), sent(0, 0)]);
}

#[test]
fn endless_walk_in_a_state_no_start_gave() {
    let mut state = State::fresh(&endless());
    let before = state.clone();
    assert_eq!(scan(&mut state, 0, 1), Err(ScanRefusal::NeverSafe));
    assert_eq!(scan(&mut state, 0, 3).map_err(ScanRefusal::number), Err(33));
    assert_eq!(state, before);
    assert_eq!(scan(&mut state, 0, 2), sent(2, 0));
}

#[test]
fn constraint_with_all_outputs_held_flips_nothing() {
    // A and B held on at s; "A and B" is then true for good: 22 at word 1.
    let set = set(
        &[Kind::Sensor],
        2,
        &[
            &[read(0, false), out(0, true, 0)],
            &[read(0, false), out(1, true, 0)],
            &[out(0, false, 0), out(1, false, 1)],
        ],
    );
    assert_eq!(judge(&set), Verdict::NoVector(1));
    let mut state = State::fresh(&set);
    assert_eq!(scan(&mut state, 1, 0), Err(ScanRefusal::NeverSafe));
}
