//! The verdict against document 01 read plainly, and accepted sets in use.

use reference::chance::Chance;
use reference::filter::{is_safe, pass, pulls, start_vector, walk, Walk};
use reference::machine::{scan, start, ScanRefusal, State};
use reference::making::{scans, set, Recipe};
use reference::set::{bits, word, Kind, Set};
use reference::verdict::{judge, judge_plainly, Verdict};

const RECIPES: [Recipe; 5] = [
    Recipe::Loose,
    Recipe::Planted,
    Recipe::Bent,
    Recipe::Chain,
    Recipe::Clash,
];

/// Small sets of every recipe.
fn small_sets(seed: u64, count: usize) -> Vec<Set> {
    let mut chance = Chance::new(seed);
    let mut sets = Vec::new();
    for recipe in RECIPES {
        for _ in 0..count {
            let (r, n) = (chance.between(0, 3), chance.between(2, 4));
            let m = chance.between(0, 8);
            sets.push(set(&mut chance, recipe, r, n, m));
        }
    }
    sets
}

#[test]
fn judging_by_active_constraints_is_judging() {
    let mut seen = [0; 4];
    for set in small_sets(3, 60) {
        let verdict = judge(&set);
        assert_eq!(verdict, judge_plainly(&set));
        match verdict {
            Verdict::Accepted => seen[0] += 1,
            Verdict::NoVector(_) => seen[1] += 1,
            Verdict::NoEnd(..) => seen[2] += 1,
            Verdict::Clash(..) => seen[3] += 1,
        }
    }
    assert!(seen.iter().all(|&count| count > 10), "{seen:?}");
}

#[test]
fn planted_sets_are_accepted_and_clashing_ones_not() {
    let mut chance = Chance::new(5);
    for _ in 0..100 {
        let planted = set(&mut chance, Recipe::Planted, 3, 4, 10);
        assert_eq!(judge(&planted), Verdict::Accepted);
        let clash = set(&mut chance, Recipe::Clash, 3, 4, 10);
        assert!(matches!(judge(&clash), Verdict::Clash(..)));
    }
}

#[test]
fn the_named_word_fails_as_said() {
    for set in small_sets(11, 40) {
        let (bad, request) = match judge(&set) {
            Verdict::Accepted => continue,
            Verdict::NoVector(bad) | Verdict::Clash(bad, _) => (bad, None),
            Verdict::NoEnd(bad, request) => (bad, Some(request)),
        };
        let n = set.outputs.len();
        let reads = bits(bad, set.reads.len());
        let some_safe = (0..1 << n).any(|v| is_safe(&set, &reads, &bits(v, n)));
        assert_eq!(some_safe, request.is_some());
        if let Some(request) = request {
            let asked = bits(u32::from(request), n);
            assert_eq!(walk(&set, &reads, &asked), Walk::Endless);
        }
    }
}

/// A walk as document 01's scan has it: at most 2^f - 1 passes, at a clash too.
fn bounded_walk(set: &Set, reads: &[bool], request: &[bool]) -> Walk {
    let holds = pulls(set, reads);
    let unheld = holds.iter().filter(|hold| !hold.is_held()).count();
    let mut vector = start_vector(&holds, request);
    for passes in 0..1 << unheld {
        if is_safe(set, reads, &vector) {
            return Walk::Safe { vector, passes };
        }
        vector = pass(set, reads, &holds, &vector);
    }
    Walk::Endless
}

#[test]
fn an_endless_walk_is_one_beyond_the_bound() {
    let mut endless = 0;
    for set in small_sets(19, 30) {
        let (r, n) = (set.reads.len(), set.outputs.len());
        for (word, request) in (0..1 << r).flat_map(|w| (0..1 << n).map(move |g| (w, g))) {
            let (reads, asked) = (bits(word, r), bits(request, n));
            let walked = walk(&set, &reads, &asked);
            assert_eq!(walked, bounded_walk(&set, &reads, &asked));
            endless += usize::from(walked == Walk::Endless);
        }
    }
    assert!(endless > 100, "{endless}");
}

/// What demand 3 says of each scan of a list, told from the calls alone.
#[test]
fn lists_of_scans_keep_demand_3() {
    let mut chance = Chance::new(13);
    let mut numbers = Vec::new();
    for set in small_sets(17, 60) {
        let Ok(mut state) = start(&set) else {
            continue;
        };
        // What the last accepted scan sent and sensed, if there is one.
        let mut past = None;
        for (sensor, request) in scans(&mut chance, &set, 25) {
            let answer = scan(&mut state, sensor, request);
            numbers.extend(answer.err().map(ScanRefusal::number));
            let Ok(sent) = answer else {
                continue;
            };
            let reads = read_bits(&set, sensor, past);
            let n = set.outputs.len();
            assert!(is_safe(&set, &reads, &bits(sent.vector, n)));
            let held = pulls(&set, &reads);
            let unheld = held.iter().filter(|hold| !hold.is_held()).count();
            assert!(sent.passes < 1 << unheld);
            let asked = bits(u32::from(request), n);
            let untouched = sent.vector == u32::from(request);
            assert_eq!(untouched, is_safe(&set, &reads, &asked));
            assert!(!untouched || sent.passes == 0);
            let first = word(&start_vector(&held, &asked));
            assert!(sent.passes > 0 || sent.vector == first);
            past = Some((sent.vector, sensor));
        }
    }
    assert!(numbers.contains(&31) && numbers.contains(&32));
    assert!(!numbers.contains(&33));
}

/// The read word from the sensor word and the pasts, bit by bit. Without a scan
/// before, past sensors read as the sensors do now, and past outputs 0.
fn read_bits(set: &Set, sensor: u32, past: Option<(u32, u32)>) -> Vec<bool> {
    let (sent, sensed) = past.unwrap_or((0, sensor));
    let bit = |word: u32, number: usize| (word >> number) % 2 == 1;
    let mut reads = Vec::new();
    for (number, point) in set.reads.iter().enumerate() {
        reads.push(match point.kind {
            Kind::Sensor => bit(sensor, number),
            Kind::PastOutput(index) => bit(sent, index),
            Kind::PastSensor(index) => bit(sensed, index),
        });
    }
    reads
}

#[test]
fn long_walks_reach_the_bound() {
    // Two outputs: 3 leads to 0, 0 to 1, 1 to 2, and 2 alone is safe.
    use reference::set::{Constraint, Literal, Point};
    let literal = |number, negated, rank| Literal {
        point: Point::Output(number),
        negated,
        rank,
    };
    let constraint = |a, b| Constraint {
        literals: vec![a, b],
    };
    let set = Set {
        reads: Vec::new(),
        outputs: vec![b"A".to_vec(), b"B".to_vec()],
        rest: Vec::new(),
        constraints: vec![
            constraint(literal(0, false, 0), literal(1, false, 0)),
            constraint(literal(0, true, 0), literal(1, true, 1)),
            constraint(literal(0, false, 7), literal(1, true, 7)),
        ],
    };
    assert_eq!(judge(&set), Verdict::Accepted);
    let mut state = State::fresh(&set);
    for (request, passes) in [(3, 3), (0, 2), (1, 1), (2, 0)] {
        let sent = scan(&mut state, 0, request).map(|s| (s.vector, s.passes));
        assert_eq!(sent, Ok((2, passes)));
    }
}
