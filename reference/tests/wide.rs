//! Document 02's "Twenty sensors": files with literals of three bytes, words
//! above 65,535, read points above 15 in scans, texts and memory, and the part of
//! the corpus for it.

use reference::answer::answer;
use reference::by_hand::twenty_told;
use reference::chance::Chance;
use reference::corpus::counts::counts;
use reference::corpus::fronts;
use reference::corpus::misloads::{self, loaded_rightly};
use reference::corpus::narrow;
use reference::corpus::wide::{cost, high_points};
use reference::corpus::widening;
use reference::damage::{fields, joined};
use reference::file::{load, write};
use reference::filter::read_literals_true;
use reference::finding::find;
use reference::machine::{scan, start, ScanRefusal, State};
use reference::making::{set, Recipe};
use reference::program::line;
use reference::raw::{laid_out, well_formed};
use reference::records::{Case, Kept};
use reference::set::{bits, Kind, Point, Set};
use reference::text::text;
use reference::verdict::{first_endless, has_safe_vector, judge, Verdict};
use std::collections::HashMap;
use std::sync::OnceLock;

/// r read points of these kinds, the first of them sensors, and n outputs, up to
/// the first constraint.
fn front(r: u8, n: u8, last: &[[u8; 2]]) -> Vec<u8> {
    let mut file = joined(&[(1, &[r, n])]);
    for number in 0..r {
        let behind = usize::from(number) + last.len();
        let kind = behind
            .checked_sub(usize::from(r))
            .map_or([0, 0], |k| last[k]);
        file.extend(joined(&[(2, &[kind[0], kind[1], b'a' + number])]));
    }
    for number in 0..n {
        file.extend(joined(&[(3, &[b'A' + number])]));
    }
    file
}

/// The same with constraints and the end.
fn file(r: u8, n: u8, last: &[[u8; 2]], constraints: &[(u8, &[u8])]) -> Vec<u8> {
    [front(r, n, last), joined(constraints), joined(&[(5, &[])])].concat()
}

fn loaded(file: &[u8]) -> Set {
    load(file).expect("it loads")
}

fn refusal(file: &[u8]) -> Option<(u8, usize)> {
    load(file).err().map(|r| (r.number, r.offset))
}

#[test]
fn the_files_of_another_author() {
    let told = twenty_told();
    assert_eq!(told.len(), 19);
    let mut good = 0;
    for (file, answer) in told {
        assert_eq!(refusal(&file), answer);
        if answer.is_none() {
            assert_eq!(write(&loaded(&file)), file);
            good += 1;
        }
    }
    assert_eq!(good, 3);
}

#[test]
fn the_order_of_refusals() {
    let at = |body: &[u8]| {
        let file = file(18, 2, &[], &[(7, body)]);
        let offset = front(18, 2, &[]).len();
        refusal(&file).map(|(number, at)| {
            assert_eq!(at, offset);
            number
        })
    };
    assert_eq!(at(&[0, 16, 0, 0x40, 0, 0]), None);
    // Each literal's 9 and 10 in turn, then 59, then 11.
    assert_eq!(at(&[0, 3, 0, 0, 2, 0, 0x50, 0, 0]), Some(10));
    assert_eq!(at(&[0, 3, 0, 0x50, 2, 0, 0, 2, 0]), Some(9));
    assert_eq!(at(&[0, 3, 0, 0, 5, 0]), Some(59));
    assert_eq!(at(&[0, 3, 0, 0x40, 0, 0]), Some(59));
    assert_eq!(at(&[0, 3, 0, 0, 17, 0]), Some(11));
    assert_eq!(at(&[0x40, 0, 16]), Some(59));
    // A length that is none comes before them, and 3 before that.
    assert_eq!(at(&[0, 3, 0, 0x50]), Some(4));
    assert_eq!(at(&[]), Some(4));
    let full = joined(&[(4, &[0x40, 0])]).repeat(64);
    let behind = [front(0, 1, &[]), full, joined(&[(7, &[])])].concat();
    assert_eq!(refusal(&behind), Some((3, 9 + 64 * 5)));
    let cut = [behind[..9].to_vec(), vec![7, 0, 3, 0, 0]].concat();
    assert_eq!(refusal(&cut), Some((1, 9)));
}

#[test]
fn counts_of_points() {
    for r in 0..=255 {
        for n in 0..=13 {
            let good = r <= 20 && (1..=12).contains(&n) && r + n <= 24;
            let number = refusal(&joined(&[(1, &[r as u8, n as u8])])).map(|(number, _)| number);
            assert_eq!(number, Some(if good { 1 } else { 5 }), "{r} {n}");
        }
    }
}

#[test]
fn sets_come_back_from_their_files() {
    let mut chance = Chance::new(11);
    let mut seen = [0; 2];
    for round in 0..400 {
        let r = round % 21;
        let n = chance.between(1, 12.min(24 - r));
        let m = chance.between(0, 64);
        let set = set(&mut chance, Recipe::Loose, r, n, m);
        let file = write(&set);
        assert_eq!(load(&file), Ok(set.clone()));
        assert_eq!(well_formed(&laid_out(&set)), Some(set.clone()));
        let fields = fields(&file);
        let first = 1 + r + n;
        for (field, constraint) in fields[first..].iter().zip(&set.constraints) {
            let is_high = |point: &Point| (Point::Read(16)..Point::Output(0)).contains(point);
            let mut points = constraint.literals.iter().map(|literal| literal.point);
            let (tag, size) = if points.any(|p| is_high(&p)) {
                (7, 3)
            } else {
                (4, 2)
            };
            assert_eq!(field[0], tag);
            assert_eq!(field.len(), 3 + size * constraint.literals.len());
            seen[usize::from(tag == 7)] += 1;
        }
    }
    assert!(seen.iter().all(|&count| count > 1000), "{seen:?}");
}

/// 20 sensors and "the last, A": 2^19 is the last word that is allowed with one
/// bit.
#[test]
fn sensor_words() {
    let set = loaded(&file(20, 4, &[], &[(7, &[0, 19, 0, 0x40, 0, 0])]));
    let mut state = start(&set).expect("it is accepted");
    let mut sent = |sensor| {
        let answer = scan(&mut state, sensor, 1);
        answer.map(|sent| sent.vector).map_err(ScanRefusal::number)
    };
    assert_eq!(sent(1 << 19), Ok(0));
    assert_eq!(sent((1 << 19) - 1), Ok(1));
    assert_eq!(sent((1 << 20) - 1), Ok(0));
    for bit in 20..32 {
        assert_eq!(sent(1 << bit), Err(31));
    }
    assert_eq!(state.past_sensor, (1 << 20) - 1);
}

/// Read point 18 is the past of sensor 17, and 19 the past of output 1; "17 and
/// not 18, A" and "19, A".
#[test]
fn past_points_above_15() {
    let constraints: [(u8, &[u8]); 2] = [
        (7, &[0, 17, 0, 0x80, 18, 0, 0x40, 0, 0]),
        (7, &[0, 19, 0, 0x40, 0, 0]),
    ];
    let set = loaded(&file(20, 2, &[[2, 17], [1, 1]], &constraints));
    assert_eq!(set.reads[18].kind, Kind::PastSensor(17));
    assert_eq!(set.reads[19].kind, Kind::PastOutput(1));
    let mut state = start(&set).expect("it is accepted");
    let mut sent = |sensor, request| {
        let answer = scan(&mut state, sensor, request);
        answer.map(|sent| sent.vector).map_err(ScanRefusal::number)
    };
    let on = 1 << 17;
    // No rising edge on power-up; then one, and then none.
    assert_eq!(sent(on, 1), Ok(1));
    assert_eq!(sent(0, 1), Ok(1));
    assert_eq!(sent(on, 1), Ok(0));
    assert_eq!(sent(on, 3), Ok(3));
    // B was on.
    assert_eq!(sent(on, 1), Ok(0));
    assert_eq!(sent(on, 1), Ok(1));
    assert_eq!(sent(1 << 18, 1), Err(31));
    assert_eq!(sent(1 << 19, 1), Err(31));
    for (past_sensor, refused) in [((1 << 20) - 1, None), (1 << 20, Some(30))] {
        let kept = Kept {
            past_sensor,
            past_output: 0,
            mark: 1,
        };
        let answer = scan(&mut State::by_hand(&set, &kept), on, 1);
        assert_eq!(answer.err().map(ScanRefusal::number), refused);
    }
}

#[test]
fn words_above_65535() {
    let clash: [(u8, &[u8]); 2] = [
        (7, &[0, 0, 0, 0, 16, 0, 0x80, 17, 0, 0x40, 0, 0]),
        (7, &[0, 0, 0, 0, 16, 0, 0x80, 17, 0, 0xC0, 0, 0]),
    ];
    assert_eq!(line(&file(18, 1, &[], &clash)), "CLASH 65537 0\n");
    let last: [(u8, &[u8]); 2] = [(7, &[0, 19, 0, 0x40, 1, 0]), (7, &[0, 18, 0, 0xC0, 1, 0])];
    assert_eq!(line(&file(20, 2, &[], &last)), "CLASH 786432 1\n");
    let endless: [(u8, &[u8]); 2] = [
        (7, &[0, 16, 0, 0x40, 0, 1, 0xC0, 1, 0]),
        (7, &[0, 16, 0, 0x40, 0, 1, 0x40, 1, 0]),
    ];
    assert_eq!(line(&file(17, 2, &[], &endless)), "NOEND 65536 1\n");
    assert_eq!(line(&file(20, 4, &[], &[])), "ACCEPT 20 4 0\n");
}

#[test]
fn names_and_text_above_15() {
    let constraint: [(u8, &[u8]); 1] = [(7, &[0x80, 2, 0, 0, 16, 0, 0xC0, 0, 7])];
    let set = loaded(&file(17, 1, &[[2, 15]], &constraint));
    assert_eq!(find(&set, b"q"), Ok(Point::Read(16)));
    let text = text(&set);
    assert!(text.contains("\npast q of p\nnever c off and q on and A off rank 7\nend\n"));
}

/// The part in the corpus that is committed, made once for all tests.
fn part() -> &'static [Case] {
    static PART: OnceLock<Vec<Case>> = OnceLock::new();
    PART.get_or_init(|| widening(1))
}

/// The sets of the part's files.
fn sets() -> Vec<Set> {
    let set = |case: &Case| match case {
        Case::File { file, .. } => load(file).ok(),
        _ => None,
    };
    part().iter().filter_map(set).collect()
}

/// The verdict word by word in rising order, each sort of active constraints
/// asked for once.
fn judged_in_order(set: &Set) -> Verdict {
    let r = set.reads.len();
    let mut known: HashMap<Vec<bool>, (bool, Option<u16>)> = HashMap::new();
    let mut first = None;
    for word in 0..1 << r {
        let reads = bits(word, r);
        let active = set.constraints.iter();
        let active = active.map(|c| read_literals_true(c, &reads)).collect();
        let (has_vector, endless) = *known
            .entry(active)
            .or_insert_with(|| (has_safe_vector(set, &reads), first_endless(set, &reads)));
        if !has_vector {
            return Verdict::NoVector(word);
        }
        first = first.or(endless.map(|request| Verdict::NoEnd(word, request)));
    }
    first.unwrap_or(Verdict::Accepted)
}

#[test]
fn verdicts_word_by_word() {
    let mut seen = [0; 4];
    let sets = sets();
    let few = sets.iter().filter(|set| set.constraints.len() < 8);
    for set in few.filter(|set| set.reads.len() == 17).step_by(3) {
        let verdict = judge(set);
        assert_eq!(judged_in_order(set), verdict.without_clash());
        seen[match verdict {
            Verdict::Accepted => 0,
            Verdict::NoVector(_) => 1,
            Verdict::Clash(..) => 2,
            Verdict::NoEnd(..) => 3,
        }] += 1;
    }
    assert!(seen.iter().all(|&count| count > 2), "{seen:?}");
    let large = sets.iter().filter(|set| set.reads.len() == 20);
    let high =
        |set: &&Set| matches!(judge(set).without_clash(), Verdict::NoVector(w) if w > 65_535);
    for set in large.filter(high).take(3) {
        assert_eq!(judged_in_order(set), judge(set).without_clash());
    }
}

#[test]
fn the_part_has_enough_of_each_sort() {
    let counts = counts(part());
    let needed = [narrow::needed(), misloads::needed(), fronts::needed()].concat();
    let mut short = Vec::new();
    for (sort, least) in needed {
        let count = counts.get(&sort).copied().unwrap_or(0);
        println!("{sort}: {count} of {least}");
        if count < least {
            short.push(sort);
        }
    }
    assert!(short.is_empty(), "{short:?}");
}

/// The loader that may go wrong is the loader where nothing does.
#[test]
fn the_model_loads_as_the_loader_does() {
    let mut seen = [0; 2];
    for case in part() {
        if let Case::File { file, .. } = case {
            if let Some(answer) = loaded_rightly(file) {
                assert_eq!(answer, load(file));
                seen[usize::from(answer.is_ok())] += 1;
            }
        }
    }
    assert!(seen.iter().all(|&count| count > 300), "{seen:?}");
}

/// How many words there are to go through, for all verdicts that the answers to
/// the part have. The proved program must not take too long for it.
#[test]
fn verdicts_take_some_time() {
    let mut all = 0;
    for case in part() {
        let (set, times) = match case {
            Case::File { file, .. } => (load(file).ok(), 3),
            Case::Buffers { file, sizes } => (load(file).ok(), 3 * sizes.len() as u64),
            Case::Raw { set, .. } => (well_formed(set), 1),
            _ => continue,
        };
        all += set.map_or(0, |set| times * cost(&set));
    }
    println!("{all}");
    assert!(all < 2_400_000_000, "{all}");
}

/// Some sorts, told without what goes wrong: a word above 65,535 is told, and a
/// vector is sent to a sensor word above that.
#[test]
fn sorts_by_their_own_words() {
    let mut shown = [0; 2];
    for set in sets() {
        let sorts = narrow::of_set(&set);
        let verdict = judge(&set).without_clash();
        let high = match verdict {
            Verdict::NoVector(word) | Verdict::NoEnd(word, _) => word > 65_535,
            _ => false,
        };
        let name = "the word were told modulo 65,536";
        assert_eq!(sorts.iter().any(|sort| sort.ends_with(name)), high);
        shown[usize::from(high)] += 1;
    }
    assert!(shown.iter().all(|&count| count > 50), "{shown:?}");
}

#[test]
fn answers_of_a_set_in_memory_whose_file_is_long() {
    let chance = &mut Chance::new(8);
    let mut set = high_points(chance, 20, 2);
    set.rest = Vec::new();
    let long: Vec<u8> = (0..20).flat_map(|k| [0, k, 0]).collect();
    let body = [long.as_slice(), &[0x40, 0, 0]].concat();
    let constraint = loaded(&file(20, 2, &[], &[(7, &body)]))
        .constraints
        .remove(0);
    set.constraints = vec![constraint; 64];
    let length = write(&set).len();
    assert!(length > 4096);
    let case = Case::Raw {
        set: laid_out(&set),
        list: None,
        names: Vec::new(),
    };
    // Kind R writes into 4,096 bytes.
    assert!(answer(&case).starts_with(&format!("SET 24/{length}:0 0 0/")));
}
