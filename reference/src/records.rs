//! The corpus as bytes: cases of five kinds, each a byte for its kind and then
//! its records, each a two-byte length and a body.

/// A scan: sensor word and request.
pub type Words = (u32, u16);

/// What a state keeps beside its set.
#[derive(Clone, Copy, Debug, Default, PartialEq, Eq)]
pub struct Kept {
    pub past_sensor: u32,
    pub past_output: u16,
    /// 0 says that no scan was accepted since the start, any other byte that
    /// one was.
    pub mark: u8,
}

/// A state made by hand, without its set, and the scans from it.
#[derive(Clone, Debug, PartialEq, Eq)]
pub struct List {
    pub first: Kept,
    pub scans: Vec<Words>,
}

/// The bytes of a set made by hand.
pub const SET_BYTES: usize = 1840;

const MOST_LIST_BYTES: usize = 4096;
const LARGEST_SIZE: u16 = 40_000;

/// One case of the corpus.
#[derive(Clone, Debug, PartialEq, Eq)]
pub enum Case {
    /// `F`: a file, and scans to run from its start.
    File { file: Vec<u8>, scans: Vec<Words> },
    /// `S`: a file, and a state made by hand with scans after it. No list is
    /// an empty record: pasts and mark 0, no scans.
    State { file: Vec<u8>, list: Option<List> },
    /// `N`: a file, and names to find in it.
    Names { file: Vec<u8>, names: Vec<Vec<u8>> },
    /// `B`: a file, and sizes of buffers to lend.
    Buffers { file: Vec<u8>, sizes: Vec<u16> },
    /// `R`: a set made by hand, a state and scans as in `S`, and names.
    Raw {
        set: Vec<u8>,
        list: Option<List>,
        names: Vec<Vec<u8>>,
    },
}

/// The bytes of a case, or nothing if a record is longer than the corpus may
/// have it or holds what it may not.
pub fn case_bytes(case: &Case) -> Option<Vec<u8>> {
    let (kind, records) = match case {
        Case::File { file, scans } => (b'F', vec![file.clone(), words_bytes(scans)?]),
        Case::State { file, list } => (b'S', vec![file.clone(), list_bytes(list)?]),
        Case::Names { file, names } => (b'N', vec![file.clone(), names_bytes(names)?]),
        Case::Buffers { file, sizes } => (b'B', vec![file.clone(), sizes_bytes(sizes)?]),
        Case::Raw { set, list, names } => {
            let set = (set.len() == SET_BYTES).then(|| set.clone())?;
            (b'R', vec![set, list_bytes(list)?, names_bytes(names)?])
        }
    };
    let mut bytes = vec![kind];
    for record in records {
        bytes.extend(u16::try_from(record.len()).ok()?.to_be_bytes());
        bytes.extend(record);
    }
    Some(bytes)
}

fn words_bytes(scans: &[Words]) -> Option<Vec<u8>> {
    let mut bytes = Vec::new();
    for (sensor, request) in scans {
        bytes.extend(sensor.to_be_bytes());
        bytes.extend(request.to_be_bytes());
    }
    (bytes.len() <= MOST_LIST_BYTES).then_some(bytes)
}

fn list_bytes(list: &Option<List>) -> Option<Vec<u8>> {
    let Some(List { first, scans }) = list else {
        return Some(Vec::new());
    };
    let mut bytes = first.past_sensor.to_be_bytes().to_vec();
    bytes.extend(first.past_output.to_be_bytes());
    bytes.push(first.mark);
    bytes.extend(words_bytes(scans)?);
    (bytes.len() <= MOST_LIST_BYTES).then_some(bytes)
}

fn names_bytes(names: &[Vec<u8>]) -> Option<Vec<u8>> {
    let mut bytes = Vec::new();
    for name in names {
        bytes.push(u8::try_from(name.len()).ok()?);
        bytes.extend(name);
    }
    (bytes.len() <= MOST_LIST_BYTES).then_some(bytes)
}

fn sizes_bytes(sizes: &[u16]) -> Option<Vec<u8>> {
    let bytes: Vec<u8> = sizes.iter().flat_map(|size| size.to_be_bytes()).collect();
    let good = sizes.iter().all(|&size| size <= LARGEST_SIZE);
    (good && bytes.len() <= MOST_LIST_BYTES).then_some(bytes)
}

/// All cases of a corpus, or nothing if it is cut off or ill made.
pub fn cases(corpus: &[u8]) -> Option<Vec<Case>> {
    let mut rest = corpus;
    let mut found = Vec::new();
    while let [kind, after @ ..] = rest {
        rest = after;
        found.push(take_case(*kind, &mut rest)?);
    }
    Some(found)
}

/// The case of this kind whose records come first in what is left.
fn take_case(kind: u8, rest: &mut &[u8]) -> Option<Case> {
    let file = take_record(rest)?.to_vec();
    let second = take_record(rest)?;
    match kind {
        b'F' => words_of(second).map(|scans| Case::File { file, scans }),
        b'S' => list_of(second).map(|list| Case::State { file, list }),
        b'N' => names_of(second).map(|names| Case::Names { file, names }),
        b'B' => sizes_of(second).map(|sizes| Case::Buffers { file, sizes }),
        b'R' if file.len() == SET_BYTES => Some(Case::Raw {
            set: file,
            list: list_of(second)?,
            names: names_of(take_record(rest)?)?,
        }),
        _ => None,
    }
}

fn take_record<'a>(rest: &mut &'a [u8]) -> Option<&'a [u8]> {
    let (header, after) = rest.split_first_chunk::<2>()?;
    let length = usize::from(u16::from_be_bytes(*header));
    let body = after.get(..length)?;
    *rest = &after[length..];
    Some(body)
}

fn words_of(body: &[u8]) -> Option<Vec<Words>> {
    let pairs = body.chunks(6).map(|bytes| {
        let (long, rest) = bytes.split_first_chunk::<4>()?;
        let short = <[u8; 2]>::try_from(rest).ok()?;
        Some((u32::from_be_bytes(*long), u16::from_be_bytes(short)))
    });
    pairs.collect()
}

/// The list of a record that is empty or begins with a state.
fn list_of(body: &[u8]) -> Option<Option<List>> {
    if body.is_empty() {
        return Some(None);
    }
    let (pasts, rest) = body.split_first_chunk::<6>()?;
    let (&mark, scans) = rest.split_first()?;
    let (past_sensor, past_output) = *words_of(pasts)?.first()?;
    let first = Kept {
        past_sensor,
        past_output,
        mark,
    };
    let scans = words_of(scans)?;
    Some(Some(List { first, scans }))
}

fn names_of(body: &[u8]) -> Option<Vec<Vec<u8>>> {
    let mut rest = body;
    let mut names = Vec::new();
    while let [length, after @ ..] = rest {
        let length = usize::from(*length);
        names.push(after.get(..length)?.to_vec());
        rest = &after[length..];
    }
    Some(names)
}

fn sizes_of(body: &[u8]) -> Option<Vec<u16>> {
    let sizes = body.chunks(2).map(|bytes| {
        let bytes = <[u8; 2]>::try_from(bytes).ok()?;
        Some(u16::from_be_bytes(bytes))
    });
    sizes.collect()
}

#[cfg(test)]
mod tests {
    use super::*;

    /// A case of each kind, with an empty record of each sort among them.
    fn one_of_each() -> Vec<Case> {
        let file = b"abc".to_vec();
        let scans = vec![(0x8000_0001, 0xFFFE), (0, 1)];
        let first = Kept {
            past_sensor: 0x8000_0001,
            past_output: 0xFFFE,
            mark: 0xFF,
        };
        let list = Some(List { first, scans });
        let names = vec![Vec::new(), vec![0], vec![b'x'; 255]];
        vec![
            Case::File {
                file: Vec::new(),
                scans: Vec::new(),
            },
            Case::State {
                file: file.clone(),
                list: None,
            },
            Case::State {
                file: file.clone(),
                list: list.clone(),
            },
            Case::Names {
                file: file.clone(),
                names: names.clone(),
            },
            Case::Buffers {
                file,
                sizes: vec![0, 1, 40_000],
            },
            Case::Raw {
                set: vec![7; SET_BYTES],
                list,
                names,
            },
        ]
    }

    #[test]
    fn cases_are_read_back() {
        let all = one_of_each();
        let bytes: Vec<u8> = all.iter().filter_map(case_bytes).flatten().collect();
        assert_eq!(cases(&bytes), Some(all));
        assert_eq!(cases(&bytes[..bytes.len() - 1]), None);
        assert_eq!(cases(&[]), Some(Vec::new()));
    }

    #[test]
    fn the_bytes_of_a_case() {
        let first = Kept {
            past_sensor: 1,
            past_output: 2,
            mark: 3,
        };
        let case = |scans: &[Words]| Case::State {
            file: vec![9],
            list: Some(List {
                first,
                scans: scans.to_vec(),
            }),
        };
        let bytes = [b'S', 0, 1, 9, 0, 7, 0, 0, 0, 1, 0, 2, 3];
        assert_eq!(case_bytes(&case(&[])), Some(bytes.to_vec()));
        let mut bytes = bytes.to_vec();
        bytes[5] = 13;
        bytes.extend([0, 0, 0, 4, 0, 5]);
        assert_eq!(case_bytes(&case(&[(4, 5)])), Some(bytes));
    }

    #[test]
    fn what_is_no_corpus() {
        for bytes in [
            b"F".as_slice(),
            b"F\0\0",
            b"F\0\0\0",
            b"X\0\0\0\0",
            b"F\0\0\0\x05\0\0\0\0\0",
            b"F\0\0\0\x07\0\0\0\0\0\0\0",
            b"S\0\0\0\x06\0\0\0\0\0\0",
            b"S\0\0\0\x0C\0\0\0\0\0\0\0\0\0\0\0\0",
            b"N\0\0\0\x02\x02a",
            b"B\0\0\0\x01\0",
            b"R\0\0\0\0\0\0",
        ] {
            assert_eq!(cases(bytes), None, "{bytes:?}");
        }
    }

    #[test]
    fn what_is_too_long() {
        let file = Vec::new;
        let scans = |count| Case::File {
            file: file(),
            scans: vec![(0, 0); count],
        };
        assert!(case_bytes(&scans(682)).is_some());
        assert!(case_bytes(&scans(683)).is_none());
        // 681 scans behind a state are 4,093 bytes.
        let list = |count| Case::State {
            file: file(),
            list: Some(List {
                first: Kept::default(),
                scans: vec![(0, 0); count],
            }),
        };
        assert_eq!(case_bytes(&list(681)).map(|b| b.len()), Some(5 + 4093));
        assert!(case_bytes(&list(682)).is_none());
        let names = |length| Case::Names {
            file: file(),
            names: vec![vec![0; length]],
        };
        assert!(case_bytes(&names(255)).is_some());
        assert!(case_bytes(&names(256)).is_none());
        let sizes = |size| Case::Buffers {
            file: file(),
            sizes: vec![size],
        };
        assert!(case_bytes(&sizes(40_001)).is_none());
    }
}
