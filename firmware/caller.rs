// The example in Rust, with the same arguments and the same lines: caller SET [sensor request].. [name]
//     rustc --edition 2021 -O firmware/caller.rs -C link-arg=target/staticlib/libfirmware.a
// The wrappers are safe for all inputs: a slice is never null and has the bytes that it says, and what is lent by `&mut` overlaps nothing else. They
// are the header's prototypes over again: whoever changes one changes both.
use std::mem::size_of;

#[repr(C)]
#[derive(Clone, Copy, Debug, PartialEq)]
pub struct Past {
    pub output: u16,
    pub accepted: u8,
    pub sensor: u32,
}

#[repr(C)]
#[derive(Clone, Copy, Debug, PartialEq)]
pub struct LoadResult {
    pub number: u8,
    pub r: u8,
    pub n: u8,
    pub m: u8,
    pub offset: usize,
}

#[repr(C)]
#[derive(Clone, Copy, Debug, PartialEq)]
pub struct Verdict {
    pub number: u8,
    pub output: u8,
    pub request: u16,
    pub word: u32,
}

#[repr(C)]
#[derive(Clone, Copy, Debug, PartialEq)]
pub struct StartResult {
    pub verdict: Verdict,
    pub past: Past,
}

#[repr(C)]
#[derive(Clone, Copy, Debug, PartialEq)]
pub struct ScanResult {
    pub number: u8,
    pub vector: u16,
    pub passes: u16,
    pub past: Past,
}

#[repr(C)]
#[derive(Clone, Copy, Debug, PartialEq)]
pub struct FindResult {
    pub number: u8,
    pub output: u8,
    pub point: usize,
}

// Filled by `prepare` alone.
#[repr(C)]
#[derive(Clone)]
pub struct Prepared {
    bytes: [u8; 1837],
}

const _: () = assert!(size_of::<Past>() == 8 && size_of::<Verdict>() == 8 && size_of::<Prepared>() == 1837);
const _: () = assert!(size_of::<LoadResult>() == 16 && size_of::<StartResult>() == 16);
const _: () = assert!(size_of::<ScanResult>() == 16 && size_of::<FindResult>() == 16);

extern "C" {
    fn rsf_load(file: *const u8, len: usize) -> LoadResult;
    fn rsf_judge(file: *const u8, len: usize, scratch: *mut u8, room: usize) -> Verdict;
    fn rsf_start(file: *const u8, len: usize, scratch: *mut u8, room: usize) -> StartResult;
    fn rsf_scan(file: *const u8, len: usize, past: Past, sensor: u32, request: u16) -> ScanResult;
    fn rsf_find(file: *const u8, len: usize, name: *const u8, name_len: usize) -> FindResult;
    fn rsf_prepare(file: *const u8, len: usize, prepared: *mut Prepared) -> LoadResult;
    fn rsf_scan_prepared(prepared: *const Prepared, past: Past, sensor: u32, request: u16) -> ScanResult;
}

pub fn load(file: &[u8]) -> LoadResult {
    unsafe { rsf_load(file.as_ptr(), file.len()) }
}

pub fn judge(file: &[u8], scratch: &mut [u8]) -> Verdict {
    unsafe { rsf_judge(file.as_ptr(), file.len(), scratch.as_mut_ptr(), scratch.len()) }
}

pub fn start(file: &[u8], scratch: &mut [u8]) -> StartResult {
    unsafe { rsf_start(file.as_ptr(), file.len(), scratch.as_mut_ptr(), scratch.len()) }
}

pub fn scan(file: &[u8], past: Past, sensor: u32, request: u16) -> ScanResult {
    unsafe { rsf_scan(file.as_ptr(), file.len(), past, sensor, request) }
}

pub fn find(file: &[u8], name: &[u8]) -> FindResult {
    unsafe { rsf_find(file.as_ptr(), file.len(), name.as_ptr(), name.len()) }
}

// The set, where the file loads; else the refusal.
pub fn prepare(file: &[u8]) -> Result<Prepared, LoadResult> {
    let mut prepared = Prepared { bytes: [0; 1837] };
    let loaded = unsafe { rsf_prepare(file.as_ptr(), file.len(), &mut prepared) };
    if loaded.number == 0 { Ok(prepared) } else { Err(loaded) }
}

pub fn scan_prepared(prepared: &Prepared, past: Past, sensor: u32, request: u16) -> ScanResult {
    unsafe { rsf_scan_prepared(prepared, past, sensor, request) }
}

// One scan, by both functions; the past for the next.
fn turn(file: &[u8], set: &Prepared, past: Past, sensor: u32, request: u16) -> Past {
    let s = scan(file, past, sensor, request);
    assert_eq!(s, scan_prepared(set, past, sensor, request));
    if s.number == 0 {
        println!("send {} after {} passes", s.vector, s.passes);
    } else {
        println!("alarm: the scan is refused, {}; nothing is sent", s.number);
    }
    s.past
}

fn main() {
    let words: Vec<String> = std::env::args().skip(2).collect();
    let file = std::fs::read(std::env::args().nth(1).expect("a set file")).expect("a file that can be read");
    let set = match prepare(&file) {
        Ok(set) => set,
        Err(l) => {
            assert_eq!(l, load(&file));
            println!("do not run: the file is refused, {} at byte {}", l.number, l.offset);
            std::process::exit(1);
        }
    };
    let StartResult { verdict: v, mut past } = start(&file, &mut [0; 512]);
    assert_eq!(v, judge(&file, &mut [0; 512]));
    if v.number != 0 {
        println!("do not run: the set is refused, {}; read word {}, output {}, request {}", v.number, v.word, v.output, v.request);
        std::process::exit(1);
    }
    for pair in words.chunks_exact(2) {
        past = turn(&file, &set, past, pair[0].parse().expect("a sensor word"), pair[1].parse().expect("a request"));
    }
    if let [name] = words.chunks_exact(2).remainder() {
        let f = find(&file, name.as_bytes());
        match (f.number, f.output) {
            (0, 0) => println!("{name} is read point {}", f.point),
            (0, _) => println!("{name} is output {}", f.point),
            _ => println!("{name} is refused, {}", f.number),
        }
    }
}
