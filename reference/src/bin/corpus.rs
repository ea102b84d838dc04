//! `corpus SEED` writes a corpus to standard output, and counts of what is in
//! it to standard error.

use reference::corpus::corpus;
use reference::corpus::counts::{counts, missing};
use reference::records::case_bytes;
use std::io::Write;
use std::process::ExitCode;

fn main() -> ExitCode {
    let seed = std::env::args().nth(1).and_then(|s| s.parse().ok());
    let Some(seed) = seed else {
        eprintln!("usage: corpus SEED");
        return ExitCode::FAILURE;
    };
    let cases = corpus(seed);
    let counts = counts(&cases);
    for (sort, count) in &counts {
        eprintln!("{sort}: {count}");
    }
    let missing = missing(&counts);
    if !missing.is_empty() {
        eprintln!("corpus: not enough of {missing:?}");
        return ExitCode::FAILURE;
    }
    let bytes: Option<Vec<Vec<u8>>> = cases.iter().map(case_bytes).collect();
    let Some(bytes) = bytes else {
        eprintln!("corpus: a record is too long");
        return ExitCode::FAILURE;
    };
    match std::io::stdout().write_all(&bytes.concat()) {
        Ok(()) => ExitCode::SUCCESS,
        Err(_) => ExitCode::FAILURE,
    }
}
