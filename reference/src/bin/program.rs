//! `program` prints the verdict program's line for standard input, and
//! `program input` the long file that the verdict program is tried with.

use reference::corpus::fronts::program_input;
use reference::program::line;
use std::io::{Read, Write};
use std::process::ExitCode;

fn main() -> ExitCode {
    let output = match std::env::args().nth(1).as_deref() {
        Some("input") => program_input(),
        Some(_) => {
            eprintln!("usage: program [input]");
            return ExitCode::FAILURE;
        }
        None => {
            let mut input = Vec::new();
            if std::io::stdin().read_to_end(&mut input).is_err() {
                eprintln!("program: cannot read standard input");
                return ExitCode::FAILURE;
            }
            line(&input).into_bytes()
        }
    };
    match std::io::stdout().write_all(&output) {
        Ok(()) => ExitCode::SUCCESS,
        Err(_) => ExitCode::FAILURE,
    }
}
