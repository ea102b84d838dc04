//! `answers` reads a corpus on standard input and prints what this
//! implementation answers to each of its cases.

use reference::answer::answer;
use reference::records::cases;
use std::io::{Read, Write};
use std::process::ExitCode;

fn main() -> ExitCode {
    let mut corpus = Vec::new();
    if std::io::stdin().read_to_end(&mut corpus).is_err() {
        eprintln!("answers: cannot read standard input");
        return ExitCode::FAILURE;
    }
    let Some(cases) = cases(&corpus) else {
        eprintln!("answers: not a corpus");
        return ExitCode::FAILURE;
    };
    let answers: String = cases.iter().map(answer).collect();
    match std::io::stdout().write_all(answers.as_bytes()) {
        Ok(()) => ExitCode::SUCCESS,
        Err(_) => ExitCode::FAILURE,
    }
}
