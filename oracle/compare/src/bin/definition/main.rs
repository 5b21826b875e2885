//! Writes bodies with what both builds of the oracle answer for them, as a
//! file of definitions that crate `goscript_cases` computes.

mod chosen;
mod summary;
mod terms;

use std::process::ExitCode;
use summary::Summary;

const HELP: &str = "\
definition FILE writes bodies with the answers of both builds of goscript, as
definitions for crate goscript_cases. Exit code: 0 written, 1 not written,
2 wrong arguments.";

fn main() -> ExitCode {
    let given: Vec<String> = std::env::args().skip(1).collect();
    match given.as_slice() {
        [path] if !path.starts_with('-') => write(path),
        [help] if help == "--help" || help == "-h" => {
            println!("{HELP}");
            ExitCode::SUCCESS
        }
        _ => {
            eprintln!("give one file to write\n\n{HELP}");
            ExitCode::from(2)
        }
    }
}

fn write(path: &str) -> ExitCode {
    let cases = chosen::all();
    let summary = Summary::of(&cases);
    println!("{summary}");
    let missing = summary.missing();
    if !missing.is_empty() {
        eprintln!("not written: never occurs: {}", missing.join(", "));
        return ExitCode::FAILURE;
    }
    match std::fs::write(path, terms::file(&cases)) {
        Ok(()) => ExitCode::SUCCESS,
        Err(e) => {
            eprintln!("{path}: {e}");
            ExitCode::FAILURE
        }
    }
}
