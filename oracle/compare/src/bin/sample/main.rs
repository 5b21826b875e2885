//! Writes a fixed list of body files with what program `marks` prints for
//! each, by the oracle alone. The port isn't asked.

mod chosen;
mod headers;
mod list;
mod summary;

use list::List;
use std::process::ExitCode;
use summary::Summary;

/// The list must stay under this size.
const LIMIT: usize = 1_500_000;

fn main() -> ExitCode {
    let given: Vec<String> = std::env::args().skip(1).collect();
    match given.as_slice() {
        [path] if !path.starts_with('-') => write(path),
        [help] if help == "--help" || help == "-h" => {
            println!("{}", list::HELP);
            ExitCode::SUCCESS
        }
        _ => {
            eprintln!("give one file to write\n\n{}", list::HELP);
            ExitCode::from(2)
        }
    }
}

fn write(path: &str) -> ExitCode {
    let mut list = List::default();
    chosen::all(&mut list);
    let summary = Summary::of(&list);
    let bytes = list.bytes();
    summary.show(bytes.len());
    let missing = summary.missing();
    if !missing.is_empty() || bytes.len() >= LIMIT {
        eprintln!("not written: {} bytes; never occurs: {}", bytes.len(), missing.join(", "));
        return ExitCode::FAILURE;
    }
    match std::fs::write(path, bytes) {
        Ok(()) => ExitCode::SUCCESS,
        Err(e) => {
            eprintln!("{path}: {e}");
            ExitCode::FAILURE
        }
    }
}
