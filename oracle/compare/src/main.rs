//! Compares the port with goscript on bodies of many sorts, and its walks with
//! document 01's runner.

mod course;
mod difference;
mod edges;
mod failure;
mod go;
mod kinds;
mod lawful;
mod lent;
mod letters;
mod names;
mod numbers;
mod occurred;
mod options;
mod phases;
mod port;
mod progress;
mod random;
mod run;
mod runner;
mod shapes;
mod show;
mod shrink;
mod stock;
mod table;
mod tally;
mod walk;
mod walked;
mod walks;
mod well_formed;
mod words;

use run::Run;
use std::process::ExitCode;

fn main() -> ExitCode {
    match options::parse(std::env::args().skip(1)) {
        Ok(options) if options.help => {
            println!("{}", options::HELP);
            ExitCode::SUCCESS
        }
        Ok(options) => compare(&options),
        Err(wrong) => {
            eprintln!("{wrong}\n\n{}", options::HELP);
            ExitCode::from(2)
        }
    }
}

fn compare(options: &options::Options) -> ExitCode {
    difference::keep_panics();
    let mut run = Run::default();
    if let Err(failure) = phases::all(&mut run, options) {
        failure.report(options.seed);
        return ExitCode::FAILURE;
    }
    table::show(&run.lines);
    run.occurred.show();
    run.kinds.show();
    let missing = run.occurred.missing();
    if missing.is_empty() {
        return ExitCode::SUCCESS;
    }
    eprintln!("Never occurred: {}.", missing.join(", "));
    ExitCode::FAILURE
}
