//! Times the port beside goscript, and its walk beside one over a tree of nodes.

mod batch;
mod classes;
mod machine;
mod measure;
mod options;
mod report;
mod tree;
mod walks;

use classes::{CLASSES, SIZES};
use measure::{measure, Effort};
use oracle::bodies::Rng;
use report::Line;
use std::process::ExitCode;
use std::time::Duration;

/// Different bodies of each class and size.
const POOL: usize = 64;

fn main() -> ExitCode {
    match options::parse(std::env::args().skip(1)) {
        Ok(options) if options.help => println!("{}", options::HELP),
        Ok(options) => time(options.quick),
        Err(wrong) => {
            eprintln!("{wrong}\n\n{}", options::HELP);
            return ExitCode::from(2);
        }
    }
    ExitCode::SUCCESS
}

fn time(quick: bool) {
    let effort = match quick {
        true => Effort { time: Duration::from_millis(100), rounds: 7 },
        false => Effort { time: Duration::from_millis(3_000), rounds: 31 },
    };
    let mut lines = vec![];
    for class in &CLASSES {
        for rows in SIZES {
            eprintln!("{}, {rows} rows", class.name);
            let mut rng = Rng::new(1);
            let pool: Vec<_> = (0..POOL).map(|_| (class.make)(&mut rng, rows)).collect();
            lines.push(Line { class: class.name, rows, figures: measure(&pool, &effort) });
        }
    }
    eprintln!("steps of a walk");
    let walks = walks::measure(&effort);
    let starts = SIZES.map(|rows| (rows, walks::measure_start(rows, &effort)));
    println!("{}\n", machine::line());
    report::show(&lines);
    report::show_walks(&walks, &starts);
}
