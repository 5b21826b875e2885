//! Prints what goscript's `labels` and `is_terminating` take a row.

use oracle::bodies::{at_limits, people, Rng};
use oracle::{stock, Body};
use std::hint::black_box;
use std::time::Instant;

fn main() {
    let mut rng = Rng::new(7);
    show("as people write them", &people(&mut rng, 1_876));
    for (name, body) in at_limits() {
        show(name, &body);
    }
}

/// The least of many times, in nanoseconds a row.
fn show(name: &str, body: &Body) {
    let mut prepared = stock::Prepared::new(body);
    let (mut labels, mut verdict) = (f64::MAX, f64::MAX);
    for _ in 0..40 {
        prepared.clear();
        labels = labels.min(time(|| prepared.labels()));
        verdict = verdict.min(time(|| _ = black_box(prepared.is_terminating())));
    }
    let rows = body.rows.len() as f64;
    println!("{:8.1} {:8.1}  {name}", labels / rows, verdict / rows);
}

/// Nanoseconds of one call among ten.
fn time(mut call: impl FnMut()) -> f64 {
    let start = Instant::now();
    for _ in 0..10 {
        call();
    }
    start.elapsed().as_nanos() as f64 / 10.0
}
