//! Many rounds over a pool of bodies, both sides by turns.

use crate::batch::{timer, Batch, Call};
use oracle::Body;
use std::hint::black_box;
use std::time::{Duration, Instant};

/// The port's calls: all in one, then one by one.
pub const CALLS: [Call; 5] = [
    |body, sheet, bindings| _ = black_box(zesthull::marks(body, sheet, bindings)),
    |body, _, _| _ = black_box(zesthull::refusal(body)),
    |body, sheet, bindings| _ = black_box(zesthull::labels(body, sheet, bindings)),
    |body, _, _| _ = black_box(zesthull::placing(body)),
    |body, _, _| _ = black_box(zesthull::verdict(body)),
];

/// goscript, then the port's calls.
const SIDES: usize = 1 + CALLS.len();

/// Bodies timed together at most, and rows.
const BATCH: usize = 16;
const BATCH_ROWS: usize = 2_000;

/// How long to measure one pool, and how many rounds at least.
pub struct Effort {
    pub time: Duration,
    pub rounds: usize,
}

/// Nanoseconds a row, a step or a body.
#[derive(Clone, Copy)]
pub struct Figure {
    pub median: f64,
    pub least: f64,
}

pub struct Figures {
    pub goscript: Figure,
    /// In the order of `CALLS`.
    pub port: [Figure; 5],
}

pub fn measure(pool: &[Body], effort: &Effort) -> Figures {
    let (rows, mut batches) = (row_count(pool), batches(pool));
    let (started, timer) = (Instant::now(), timer());
    round(&mut batches, 0, timer);
    let mut rounds = vec![];
    while rounds.len() < effort.rounds || started.elapsed() < effort.time {
        rounds.push(round(&mut batches, rounds.len(), timer));
    }
    let figure = |side: usize| figure(rounds.iter().map(|round| round[side]).collect(), rows);
    Figures { goscript: figure(0), port: [1, 2, 3, 4, 5].map(figure) }
}

/// What one call alone takes, a body.
pub fn measure_call(pool: &[Body], call: Call, effort: &Effort) -> Figure {
    let mut batches = batches(pool);
    let (started, timer) = (Instant::now(), timer());
    let mut times = vec![];
    while times.len() < effort.rounds || started.elapsed() < effort.time {
        times.push(batches.iter_mut().map(|batch| batch.port(call).saturating_sub(timer)).sum());
    }
    figure(times, pool.len())
}

fn row_count(pool: &[Body]) -> usize {
    pool.iter().map(|body| body.rows.len()).sum()
}

fn batches(pool: &[Body]) -> Vec<Batch> {
    let size = (BATCH_ROWS * pool.len() / row_count(pool)).clamp(1, BATCH);
    pool.chunks(size).map(Batch::new).collect()
}

/// What each side takes on the whole pool. The sides take turns, and the
/// first of them changes from round to round. No side meets a body that
/// another side has just had, so that none profits from what the processor
/// has learned about it.
fn round(batches: &mut [Batch], number: usize, timer: Duration) -> [Duration; SIDES] {
    let mut times = [Duration::ZERO; SIDES];
    for turn in 0..SIDES {
        let side = (number + turn) % SIDES;
        for batch in batches.iter_mut() {
            let time = match side {
                0 => batch.goscript(),
                _ => batch.port(CALLS[side - 1]),
            };
            times[side] += time.saturating_sub(timer);
        }
    }
    times
}

/// A figure from the times of rounds over so many rows, steps or bodies.
pub fn figure(mut times: Vec<Duration>, count: usize) -> Figure {
    times.sort();
    let each = |time: Duration| time.as_nanos() as f64 / count as f64;
    Figure { median: each(times[times.len() / 2]), least: each(times[0]) }
}
