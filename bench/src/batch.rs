//! A few bodies, ready for both sides and timed together. Before each time
//! taken the same work is done once untimed, so that both sides find their
//! bodies in the cache.

use oracle::{stock, Body};
use std::hint::black_box;
use std::time::{Duration, Instant};

pub struct Batch {
    bodies: Vec<Body>,
    prepared: Vec<stock::Prepared>,
    sheet: Vec<u32>,
    bindings: Vec<u32>,
}

/// One of the port's calls; sheet and bindings are there for those that write.
pub type Call = fn(zesthull::Body, &mut [u32], &mut [u32]);

impl Batch {
    pub fn new(bodies: &[Body]) -> Batch {
        let rows = bodies.iter().map(|body| body.rows.len()).max().unwrap();
        assert!(bodies.iter().all(|body| zesthull::refusal(lend(body)).is_ok()));
        Batch {
            bodies: bodies.to_vec(),
            prepared: bodies.iter().map(stock::Prepared::new).collect(),
            sheet: vec![0; 8 * rows],
            bindings: vec![0; rows],
        }
    }

    /// What one of the port's calls takes on all bodies.
    pub fn port(&mut self, call: Call) -> Duration {
        self.call(call);
        let start = Instant::now();
        self.call(call);
        start.elapsed()
    }

    fn call(&mut self, call: Call) {
        for body in &self.bodies {
            call(lend(body), &mut self.sheet, &mut self.bindings);
        }
    }

    /// What goscript's `labels` and `is_terminating` take on all bodies. What
    /// `labels` leaves is dropped before, outside the time taken.
    pub fn goscript(&mut self) -> Duration {
        self.labels_and_verdict();
        self.prepared.iter_mut().for_each(stock::Prepared::clear);
        let start = Instant::now();
        self.labels_and_verdict();
        start.elapsed()
    }

    fn labels_and_verdict(&mut self) {
        for prepared in &mut self.prepared {
            prepared.labels();
            black_box(prepared.is_terminating());
        }
    }
}

pub fn lend(body: &Body) -> zesthull::Body<'_> {
    let (rows, pairs) = (body.rows.as_flattened(), body.pairs.as_flattened());
    zesthull::Body { rows, pairs, bytes: &body.bytes }
}

/// What taking a time takes, which is no part of the work timed.
pub fn timer() -> Duration {
    let mut times: Vec<Duration> = (0..1_001).map(|_| Instant::now().elapsed()).collect();
    times.sort();
    times[500]
}
