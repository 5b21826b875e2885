//! The line on standard error that says how far the comparison is.

use crate::numbers::grouped;
use std::io::{stderr, IsTerminal, Write};
use std::time::{Duration, Instant};

pub struct Progress {
    phase: String,
    total: u64,
    started: Instant,
    shown: Instant,
    /// Renewed in place on a terminal; elsewhere, now and then, a new line.
    terminal: bool,
}

impl Progress {
    pub fn new(phase: &str, total: u64) -> Progress {
        let (now, terminal) = (Instant::now(), stderr().is_terminal());
        Progress { phase: phase.to_string(), total, started: now, shown: now, terminal }
    }

    /// Shows the line if it is time.
    pub fn at(&mut self, done: u64) {
        if !done.is_multiple_of(16) {
            return;
        }
        let wait = Duration::from_millis(if self.terminal { 200 } else { 10_000 });
        if self.shown.elapsed() >= wait {
            self.shown = Instant::now();
            self.show(done);
        }
    }

    fn show(&self, done: u64) {
        let rate = done as f64 / self.started.elapsed().as_secs_f64();
        let (done, total) = (grouped(done), grouped(self.total));
        let line = format!("{}: {done} of {total}, {} a second", self.phase, grouped(rate as u64));
        match self.terminal {
            true => eprint!("\r\x1b[K{line}"),
            false => eprintln!("{line}"),
        }
        _ = stderr().flush();
    }

    /// Takes the line away.
    pub fn end(&self) {
        if self.terminal {
            eprint!("\r\x1b[K");
        }
    }
}
