//! What occurred in walks.

use crate::runner::State;
use crate::walk::{Answer, Walk};
use oracle::{branch, kind};

#[derive(Default)]
pub struct Walked {
    /// Bodies without faults, which are walked, and bodies that 8 refuses.
    pub bodies: u64,
    pub faulty: u64,
    pub walks: u64,
    pub steps: u64,
    /// Choices used.
    pub used: u64,
    /// How the walks ended, in the order of `ENDS`.
    ends: [u64; 5],
    /// Steps from rows of each kind.
    pub kinds: [u64; 21],
    /// Steps from Branch rows, in the order of `BRANCHES`.
    branches: [u64; 6],
}

const ENDS: [&str; 5] =
    ["stopped", "at the brace", "at the limit", "without a choice left", "refused with 9"];

const BRANCHES: [&str; 6] =
    ["break", "continue", "fallthrough", "labelled break", "labelled continue", "goto"];

impl Walked {
    pub fn add(&mut self, more: &Walked) {
        self.bodies += more.bodies;
        self.faulty += more.faulty;
        self.walks += more.walks;
        self.steps += more.steps;
        self.used += more.used;
        self.ends.iter_mut().zip(more.ends).for_each(|(all, more)| *all += more);
        self.kinds.iter_mut().zip(more.kinds).for_each(|(all, more)| *all += more);
        self.branches.iter_mut().zip(more.branches).for_each(|(all, more)| *all += more);
    }

    pub fn by_end(&self) -> impl Iterator<Item = (&'static str, u64)> {
        ENDS.into_iter().zip(self.ends)
    }

    pub fn by_branch(&self) -> impl Iterator<Item = (&'static str, u64)> {
        BRANCHES.into_iter().zip(self.branches)
    }

    /// Walked that 9 refuses.
    pub fn out_of_range(&self) -> u64 {
        self.ends[4]
    }

    /// A step from a row.
    pub fn note_step(&mut self, [kind, detail, _, name, _]: [u32; 5]) {
        self.steps += 1;
        self.kinds[kind as usize] += 1;
        let branch = match (kind, detail) {
            (kind::BRANCH, branch::GOTO) => 5,
            (kind::BRANCH, branch::FALLTHROUGH) => 2,
            (kind::BRANCH, _) => 3 * (name != 0) as usize + detail as usize,
            _ => return,
        };
        self.branches[branch] += 1;
    }

    /// The end of a walk with this limit.
    pub fn note_end(&mut self, answer: &Answer, limit: usize) {
        self.walks += 1;
        let end = match *answer {
            Err(_) => 4,
            Ok(Walk { place: State::Stopped, .. }) => 0,
            Ok(Walk { place: State::Brace, .. }) => 1,
            Ok(Walk { steps, .. }) if steps == limit => 2,
            Ok(_) => 3,
        };
        self.ends[end] += 1;
        self.used += answer.map_or_else(|refusal| refusal.index, |walk| walk.used) as u64;
    }
}
