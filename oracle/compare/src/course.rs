//! Random choices for a walk, and what is made of them: too few, too many, out
//! of range, with limits at each edge.

use crate::runner::{step, ways, State};
use oracle::bodies::Rng;
use oracle::Body;

/// Random choices in range, and the walk by them.
pub struct Course {
    choices: Vec<u32>,
    /// The forks of the choices: the steps made before each, and its ways.
    forks: Vec<(usize, usize)>,
    steps: usize,
    /// Whether the walk stopped or came to the brace.
    is_over: bool,
}

impl Course {
    /// A walk of so many steps at most.
    pub fn random(rng: &mut Rng, body: &Body, most: usize) -> Course {
        let (mut choices, mut forks, mut place) = (vec![], vec![], State::Row(0));
        for steps in 0..most {
            let State::Row(row) = place else {
                return Course { choices, forks, steps, is_over: true };
            };
            let mut choice = 0;
            if let Some(ways) = ways(body, row) {
                choice = rng.below(ways);
                choices.push(choice as u32);
                forks.push((steps, ways));
            }
            place = step(body, row, choice).expect("a next state");
        }
        Course { choices, forks, steps: most, is_over: false }
    }

    /// Choices and limits: as they are, with any limit up to the end, and
    /// with choices too many, too few and out of range. No limit is greater
    /// than the walk where nothing else ends it.
    pub fn variants(&self, rng: &mut Rng) -> Vec<(Vec<u32>, usize)> {
        let Course { choices, forks, steps, is_over } = self;
        let whole = if *is_over { rng.pick(&[*steps, steps + 1, usize::MAX]) } else { *steps };
        let more = [&choices[..], &[rng.next() as u32, u32::MAX]].concat();
        let mut all = vec![(choices.clone(), whole), (more, whole)];
        all.push((choices.clone(), rng.below(steps + 1)));
        if forks.is_empty() {
            return all;
        }
        let at = rng.below(forks.len());
        let (before, ways) = forks[at];
        all.push((choices[..at].to_vec(), rng.pick(&[before + 1, usize::MAX])));
        let mut spoilt = choices.clone();
        let (ways, far) = (ways as u32, choices[at] + rng.pick(&[1 << 8, 1 << 16, 1 << 31]));
        spoilt[at] = rng.pick(&[ways, ways + 1, far.max(ways)]);
        all.push((spoilt.clone(), before));
        all.push((spoilt, rng.pick(&[before + 1, usize::MAX])));
        all
    }
}
