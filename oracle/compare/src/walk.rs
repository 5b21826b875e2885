//! Document 02, U2: a walk of the runner by given choices, read plainly.

use crate::runner::{step, ways, State};
use oracle::Body;
use zesthull::Refusal;

/// The place reached, the steps made and the choices used.
#[derive(Clone, Copy, Debug, PartialEq, Eq)]
pub struct Walk {
    pub place: State,
    pub steps: usize,
    pub used: usize,
}

pub type Answer = Result<Walk, Refusal>;

/// The walk of a body without faults from row 0; `seen` is told each row
/// that a step is made from.
pub fn walk(body: &Body, choices: &[u32], limit: usize, mut seen: impl FnMut(usize)) -> Answer {
    let mut walk = Walk { place: State::Row(0), steps: 0, used: 0 };
    while walk.steps < limit {
        let State::Row(row) = walk.place else { break };
        let mut choice = 0;
        if let Some(ways) = ways(body, row) {
            let Some(&given) = choices.get(walk.used) else { break };
            choice = given as usize;
            if choice >= ways {
                return Err(Refusal { number: 9, index: walk.used });
            }
            walk.used += 1;
        }
        walk.place = step(body, row, choice).expect("a next state");
        walk.steps += 1;
        seen(row);
    }
    Ok(walk)
}

#[cfg(test)]
mod tests {
    use super::*;
    use oracle::bodies::rows::{body, over};
    use oracle::kind;

    /// `for range x {}`.
    fn told(choices: &[u32], limit: usize) -> Answer {
        walk(&body(&[over(kind::RANGE, &[])], &[""; 0]), choices, limit, |_| ())
    }

    #[test]
    fn ends_in_order() {
        let at = |place, steps, used| Ok(Walk { place, steps, used });
        assert_eq!(told(&[9], 0), at(State::Row(0), 0, 0));
        assert_eq!(told(&[9], 1), at(State::Row(1), 1, 0));
        assert_eq!(told(&[9], 2), Err(Refusal { number: 9, index: 0 }));
        assert_eq!(told(&[1, 2], 9), Err(Refusal { number: 9, index: 1 }));
        assert_eq!(told(&[1], 9), at(State::Row(1), 3, 1));
        assert_eq!(told(&[1, 0, 9], 9), at(State::Brace, 4, 2));
    }
}
