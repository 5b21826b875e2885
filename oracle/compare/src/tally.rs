//! Document 02, U1: the labelled branches of a body add up, counted from its
//! rows and from goscript's own answer.

use crate::difference::{Checked, Difference};
use oracle::{kind, Answer, Body};

#[derive(Clone, Copy, Default)]
pub struct Tally {
    /// Branch rows with a name.
    pub labelled: u64,
    /// Branch rows with a nonzero binding.
    pub bound: u64,
    /// Sheet rows with the codes 4 to 8.
    pub unbound: u64,
}

impl Tally {
    fn of(body: &Body, answer: &Answer) -> Tally {
        let branches = || (0..).zip(&body.rows).filter(|(_, row)| row[0] == kind::BRANCH);
        Tally {
            labelled: branches().filter(|(_, row)| row[3] != 0).count() as u64,
            bound: branches().filter(|&(r, _): &(usize, _)| answer.bindings[r] != 0).count() as u64,
            unbound: answer.sheet.iter().filter(|row| (4..=8).contains(&row[0])).count() as u64,
        }
    }
}

/// The tally of goscript's answer; a difference unless it adds up.
pub fn check(body: &Body, answer: &Answer) -> Checked<Tally> {
    let tally = Tally::of(body, answer);
    let Tally { labelled, bound, unbound } = tally;
    match labelled == bound + unbound {
        true => Ok(tally),
        false => Err(Difference {
            what: format!("{labelled} labelled branches, {bound} bound, {unbound} on the sheet"),
            port: String::new(),
            oracle: String::new(),
        }),
    }
}

#[test]
fn a_branch_that_is_nowhere_is_a_difference() {
    // { goto A }
    let rows = vec![[12, 0, 1, 0, 2], [11, 2, 2, 1, 1]];
    let body = Body { rows, pairs: vec![[0, 1]], bytes: b"A".to_vec() };
    let answer = |sheet: Vec<[u32; 4]>| Answer { sheet, bindings: vec![0, 0], terminating: true };
    assert!(check(&body, &answer(vec![[8, 2, 1, 0]])).is_ok());
    assert!(check(&body, &answer(vec![[9, 2, 1, 0]])).is_err());
    assert!(check(&body, &answer(vec![])).is_err());
}
