//! Label-heavy: labelled loops, each with a labelled break and continue; one
//! in three has another inside, which leaves it.

use super::fill::{fill, names};
use oracle::bodies::rows::{block, body, break_to, continue_to, label, leaf, row, Rows};
use oracle::bodies::Rng;
use oracle::{kind, Body};

/// Rows of a loop without another inside.
const LOOP: usize = 8;

pub fn make(rng: &mut Rng, rows: usize) -> Body {
    let mut items: Vec<Rows> = vec![];
    let (mut left, mut count) = (rows - 1, 0);
    while left >= LOOP {
        let outer = count + 1;
        let inside = left >= 2 * LOOP && rng.one_in(3);
        let first = match inside {
            true => a_loop(rng, outer + 1, outer, leaf(kind::EXPR, 0)),
            false => leaf(kind::EXPR, 0),
        };
        let item = a_loop(rng, outer, outer, first);
        count += 1 + inside as u32;
        left -= item.len();
        items.push(item);
    }
    fill(&mut items, rows);
    body(&items, &names(rng, count as usize))
}

/// `name: for c { first; if c { break target }; continue name }`, or with
/// the keywords changed about.
fn a_loop(rng: &mut Rng, name: u32, target: u32, first: Rows) -> Rows {
    let (leaves, repeats) = match rng.one_in(2) {
        true => (break_to(target), continue_to(name)),
        false => (continue_to(target), break_to(name)),
    };
    let leave = row(kind::IF, 0, 0, &[block(&[leaves])]);
    label(name, row(kind::FOR, 1, 0, &[block(&[first, leave, repeats])]))
}
