//! Deep: statements each inside the one before, of any kind, up to 100 deep;
//! then the next such nest. No names.

use oracle::bodies::rows::{block, body, leaf, over, row, Rows};
use oracle::bodies::Rng;
use oracle::{kind, Body};

/// How deep a nest may be: row 0 stands above it.
const DEPTH: usize = 99;

pub fn make(rng: &mut Rng, rows: usize) -> Body {
    let mut nests: Vec<Rows> = vec![];
    let mut left = rows - 1;
    while left > 0 {
        let nest = nest(rng, left);
        left -= nest.len();
        nests.push(nest);
    }
    nests.reverse();
    body(&nests, &[""; 0])
}

/// A return and statements around it, as deep as rows and depth allow.
fn nest(rng: &mut Rng, rows: usize) -> Rows {
    let (mut nest, mut depth) = (leaf(kind::RETURN, 0), 1);
    loop {
        let (outer, deeper) = around(rng, nest.clone());
        if outer.len() > rows || depth + deeper > DEPTH {
            return nest;
        }
        (nest, depth) = (outer, depth + deeper);
    }
}

/// A statement around another, and how many levels it adds.
fn around(rng: &mut Rng, inner: Rows) -> (Rows, usize) {
    match rng.below(6) {
        0 => (block(&[inner]), 1),
        1 => (row(kind::IF, 1, 0, &[block(&[leaf(kind::RETURN, 0)]), block(&[inner])]), 2),
        2 => (over(kind::FOR, &[inner]), 2),
        3 => (over(kind::RANGE, &[inner]), 2),
        4 => (over(kind::SWITCH, &[row(kind::CASE, 1, 0, &[inner])]), 3),
        _ => (over(kind::SELECT, &[row(kind::COMM, 0, 0, &[inner])]), 3),
    }
}
