//! Name-heavy: up to 500 long names that begin alike, each named by one goto
//! and every other one declared, calls between them; and the same with names
//! of one hash.

use super::fill::{fill, long_names, names_of_one_hash, shuffle};
use oracle::bodies::rows::{body, goto, label, leaf, Rows};
use oracle::bodies::Rng;
use oracle::{kind, Body};

pub fn make(rng: &mut Rng, rows: usize) -> Body {
    with_names(rng, rows, long_names)
}

pub fn of_one_hash(rng: &mut Rng, rows: usize) -> Body {
    with_names(rng, rows, names_of_one_hash)
}

fn with_names(rng: &mut Rng, rows: usize, names: fn(&mut Rng, usize) -> Vec<String>) -> Body {
    let count = 500.min((rows - 1) / 2);
    let mut items: Vec<Rows> = (1..=count as u32).map(goto).collect();
    items.extend((2..=count as u32).step_by(2).map(|name| label(name, leaf(kind::EXPR, 0))));
    fill(&mut items, rows);
    shuffle(rng, &mut items);
    let names = names(rng, count);
    body(&items, &names)
}
