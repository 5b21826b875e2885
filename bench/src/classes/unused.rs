//! Unused labels: up to 500 labels, none of them used, calls between them.

use super::fill::{fill, names, shuffle};
use oracle::bodies::rows::{body, label, leaf, Rows};
use oracle::bodies::Rng;
use oracle::{kind, Body};

pub fn make(rng: &mut Rng, rows: usize) -> Body {
    let count = 500.min((rows - 1) / 2);
    let mut items: Vec<Rows> = (1..=count as u32).map(|name| label(name, leaf(kind::EXPR, 0))).collect();
    fill(&mut items, rows);
    shuffle(rng, &mut items);
    body(&items, &names(rng, count))
}
