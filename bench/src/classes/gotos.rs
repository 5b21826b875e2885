//! Goto-heavy: labels in the outermost list, and twice as many gotos to them,
//! forward and back, one in four inside an If.

use super::fill::{fill, names, shuffle};
use oracle::bodies::rows::{block, body, goto, label, leaf, row, Rows};
use oracle::bodies::Rng;
use oracle::{kind, Body};

pub fn make(rng: &mut Rng, rows: usize) -> Body {
    // A label with its two gotos has six rows at most.
    let labels = (rows - 1) / 6;
    let mut items: Vec<Rows> = vec![];
    for name in 1..=labels as u32 {
        items.push(label(name, leaf(kind::EXPR, 0)));
        items.push(goto(name));
        items.push(match rng.one_in(4) {
            true => row(kind::IF, 0, 0, &[block(&[goto(name)])]),
            false => goto(name),
        });
    }
    fill(&mut items, rows);
    shuffle(rng, &mut items);
    body(&items, &names(rng, labels))
}
