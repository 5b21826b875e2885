//! Bodies with a fallthrough in a clause of each of the statements that hold
//! clauses, by themselves and in a clause of one another.

use super::rows::{block, body, label, leaf, over, row, Rows};
use super::STATEMENTS;
use crate::{branch, kind, Body};

/// Each statement of three clauses with a fallthrough in each of them; each of
/// two in the first of two clauses of each other, with the fallthrough in it or
/// right after it.
pub fn fallthroughs() -> Vec<Body> {
    let mut all = vec![];
    for items in lists() {
        for outer in STATEMENTS {
            all.extend((0..3).map(|at| clauses(outer, 3, at, &items)));
            for inner in STATEMENTS {
                all.extend((0..2).map(|at| clauses(outer, 2, 0, &[clauses(inner, 2, at, &items)])));
                let after = [&[clauses(inner, 2, 0, &[])], &items[..]].concat();
                all.extend((0..2).map(|at| clauses(outer, 2, at, &after)));
            }
        }
    }
    all.into_iter().map(|statement| body(&[statement], &["L", "_"])).collect()
}

/// Lists with a fallthrough: at the end, with labels, with Empties after it,
/// before another item, and deeper.
fn lists() -> Vec<Vec<Rows>> {
    let falls = || leaf(kind::BRANCH, branch::FALLTHROUGH);
    let [empty, plain] = [kind::EMPTY, kind::SEND].map(|kind| leaf(kind, 0));
    vec![
        vec![falls()],
        vec![plain.clone(), falls()],
        vec![falls(), empty.clone(), empty.clone()],
        vec![label(1, falls())],
        vec![label(2, label(2, falls())), empty],
        vec![falls(), plain],
        vec![falls(), falls()],
        vec![block(&[falls()])],
        vec![over(kind::FOR, &[falls()])],
        vec![row(kind::BRANCH, branch::FALLTHROUGH, 1, &[])],
    ]
}

/// A statement of so many clauses with these items in one of them, and a return
/// in the others.
fn clauses([kind, clause]: [u32; 2], count: usize, at: usize, items: &[Rows]) -> Rows {
    let returns = [leaf(kind::RETURN, 0)];
    let list = |i: usize| if i == at { items } else { &returns[..] };
    let clauses: Vec<Rows> = (0..count).map(|i| row(clause, 0, 0, list(i))).collect();
    over(kind, &clauses)
}
