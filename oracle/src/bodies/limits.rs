//! Bodies at the limits: 2,000 rows, 100 deep, 500 names, 8,000 bytes.

use super::rows::*;
use crate::{kind, Body};

const ROWS: usize = 2_000;

/// Bodies at the limits, each with what it is.
pub fn at_limits() -> Vec<(&'static str, Body)> {
    let one = ["L"];
    vec![
        ("2,000 rows without names", body(&fill(vec![], leaf(kind::EXPR, 0)), &[""; 0])),
        ("gotos, then labels, of one name", body(&[gotos(999, 1), labels(500, 1)], &one)),
        ("labels, then gotos, of one name", body(&[labels(500, 1), gotos(999, 1)], &one)),
        ("gotos and labels by turns", body(&turns(), &one)),
        (
            "gotos of 250 names, then 500 labels",
            body(&[gotos(999, 250), labels(500, 500)], &names(500)),
        ),
        (
            "500 labels, then gotos of 500 names",
            body(&[labels(500, 500), gotos(999, 500)], &names(500)),
        ),
        ("gotos over declarations", body(&over_declarations(), &names(500))),
        ("labels within labels, breaks inside", body(&loops(), &names(500))),
        ("stacked labels", body(&stacked(), &names(500))),
        ("gotos out of nested Blocks", body(&out_of_blocks(), &names(500))),
        ("nested Selects", body(&nested_selects(), &[""; 0])),
        ("a chain of If", body(&chain_of_if(), &[""; 0])),
        ("one switch of many clauses", body(&[clauses(kind::SWITCH, kind::CASE)], &[""; 0])),
        ("one Select of many clauses", body(&[clauses(kind::SELECT, kind::COMM)], &[""; 0])),
    ]
}

/// Names of 16 bytes that differ in their last three.
fn names(count: usize) -> Vec<String> {
    (0..count).map(|i| format!("label_of_a_na{i:03}")).collect()
}

/// The items, then as many of the one-row statement as make 2,000 rows.
fn fill(mut items: Vec<Rows>, statement: Rows) -> Vec<Rows> {
    let rows = 1 + items.concat().len();
    items.extend(vec![statement; ROWS - rows]);
    items
}

fn number(i: usize, names: u32) -> u32 {
    1 + i as u32 % names
}

fn gotos(count: usize, names: u32) -> Rows {
    (0..count).flat_map(|i| goto(number(i, names))).collect()
}

fn labels(count: usize, names: u32) -> Rows {
    (0..count).flat_map(|i| label(number(i, names), leaf(kind::EMPTY, 0))).collect()
}

fn turns() -> Vec<Rows> {
    let turn = [goto(1), label(1, leaf(kind::EMPTY, 0))].concat();
    fill(vec![turn; 666], goto(1))
}

/// Every other item a declaration, then labels of half the names.
fn over_declarations() -> Vec<Rows> {
    let turn = |i| [goto(number(i, 500)), leaf(kind::ASSIGN, 1)].concat();
    let mut items: Vec<Rows> = (0..749).map(turn).collect();
    items.push(labels(250, 250));
    fill(items, leaf(kind::DECL, 1))
}

/// 32 labelled loops, each in the one before, and breaks of all their labels.
fn loops() -> Vec<Rows> {
    let breaks = |i| [break_to(number(i, 40)), continue_to(number(i, 40))].concat();
    let mut inner: Rows = (0..951).flat_map(breaks).collect();
    for name in (1..=32).rev() {
        inner = label(name, over(kind::FOR, &[inner]));
    }
    fill(vec![inner], leaf(kind::RETURN, 0))
}

/// Loops with 95 labels each, almost as deep as may be.
fn stacked() -> Vec<Rows> {
    let mut items = vec![];
    for group in 0..5u32 {
        let name = |i: u32| 1 + group * 95 + i;
        let breaks: Vec<Rows> = (0..280).map(|i| break_to(name(i % 95))).collect();
        let mut statement = over(kind::FOR, &breaks);
        for i in (0..95).rev() {
            statement = label(name(i), statement);
        }
        items.push(statement);
    }
    fill(items, leaf(kind::RETURN, 0))
}

/// 98 Blocks, each in the one before, with gotos to labels after them all.
fn out_of_blocks() -> Vec<Rows> {
    let mut inner: Rows = vec![];
    for i in 0..98 {
        inner = block(&[gotos(5, 500), goto(number(i, 500)), inner, goto(number(2 * i, 500))]);
    }
    fill(vec![inner, labels(500, 500)], leaf(kind::EMPTY, 0))
}

/// Selects, each the last item of the one before, so that each is searched
/// for breaks again and again.
fn nested_selects() -> Vec<Rows> {
    let mut inner = leaf(kind::RETURN, 0);
    for _ in 0..32 {
        let items = vec![leaf(kind::EXPR, 0); 58];
        let comm = row(kind::COMM, 0, 0, &[items.concat(), inner]);
        inner = over(kind::SELECT, &[comm]);
    }
    let rows = 1 + inner.len();
    vec![vec![leaf(kind::EXPR, 0); ROWS - rows].concat(), inner]
}

/// An If in the else of the one before, 98 times; every part returns.
fn chain_of_if() -> Vec<Rows> {
    let part = || {
        let items = vec![leaf(kind::EXPR, 0); 17];
        block(&[items.concat(), leaf(kind::RETURN, 0)])
    };
    let mut chain = block(&[leaf(kind::RETURN, 0)]);
    for _ in 0..97 {
        chain = row(kind::IF, 1, 0, &[part(), chain]);
    }
    let rows = 1 + chain.len();
    vec![vec![leaf(kind::EXPR, 0); ROWS - rows].concat(), chain]
}

/// A switch or Select whose clauses return, with the default last.
fn clauses(kind: u32, clause: u32) -> Rows {
    let returns = |detail| row(clause, detail, 0, &[leaf(kind::RETURN, 0)]);
    let mut items = vec![returns(0); (ROWS - 3) / 2 - 1];
    items.push(returns(1));
    over(kind, &items)
}
