//! Bodies with no, one and several defaults in one switch or Select.

use super::rows::{body, leaf, over, row, Rows};
use super::{Rng, STATEMENTS};
use crate::{kind, Body};

/// Switches and Selects of up to four clauses and of two with another switch
/// or Select of two inside, each clause a default or not.
pub fn defaults() -> Vec<Body> {
    let mut all = vec![];
    for statement in STATEMENTS {
        for count in 0..=4 {
            all.extend(details(count).map(|details| flat(statement, &details)));
        }
        for inner in STATEMENTS {
            all.extend(details(4).map(|details| nested(statement, inner, &details)));
        }
    }
    all
}

/// Every way to give details to so many clauses.
fn details(count: u32) -> impl Iterator<Item = Vec<u32>> {
    (0..1 << count).map(move |ways: u32| (0..count).map(|i| ways >> i & 1).collect())
}

/// Clauses with one item and with none by turns.
fn flat([kind, clause]: [u32; 2], details: &[u32]) -> Body {
    let items = |i: usize| vec![leaf(kind::RETURN, 0); i % 2];
    let clauses: Vec<Rows> =
        (0..).zip(details).map(|(i, &detail)| row(clause, detail, 0, &items(i))).collect();
    body(&[over(kind, &clauses)], &[""; 0])
}

/// Two clauses, the first around two others; the details are in order of rows.
fn nested([kind, clause]: [u32; 2], [inner, part]: [u32; 2], details: &[u32]) -> Body {
    let parts = [1, 2].map(|i| row(part, details[i], 0, &[]));
    let around = row(clause, details[0], 0, &[over(inner, &parts)]);
    let after = row(clause, details[3], 0, &[]);
    body(&[over(kind, &[around, after])], &[""; 0])
}

/// A copy in which a switch or Select has two defaults at least: one of the
/// body's own or, one time in four and where none has two clauses, one more of
/// four rows, around all items or after them.
pub fn two_defaults(rng: &mut Rng, body: &Body) -> Body {
    let lists = lists(body);
    let mut copy = body.clone();
    if lists.is_empty() || rng.one_in(4) {
        add_statement(rng, &mut copy);
        return copy;
    }
    let list = rng.pick(&lists);
    let clauses: Vec<usize> = body.children(list).collect();
    let second = rng.between(1, clauses.len() - 1);
    let (first, any) = (rng.below(second), rng.below(clauses.len()));
    for clause in [first, second, rng.pick(&[first, any])] {
        copy.rows[clauses[clause]][1] = 1;
    }
    copy
}

/// The Blocks that hold two clauses or more.
fn lists(body: &Body) -> Vec<usize> {
    let clause = |row: usize| [kind::CASE, kind::COMM].contains(&body.rows[row][0]);
    let several = |row: usize| body.children(row).nth(1).is_some_and(clause);
    (0..body.rows.len()).filter(|&row| body.rows[row][0] == kind::BLOCK && several(row)).collect()
}

/// Adds a switch or Select with two defaults, the first of which holds all
/// items or none.
fn add_statement(rng: &mut Rng, body: &mut Body) {
    let [kind, clause] = rng.pick(&STATEMENTS);
    let items = body.rows.split_off(1);
    let (before, inside) = if rng.one_in(2) { (vec![], items) } else { (items, vec![]) };
    let position = 1 + rng.below(9) as u32;
    let mut added = over(kind, &[row(clause, 1, 0, &[inside]), row(clause, 1, 0, &[])]);
    added.iter_mut().filter(|row| row[2] == 0).for_each(|row| row[2] = position);
    body.rows.extend(before);
    body.rows.extend(added);
    body.rows[0][4] = body.rows.len() as u32;
}
