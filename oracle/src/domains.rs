//! The bodies on which document 01 says that stock, too, is equalled.

use crate::{branch, kind, Body};
use std::collections::BTreeMap;

const BREAKABLE: [u32; 5] = [kind::SWITCH, kind::TYPE_SWITCH, kind::SELECT, kind::FOR, kind::RANGE];

/// Stock's sheet and bindings are equalled: no labelled break or continue
/// names the label of a statement already ended.
pub fn same_labels(body: &Body) -> bool {
    let mut first_ends: BTreeMap<&[u8], usize> = BTreeMap::new();
    for row in (0..body.rows.len()).filter(|&row| labeled(body, row)) {
        let first = first_ends.entry(body.name(body.rows[row][3])).or_insert(usize::MAX);
        *first = end(body, row).min(*first);
    }
    let leaves = |row: &usize| {
        let [kind, detail, _, name, _] = body.rows[*row];
        let leaves = detail == branch::BREAK || detail == branch::CONTINUE;
        kind == kind::BRANCH && leaves && name != 0
    };
    (0..body.rows.len()).filter(leaves).all(|row| {
        let first = first_ends.get(body.name(body.rows[row][3]));
        first.is_none_or(|&end| end > row)
    })
}

/// Stock's verdict is equalled: no statement that a break can leave carries
/// or holds a label.
pub fn same_verdict(body: &Body) -> bool {
    let breakable = |row: &usize| BREAKABLE.contains(&body.rows[*row][0]);
    let mut rows = (0..body.rows.len()).filter(breakable);
    rows.all(|row| !(row - 1..end(body, row)).any(|row| labeled(body, row)))
}

fn labeled(body: &Body, row: usize) -> bool {
    body.rows[row][0] == kind::LABELED
}

/// The first row after a row and the rows below it.
fn end(body: &Body, row: usize) -> usize {
    row + body.rows[row][4] as usize
}
