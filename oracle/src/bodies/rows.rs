//! Rows put together from their parts.

use crate::{branch, kind, Body};

/// A statement, or several in order, as rows in preorder.
pub type Rows = Vec<[u32; 5]>;

/// A row over its parts; its position comes with `body`.
pub fn row(kind: u32, detail: u32, name: u32, parts: &[Rows]) -> Rows {
    let below: Rows = parts.concat();
    let mut rows = vec![[kind, detail, 0, name, 1 + below.len() as u32]];
    rows.extend(below);
    rows
}

pub fn leaf(kind: u32, detail: u32) -> Rows {
    row(kind, detail, 0, &[])
}

pub fn block(items: &[Rows]) -> Rows {
    row(kind::BLOCK, 0, 0, items)
}

pub fn label(name: u32, statement: Rows) -> Rows {
    row(kind::LABELED, 0, name, &[statement])
}

/// One of the kinds that hold a Block: For, Range, Switch, TypeSwitch, Select.
pub fn over(kind: u32, items: &[Rows]) -> Rows {
    row(kind, 0, 0, &[block(items)])
}

pub fn break_to(name: u32) -> Rows {
    row(kind::BRANCH, branch::BREAK, name, &[])
}

pub fn continue_to(name: u32) -> Rows {
    row(kind::BRANCH, branch::CONTINUE, name, &[])
}

pub fn goto(name: u32) -> Rows {
    row(kind::BRANCH, branch::GOTO, name, &[])
}

/// A body of these items, with 1 + row as position and the names in order.
pub fn body<N: AsRef<[u8]>>(items: &[Rows], names: &[N]) -> Body {
    let mut rows = block(items);
    for (i, row) in rows.iter_mut().enumerate() {
        row[2] = i as u32 + 1;
    }
    let (mut pairs, mut bytes) = (vec![], vec![]);
    for name in names {
        pairs.push([bytes.len() as u32, name.as_ref().len() as u32]);
        bytes.extend(name.as_ref());
    }
    Body { rows, pairs, bytes }
}
