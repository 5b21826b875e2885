//! The bodies of document 01: its table, and its example for `marks`.

use super::rows::{block, body, break_to, goto, label, leaf, over, row, Rows};
use crate::{branch, kind, Body};

/// The bodies 1 to 12; 11 are two.
pub fn table() -> [Body; 13] {
    let endless = |items: &[Rows]| over(kind::FOR, items);
    let returns = || leaf(kind::RETURN, 0);
    let nothing = [""; 0];
    let fallthrough = leaf(kind::BRANCH, branch::FALLTHROUGH);
    let default = row(kind::CASE, 1, 0, &[fallthrough]);
    let inner = block(&[label(1, returns())]);
    [
        body(&[label(1, endless(&[break_to(1)]))], &["L"]),
        body(&[label(1, endless(&[])), endless(&[break_to(1)])], &["L"]),
        body(&[label(1, endless(&[label(2, endless(&[break_to(1)]))]))], &["L", "M"]),
        body(&[label(1, endless(&[endless(&[break_to(0)])]))], &["L"]),
        body(&[endless(&[label(1, endless(&[break_to(1)]))])], &["M"]),
        body(&[goto(1), leaf(kind::ASSIGN, 1), label(1, returns())], &["L"]),
        body(&[goto(1), inner.clone()], &["L"]),
        body(&[goto(1), label(1, returns())], &["_"]),
        body(&[inner, goto(1), label(1, returns())], &["L"]),
        body(&[], &nothing),
        body(&[over(kind::SELECT, &[])], &nothing),
        body(&[over(kind::SWITCH, &[])], &nothing),
        body(&[over(kind::SWITCH, &[default])], &nothing),
    ]
}

/// `{goto M;L:for{}}`.
pub fn example() -> Body {
    let rows =
        [[12, 0, 1, 0, 5], [11, 2, 7, 1, 1], [3, 0, 9, 2, 3], [19, 0, 11, 0, 2], [12, 0, 14, 0, 1]];
    Body { rows: rows.to_vec(), pairs: vec![[0, 1], [1, 1]], bytes: vec![0x4D, 0x4C] }
}
