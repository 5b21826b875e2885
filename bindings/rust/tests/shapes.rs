//! Refusal 5: a row's size, children or parent. The kinds stand by their numbers in document 01.

mod common;

use common::*;

/// A body of rows given by kind, detail and size; Labeled rows get the one name.
fn shaped(rows: &[[u32; 3]]) -> Words {
    let row = |&[kind, detail, size]: &[u32; 3]| [kind, detail, 1, (kind == LABELED) as u32, size];
    let rows: Vec<[u32; 5]> = rows.iter().map(row).collect();
    Words::new(&rows, &["L"])
}

#[track_caller]
fn expect_shape(what: &str, rows: &[[u32; 3]], charged: usize) {
    expect_refusal(what, &shaped(rows), 5, charged);
}

#[track_caller]
fn expect_well_formed(what: &str, rows: &[[u32; 3]]) {
    assert_eq!(zesthull::refusal(shaped(rows).body()), Ok(()), "{what}");
}

#[test]
fn row_zero() {
    for kind in [0, 1, 2, 4, 10, 14, 17] {
        expect_shape(&format!("row 0 of kind {kind}"), &[[kind, 0, 1]], 0);
    }
    expect_shape("row 0 a Labeled", &[[3, 0, 2], [2, 0, 1]], 0);
    expect_shape("row 0 a For", &[[19, 0, 2], [12, 0, 1]], 0);
    expect_shape("a row after row 0's", &[[12, 0, 1], [2, 0, 1]], 0);
    expect_shape("row 0 of size 0", &[[12, 0, 0]], 0);
    expect_shape("row 0 past the end", &[[12, 0, 2]], 0);
}

#[test]
fn sizes() {
    for size in [0, 2, 3, 4, 1 << 31, u32::MAX - 1, u32::MAX] {
        expect_shape(&format!("Block of size {size}"), &[[12, 0, 2], [12, 0, size]], 1);
        expect_shape(&format!("Empty of size {size}"), &[[12, 0, 2], [2, 0, size]], 1);
    }
    expect_shape("a child past its parent's end", &[[12, 0, 4], [12, 0, 2], [12, 0, 2], [2, 0, 1]], 1);
}

/// Sizes of 0 or past the last row come first, over all rows; then the lowest row.
#[test]
fn sizes_come_first() {
    expect_shape("a bad child, then size 0", &[[12, 0, 4], [3, 0, 1], [2, 0, 1], [2, 0, 0]], 3);
    expect_shape("a bad child, then past the end", &[[12, 0, 4], [3, 0, 1], [2, 0, 1], [2, 0, 2]], 3);
    expect_shape("row 0 no Block, then size 0", &[[2, 0, 3], [2, 0, 1], [2, 0, 0]], 2);
    expect_shape("size 0, then past the end", &[[12, 0, 3], [2, 0, 0], [2, 0, 9]], 1);
    expect_shape("past the end, then size 0", &[[12, 0, 3], [2, 0, 9], [2, 0, 0]], 1);
    expect_shape("two rows without children", &[[12, 0, 3], [3, 0, 1], [19, 0, 1]], 1);
}

#[test]
fn kinds_of_size_one() {
    for kind in [0, 1, 2, 4, 5, 6, 7, 8, 9, 10, 11] {
        expect_well_formed(&format!("kind {kind}"), &[[12, 0, 3], [kind, 0, 1], [2, 0, 1]]);
        expect_shape(&format!("kind {kind} of size 2"), &[[12, 0, 3], [kind, 0, 2], [2, 0, 1]], 1);
    }
}

#[test]
fn labeled() {
    expect_well_formed("L: ;", &[[12, 0, 3], [3, 0, 2], [2, 0, 1]]);
    expect_well_formed("L: L: ;", &[[12, 0, 4], [3, 0, 3], [3, 0, 2], [2, 0, 1]]);
    expect_shape("no statement", &[[12, 0, 2], [3, 0, 1]], 1);
    expect_shape("two statements", &[[12, 0, 4], [3, 0, 3], [2, 0, 1], [2, 0, 1]], 1);
    for clause in [14, 17] {
        expect_shape("a clause as statement", &[[12, 0, 3], [3, 0, 2], [clause, 0, 1]], 1);
    }
}

#[test]
fn if_without_else() {
    expect_well_formed("if {}", &[[12, 0, 3], [13, 0, 2], [12, 0, 1]]);
    expect_shape("no body", &[[12, 0, 2], [13, 0, 1]], 1);
    expect_shape("a body that's no Block", &[[12, 0, 3], [13, 0, 2], [2, 0, 1]], 1);
    expect_shape("two Blocks", &[[12, 0, 4], [13, 0, 3], [12, 0, 1], [12, 0, 1]], 1);
}

#[test]
fn if_with_else() {
    let with = |part: [u32; 3], below: &[[u32; 3]]| {
        let size = 4 + below.len() as u32;
        [&[[12, 0, size], [13, 1, size - 1], [12, 0, 1], part], below].concat()
    };
    expect_well_formed("else {}", &with([12, 0, 1], &[]));
    expect_well_formed("else if {}", &with([13, 0, 2], &[[12, 0, 1]]));
    expect_shape("no body", &[[12, 0, 2], [13, 1, 1]], 1);
    expect_shape("no other part", &[[12, 0, 3], [13, 1, 2], [12, 0, 1]], 1);
    expect_shape("an Empty as other part", &with([2, 0, 1], &[]), 1);
    expect_shape("a For as other part", &with([19, 0, 2], &[[12, 0, 1]]), 1);
    expect_shape("three Blocks", &with([12, 0, 1], &[[12, 0, 1]]), 1);
    expect_shape("an If as body", &[[12, 0, 5], [13, 1, 4], [13, 0, 2], [12, 0, 1], [12, 0, 1]], 1);
}

#[test]
fn kinds_with_one_block() {
    for kind in [15, 16, 18, 19, 20] {
        expect_well_formed(&format!("kind {kind}"), &[[12, 0, 3], [kind, 0, 2], [12, 0, 1]]);
        expect_shape(&format!("kind {kind}, no Block"), &[[12, 0, 2], [kind, 0, 1]], 1);
        expect_shape(&format!("kind {kind}, an Empty"), &[[12, 0, 3], [kind, 0, 2], [2, 0, 1]], 1);
        let two = [[12, 0, 4], [kind, 0, 3], [12, 0, 1], [12, 0, 1]];
        expect_shape(&format!("kind {kind}, two Blocks"), &two, 1);
    }
}

/// The Block of either switch holds only Case, that of Select only Comm.
#[test]
fn clauses() {
    for (kind, clause, other) in [(15, 14, 17), (16, 14, 17), (18, 17, 14)] {
        let with = |item| [[12, 0, 4], [kind, 0, 3], [12, 0, 2], [item, 0, 1]];
        expect_well_formed(&format!("kind {kind}"), &with(clause));
        expect_shape(&format!("kind {kind}, other clause"), &with(other), 2);
        for item in [0, 2, 10, 11, 12] {
            expect_shape(&format!("kind {kind}, kind {item}"), &with(item), 2);
        }
        let after = [[12, 0, 5], [kind, 0, 4], [12, 0, 3], [clause, 0, 1], [2, 0, 1]];
        expect_shape(&format!("kind {kind}, Empty after a clause"), &after, 2);
    }
}

/// Case and Comm stand nowhere else; the parent is charged.
#[test]
fn clauses_elsewhere() {
    for clause in [14, 17] {
        expect_shape("in row 0", &[[12, 0, 2], [clause, 0, 1]], 0);
        expect_shape("in row 0 after an item", &[[12, 0, 3], [2, 0, 1], [clause, 0, 1]], 0);
        expect_shape("in a Block", &[[12, 0, 3], [12, 0, 2], [clause, 0, 1]], 1);
        expect_shape("in the Block of If", &[[12, 0, 4], [13, 0, 3], [12, 0, 2], [clause, 0, 1]], 2);
        expect_shape("in the Block of For", &[[12, 0, 4], [19, 0, 3], [12, 0, 2], [clause, 0, 1]], 2);
        let switch = [[12, 0, 5], [15, 0, 4], [12, 0, 3], [14, 0, 2], [clause, 0, 1]];
        expect_shape("in a Case", &switch, 3);
        let select = [[12, 0, 5], [18, 0, 4], [12, 0, 3], [17, 0, 2], [clause, 0, 1]];
        expect_shape("in a Comm", &select, 3);
        let below = [[12, 0, 5], [15, 0, 4], [12, 0, 3], [14, 0, 2], [12, 0, 1]];
        expect_well_formed("a Block in a Case", &below);
    }
}

/// A switch that lacks its Block is charged itself, also where a Block follows it.
#[test]
fn a_block_after_the_switch() {
    expect_shape("with a Case", &[[12, 0, 4], [15, 0, 1], [12, 0, 2], [14, 0, 1]], 1);
    expect_shape("with an Empty", &[[12, 0, 4], [15, 0, 1], [12, 0, 2], [2, 0, 1]], 1);
}
