//! The order of the refusals: a body with several faults gets the one that documents 01 and 02 test
//! first.

mod common;

use common::*;
use zesthull::{Place, Refusal, Walk};

const ROWS: usize = 114;
/// The number and index of each refusal that `faulty` brings about, in the order of the tests.
const REFUSALS: [(u32, usize); 10] =
    [(1, 0), (2, 0), (3, 1), (4, 111), (5, 109), (10, 108), (6, 100), (7, 0), (8, 0), (9, 0)];

/// Whether a refusal is in a set, which has a bit for each of `REFUSALS`.
fn is_in(set: u32, number: u32) -> bool {
    REFUSALS.iter().position(|refusal| refusal.0 == number).is_some_and(|at| set >> at & 1 == 1)
}

/// A body with the faults whose numbers are asked for, each where the others leave it. Row 103 and
/// those after it are items of row 0, the first an If, where a walk meets its first choice, around a
/// switch.
fn faulty(has: impl Fn(u32) -> bool) -> Words {
    let mut rows = flat(ROWS);
    let chain = if has(6) { 103 } else { 100 };
    rows[..chain].copy_from_slice(&nested(chain));
    rows[0][4] = ROWS as u32;
    let if_switch =
        [[IF, 0, 1, 0, 6], [BLOCK, 0, 1, 0, 5], [15, 0, 1, 0, 4], [BLOCK, 0, 1, 0, 3], [14, 1, 1, 0, 1]];
    rows[103..108].copy_from_slice(&if_switch);
    rows[108] = [14, has(10) as u32, 1, 0, 1];
    if has(4) {
        rows[111][2] = 0;
    }
    if has(5) {
        rows[109][4] = 0;
    }
    if has(8) {
        rows[113][0] = BRANCH;
    }
    let mut words = Words::new(&rows, &["M", "L", "N"]);
    if has(1) {
        words.rows.push(0);
    }
    if has(2) {
        words.pairs.push(0);
    }
    if has(3) {
        words.pairs[3] = 0;
    }
    words
}

/// Each set of faults gets the one that is tested first.
#[test]
fn all_sets_of_faults() {
    for set in 1..1 << 8 {
        let has = |number: u32| is_in(set, number);
        let (number, index) = REFUSALS.into_iter().find(|&(number, _)| has(number)).unwrap();
        let (words, what) = (faulty(has), format!("faults {set:08b}"));
        if number != 7 {
            expect_refusal(&what, &words, number, index);
        }
        let lent = if has(7) { (0, 0) } else { (8 * ROWS, ROWS) };
        expect_unwritten(&what, &words, lent, Refusal { number, index });
    }
}

/// The same for the walk, which has no 7: after the faults of the body 8, then 9.
#[test]
fn all_sets_of_faults_of_a_walk() {
    for set in 0..1 << 10 {
        let has = |number: u32| is_in(set, number);
        let first = REFUSALS.into_iter().find(|&(number, _)| number != 7 && has(number));
        let due = match first {
            Some((number, index)) => Err(Refusal { number, index }),
            None => Ok(Walk { place: Place::Brace, steps: 109, used: 1 }),
        };
        let choice = if has(9) { 9 } else { 0 };
        let walk = zesthull::walk(faulty(has).body(), &[choice], 1_000);
        assert_eq!(walk, due, "faults {set:010b}");
    }
}

#[test]
fn without_faults() {
    assert_eq!(zesthull::refusal(faulty(|_| false).body()), Ok(()));
}

/// One fault after another taken away.
#[test]
fn too_much_of_everything() {
    let mut words = Words::new(&flat(2001), &[]);
    words.pairs = vec![0; 1002];
    words.bytes = vec![b'a'; 8001];
    expect_refusal("rows, pairs and bytes over the limits", &words, 1, 0);
    words.rows.truncate(10_000);
    expect_refusal("pairs and bytes over the limits", &words, 2, 0);
    words.pairs.truncate(1000);
    expect_refusal("bytes over the limit, pairs of length 0", &words, 2, 0);
    words.bytes.truncate(8000);
    expect_refusal("pairs of length 0, row 0 over the end", &words, 3, 0);
    words.pairs.clear();
    expect_refusal("row 0 over the end", &words, 5, 0);
}

/// A name past the last pair is a fault of the row, and comes after all pairs.
#[test]
fn pairs_before_rows() {
    let mut words = example();
    words.pairs[3] = 9;
    words.rows[8] = 3;
    expect_refusal("a pair and a row's name", &words, 3, 1);
    words.pairs[3] = 1;
    expect_refusal("a row's name", &words, 4, 1);
}

/// Each cause is tried over all rows before the next: the later row may be told. That 10 comes between
/// 5 and 6 stands in tests/defaults.rs, too.
#[test]
fn rows_before_shape_before_depth() {
    let mut rows = nested(103);
    rows[102][2] = 0;
    rows[50][4] = 2;
    expect_refusal("position 0 at the last row", &Words::new(&rows, &[]), 4, 102);
    rows[102][2] = 1;
    expect_refusal("row 50 smaller than its child", &Words::new(&rows, &[]), 5, 50);
    rows[50][4] = 53;
    rows[102] = [19, 0, 1, 0, 1];
    expect_refusal("a For without Block, 103 deep", &Words::new(&rows, &[]), 5, 102);
    rows[102] = [EMPTY, 0, 1, 0, 1];
    expect_refusal("103 deep", &Words::new(&rows, &[]), 6, 100);
}
