//! The twelve bodies of document 01's table, and its example for `marks`.

use oracle::bodies::{example, table};
use oracle::placing::placing;
use oracle::{mended, stock, Answer, Body};

fn codes(answer: &Answer) -> Vec<u32> {
    answer.sheet.iter().map(|row| row[0]).collect()
}

fn by_mended(body: &Body) -> Answer {
    mended::Prepared::new(body).answer()
}

/// Codes and verdict of each body, and stock's where they are others.
type Expected = (&'static [u32], bool, Option<(&'static [u32], bool)>);
const EXPECTED: [Expected; 13] = [
    (&[], false, None),
    (&[4, 9], true, Some((&[], true))),
    (&[9], false, Some((&[9], true))),
    (&[9], true, Some((&[9], false))),
    (&[], true, Some((&[], false))),
    (&[3], true, None),
    (&[7], true, None),
    (&[8], true, None),
    (&[1, 2, 9], true, None),
    (&[], false, None),
    (&[], true, None),
    (&[], false, None),
    (&[], true, None),
];

#[test]
fn the_table() {
    for (body, (sheet, verdict, in_stock)) in table().iter().zip(EXPECTED) {
        let answer = by_mended(body);
        assert_eq!((&codes(&answer)[..], answer.terminating), (sheet, verdict));
        let answer = stock::Prepared::new(body).answer();
        assert_eq!((&codes(&answer)[..], answer.terminating), in_stock.unwrap_or((sheet, verdict)));
    }
}

#[test]
fn whole_sheets_bindings_and_placing() {
    let bodies = table();
    assert_eq!(by_mended(&bodies[5]).sheet, [[3, 2, 1, 3]]);
    let ninth = by_mended(&bodies[8]);
    assert_eq!(ninth.bindings, [0, 0, 3, 0, 6, 0, 0]);
    assert_eq!(ninth.sheet, [[1, 6, 1, 0], [2, 3, 1, 0], [9, 3, 1, 0]]);
    assert_eq!(placing(&bodies[12]), Some(4));
}

#[test]
fn the_example_for_marks() {
    let answer = by_mended(&example());
    assert_eq!(answer.sheet, [[8, 7, 1, 0], [9, 9, 2, 0]]);
    assert_eq!(answer.bindings, [0, 0, 3, 0, 0]);
    assert!(answer.terminating);
    assert_eq!(placing(&example()), None);
}
