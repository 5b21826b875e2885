//! Every call on bodies whose answers document 01 gives.

mod common;

use common::bodies::{Case, FLOW, LABELS, TABLE};
use common::{example, expect_answer, pattern, Answer};
use zesthull::Marks;

fn expect_answers(cases: &[Case]) {
    for case in cases {
        expect_answer(case.text, &case.words(), case.answer());
    }
}

#[test]
fn the_example() {
    let sheet = [[8, 7, 1, 0], [9, 9, 2, 0]];
    let answer =
        Answer { sheet: &sheet, bindings: &[0, 0, 3, 0, 0], placing: None, verdict: true };
    expect_answer("{goto M;L:for{}}", &example(), answer);
}

#[test]
fn the_table() {
    expect_answers(&TABLE);
}

#[test]
fn label_faults() {
    expect_answers(&LABELS);
}

#[test]
fn placing_and_verdict() {
    expect_answers(&FLOW);
}

/// Each code of the sheet stands in the expected sheets.
#[test]
fn every_code() {
    let sheets = TABLE.iter().chain(&LABELS).flat_map(|case| case.sheet);
    let mut codes: Vec<u32> = sheets.map(|row| row[0]).collect();
    codes.sort();
    codes.dedup();
    assert_eq!(codes, [1, 2, 3, 4, 5, 6, 7, 8, 9]);
}

/// The marks are the three calls together, words past sheet and bindings included.
#[test]
fn marks_are_the_three_calls() {
    for case in TABLE.iter().chain(&LABELS).chain(&FLOW) {
        let words = case.words();
        let (mut sheet, mut bindings) = (pattern(100), pattern(12));
        let faults = zesthull::labels(words.body(), &mut sheet, &mut bindings).unwrap();
        let badly_placed = zesthull::placing(words.body()).unwrap();
        let terminating = zesthull::verdict(words.body()).unwrap();

        let (mut marked, mut bound) = (pattern(100), pattern(12));
        let marks = zesthull::marks(words.body(), &mut marked, &mut bound);
        assert_eq!(marks, Ok(Marks { faults, badly_placed, terminating }), "{}", case.text);
        assert_eq!((marked, bound), (sheet, bindings), "{}", case.text);
    }
}

/// A call keeps nothing: the same words get the same answer after another body.
#[test]
fn calls_keep_nothing() {
    for first in TABLE.iter().chain(&FLOW) {
        for second in &LABELS {
            expect_answer(first.text, &first.words(), first.answer());
            expect_answer(second.text, &second.words(), second.answer());
        }
    }
}
