//! What the wrapper adds: the words of a refusal, and calls from several threads at once.

mod common;

use common::bodies::{FLOW, LABELS, TABLE};
use common::{expect_answer, expect_refusal, flat, nested, Words};
use std::thread;
use zesthull::Refusal;

fn text(number: u32, index: usize) -> String {
    Refusal { number, index }.to_string()
}

#[test]
fn each_refusal_has_its_words() {
    let mut texts: Vec<String> = (1..=10).map(|number| text(number, 42)).collect();
    assert!(texts.iter().all(|text| !text.is_empty()));
    texts.sort();
    texts.dedup();
    assert_eq!(texts.len(), 10);
}

/// Refusals 3 to 6, 9 and 10 have an index; the others have none.
#[test]
fn the_index_is_told() {
    assert!(text(3, 42).contains("pair 42"));
    for number in [4, 5, 10, 6] {
        assert!(text(number, 42).contains("row 42"));
    }
    assert!(text(9, 42).contains("choice 42"));
    for number in [1, 2, 7, 8] {
        assert!(!text(number, 42).contains("42"));
    }
}

#[test]
fn a_refusal_is_an_error() {
    let refused = || -> Result<(), Box<dyn std::error::Error>> {
        zesthull::refusal(Words::new(&nested(101), &[]).body())?;
        Ok(())
    };
    assert_eq!(refused().unwrap_err().to_string(), text(6, 100));
}

/// One thread's share: every body, a long one and a refused one.
fn try_all() {
    for case in TABLE.iter().chain(&LABELS).chain(&FLOW) {
        expect_answer(case.text, &case.words(), case.answer());
    }
    assert_eq!(zesthull::verdict(Words::new(&flat(2000), &[]).body()), Ok(false));
    expect_refusal("101 deep", &Words::new(&nested(101), &[]), 6, 100);
    assert_eq!(zesthull::name(&[0, 1, 1, 1], b"ML", 2), b"L");
}

#[test]
fn several_threads() {
    thread::scope(|scope| {
        for _ in 0..8 {
            scope.spawn(|| (0..50).for_each(|_| try_all()));
        }
    });
}

/// Threads that read the same body, each with its own sheet and bindings.
#[test]
fn one_body_in_several_threads() {
    let words = TABLE[8].words();
    thread::scope(|scope| {
        for _ in 0..8 {
            scope.spawn(|| expect_answer(TABLE[8].text, &words, TABLE[8].answer()));
        }
    });
}
