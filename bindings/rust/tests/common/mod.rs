//! What the tests share: the words of a body, buffers filled with a pattern, and a body tried through
//! every call.
#![allow(dead_code)]

pub mod bodies;

use zesthull::{Body, Marks, Place, Refusal, Walk};

pub const EMPTY: u32 = 2;
pub const LABELED: u32 = 3;
pub const RETURN: u32 = 10;
pub const BRANCH: u32 = 11;
pub const BLOCK: u32 = 12;
pub const IF: u32 = 13;

/// The words of a body.
#[derive(Clone, Debug, PartialEq)]
pub struct Words {
    pub rows: Vec<u32>,
    pub pairs: Vec<u32>,
    pub bytes: Vec<u8>,
}

impl Words {
    /// Rows, and names whose bytes stand one after another.
    pub fn new(rows: &[[u32; 5]], names: &[&str]) -> Words {
        let (mut pairs, mut bytes) = (Vec::new(), Vec::new());
        for name in names {
            pairs.extend([bytes.len() as u32, name.len() as u32]);
            bytes.extend_from_slice(name.as_bytes());
        }
        Words { rows: rows.concat(), pairs, bytes }
    }

    pub fn body(&self) -> Body<'_> {
        Body { rows: &self.rows, pairs: &self.pairs, bytes: &self.bytes }
    }

    pub fn row_count(&self) -> usize {
        self.rows.len() / 5
    }
}

/// Document 01's body {goto M;L:for{}}.
pub fn example() -> Words {
    let rows =
        [[12, 0, 1, 0, 5], [11, 2, 7, 1, 1], [3, 0, 9, 2, 3], [19, 0, 11, 0, 2], [12, 0, 14, 0, 1]];
    Words::new(&rows, &["M", "L"])
}

/// The rows of a Block of so many rows, with Empty items.
pub fn flat(rows: usize) -> Vec<[u32; 5]> {
    let mut all = vec![[EMPTY, 0, 1, 0, 1]; rows];
    all[0] = [BLOCK, 0, 1, 0, rows as u32];
    all
}

/// The rows of Blocks inside each other: row r is r + 1 deep.
pub fn nested(rows: usize) -> Vec<[u32; 5]> {
    (0..rows).map(|row| [BLOCK, 0, 1, 0, (rows - row) as u32]).collect()
}

/// Words that no call writes.
pub fn pattern(count: usize) -> Vec<u32> {
    (0..count as u32).map(|at| 0xA5A5_0000 ^ at).collect()
}

/// A pattern that begins with the words given.
pub fn pattern_after(words: &[u32], count: usize) -> Vec<u32> {
    let mut all = pattern(count);
    all[..words.len()].copy_from_slice(words);
    all
}

/// What document 01 says of a well-formed body.
#[derive(Clone, Copy)]
pub struct Answer<'a> {
    pub sheet: &'a [[u32; 4]],
    pub bindings: &'a [u32],
    pub placing: Option<usize>,
    pub verdict: bool,
}

/// Tries a well-formed body through every call, with buffers just long enough and with longer ones.
#[track_caller]
pub fn expect_answer(what: &str, words: &Words, answer: Answer) {
    let before = words.clone();
    assert_eq!(zesthull::refusal(words.body()), Ok(()), "refusal of {what}");
    assert_eq!(zesthull::placing(words.body()), Ok(answer.placing), "placing of {what}");
    assert_eq!(zesthull::verdict(words.body()), Ok(answer.verdict), "verdict of {what}");
    expect_first_place(what, words, answer);
    for more in [0, 1, 9] {
        expect_written(what, words, answer, more);
    }
    assert_eq!(*words, before, "the words of {what}");
}

/// Tries the walk that stays at row 0; where the body has a fault it is refused.
#[track_caller]
fn expect_first_place(what: &str, words: &Words, answer: Answer) {
    let due = match answer.sheet.is_empty() && answer.placing.is_none() {
        true => Ok(Walk { place: Place::Row(0), steps: 0, used: 0 }),
        false => Err(Refusal { number: 8, index: 0 }),
    };
    assert_eq!(zesthull::walk(words.body(), &[9], 0), due, "walk of {what}");
}

/// Tries the label call and the marks with so many words more than they need.
#[track_caller]
fn expect_written(what: &str, words: &Words, answer: Answer, more: usize) {
    let (sheet_words, binding_words) = (8 * words.row_count() + more, words.row_count() + more);
    let sheet_after = pattern_after(answer.sheet.as_flattened(), sheet_words);
    let bindings_after = pattern_after(answer.bindings, binding_words);
    let faults = answer.sheet.len();

    let (mut sheet, mut bindings) = (pattern(sheet_words), pattern(binding_words));
    let count = zesthull::labels(words.body(), &mut sheet, &mut bindings);
    assert_eq!(count, Ok(faults), "sheet's row count of {what}");
    assert_eq!(sheet, sheet_after, "sheet of {what}");
    assert_eq!(bindings, bindings_after, "bindings of {what}");

    let (mut sheet, mut bindings) = (pattern(sheet_words), pattern(binding_words));
    let marks = zesthull::marks(words.body(), &mut sheet, &mut bindings);
    let all = Marks { faults, badly_placed: answer.placing, terminating: answer.verdict };
    assert_eq!(marks, Ok(all), "marks of {what}");
    assert_eq!(sheet, sheet_after, "sheet of the marks of {what}");
    assert_eq!(bindings, bindings_after, "bindings of the marks of {what}");
}

/// Tries a refused body through every call; no word may change.
#[track_caller]
pub fn expect_refusal(what: &str, words: &Words, number: u32, index: usize) {
    let (refusal, before) = (Refusal { number, index }, words.clone());
    assert_eq!(zesthull::refusal(words.body()), Err(refusal), "refusal of {what}");
    assert_eq!(zesthull::placing(words.body()), Err(refusal), "placing of {what}");
    assert_eq!(zesthull::verdict(words.body()), Err(refusal), "verdict of {what}");
    assert_eq!(zesthull::walk(words.body(), &[], 0), Err(refusal), "walk of {what}");
    assert_eq!(zesthull::walk(words.body(), &[9], 9), Err(refusal), "walk of {what} by a choice");
    let rows = words.row_count();
    expect_unwritten(what, words, (8 * rows + 8, rows + 1), refusal);
    assert_eq!(*words, before, "the words of {what}");
}

/// Tries the calls that write, with buffers of so many words: both refuse and write nothing.
#[track_caller]
pub fn expect_unwritten(what: &str, words: &Words, lent: (usize, usize), refusal: Refusal) {
    let (mut sheet, mut bindings) = (pattern(lent.0), pattern(lent.1));
    let count = zesthull::labels(words.body(), &mut sheet, &mut bindings);
    assert_eq!(count, Err(refusal), "labels of {what}");
    let marks = zesthull::marks(words.body(), &mut sheet, &mut bindings);
    assert_eq!(marks, Err(refusal), "marks of {what}");
    assert_eq!(sheet, pattern(lent.0), "sheet of {what}");
    assert_eq!(bindings, pattern(lent.1), "bindings of {what}");
}
