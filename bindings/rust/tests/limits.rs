//! Both sides of each limit.

mod common;

use common::*;
use zesthull::Refusal;

/// Row 0, labels with an Empty each, and a last Empty where the row count is even. Label k, from 0,
/// stands at row 2k + 1 with position k + 1 and the name number given.
fn labels_only(rows: usize, name_of: impl Fn(usize) -> u32) -> Vec<[u32; 5]> {
    let mut all = flat(rows);
    for label in 0..(rows - 1) / 2 {
        all[2 * label + 1] = [LABELED, 0, label as u32 + 1, name_of(label), 2];
    }
    all
}

#[test]
fn two_thousand_rows() {
    let mut rows = flat(2000);
    rows[1999] = [BRANCH, 0, 1, 0, 1];
    let answer = Answer { sheet: &[], bindings: &[0; 2000], placing: Some(1999), verdict: false };
    expect_answer("2,000 rows, then break", &Words::new(&rows, &[]), answer);
    rows[1999] = [RETURN, 0, 1, 0, 1];
    let answer = Answer { placing: None, verdict: true, ..answer };
    expect_answer("2,000 rows, then return", &Words::new(&rows, &[]), answer);
    rows.push([RETURN, 0, 1, 0, 1]);
    rows[0][4] = 2001;
    expect_refusal("2,001 rows", &Words::new(&rows, &[]), 1, 0);
}

/// 999 labels of one name: 998 repeated ones with codes 1 and 2, then the 9.
#[test]
fn a_long_sheet() {
    let words = Words::new(&labels_only(2000, |_| 1), &["L"]);
    let mut sheet = Vec::new();
    for position in 2..=999 {
        sheet.extend([[1, position, 1, 0], [2, 1, 1, 0]]);
    }
    sheet.push([9, 1, 1, 0]);
    let mut bindings = vec![0; 2000];
    bindings[1] = 2;
    let answer = Answer { sheet: &sheet, bindings: &bindings, placing: None, verdict: false };
    expect_answer("999 labels of one name", &words, answer);
}

/// Names in falling order of their bytes, so that the unused labels are told from the last.
#[test]
fn five_hundred_pairs() {
    let texts: Vec<String> = (0..501).map(|at| format!("L{:03}", 500 - at)).collect();
    let names: Vec<&str> = texts.iter().map(|text| &text[..]).collect();
    let rows = labels_only(1001, |label| label as u32 + 1);
    let sheet: Vec<[u32; 4]> = (1..=500).rev().map(|number| [9, number, number, 0]).collect();
    let bindings: Vec<u32> = (0..1001).map(|row| if row % 2 == 1 { row + 1 } else { 0 }).collect();
    let answer = Answer { sheet: &sheet, bindings: &bindings, placing: None, verdict: false };
    expect_answer("500 pairs", &Words::new(&rows, &names[..500]), answer);
    expect_refusal("501 pairs", &Words::new(&rows, &names), 2, 0);
}

/// {goto L; L: return} with a name of all the bytes.
#[test]
fn eight_thousand_bytes() {
    let rows = [[12, 0, 1, 0, 4], [11, 2, 2, 1, 1], [3, 0, 3, 1, 2], [10, 0, 4, 0, 1]];
    let mut words = Words::new(&rows, &[&"x".repeat(8000)]);
    let answer = Answer { sheet: &[], bindings: &[0, 3, 3, 0], placing: None, verdict: true };
    expect_answer("8,000 bytes", &words, answer);
    words.bytes.push(b'x');
    expect_refusal("8,001 bytes, the last in no name", &words, 2, 0);
    words.pairs[1] = 8001;
    expect_refusal("8,001 bytes, all in one name", &words, 2, 0);
    words.bytes.pop();
    expect_refusal("a name of 8,001 of 8,000 bytes", &words, 3, 0);
}

/// Two long names that differ in the last byte alone are two names.
#[test]
fn long_names() {
    let rows = [[12, 0, 1, 0, 4], [11, 2, 2, 1, 1], [3, 0, 3, 2, 2], [10, 0, 4, 0, 1]];
    let (used, label) = ("x".repeat(3999) + "y", "x".repeat(3999) + "z");
    let sheet = [[8, 2, 1, 0], [9, 3, 2, 0]];
    let answer = Answer { sheet: &sheet, bindings: &[0, 0, 3, 0], placing: None, verdict: true };
    expect_answer("two names of 4,000 bytes", &Words::new(&rows, &[&used, &label]), answer);
    let answer = Answer { sheet: &[], bindings: &[0, 3, 3, 0], ..answer };
    expect_answer("one name twice", &Words::new(&rows, &[&used, &used]), answer);
}

#[test]
fn hundred_deep() {
    let mut rows = nested(100);
    rows[99] = [RETURN, 0, 1, 0, 1];
    let answer = Answer { sheet: &[], bindings: &[0; 100], placing: None, verdict: true };
    expect_answer("return, 100 deep", &Words::new(&rows, &[]), answer);
    rows[99] = [BRANCH, 1, 1, 0, 1];
    let answer = Answer { placing: Some(99), verdict: false, ..answer };
    expect_answer("continue, 100 deep", &Words::new(&rows, &[]), answer);
    let mut rows = nested(101);
    rows[100] = [RETURN, 0, 1, 0, 1];
    expect_refusal("return, 101 deep", &Words::new(&rows, &[]), 6, 100);
}

#[test]
fn the_greatest_position() {
    let rows = [[12, 0, u32::MAX, 0, 2], [11, 2, u32::MAX, 1, 1]];
    let sheet = [[8, u32::MAX, 1, 0]];
    let answer = Answer { sheet: &sheet, bindings: &[0, 0], placing: None, verdict: true };
    expect_answer("goto at the greatest position", &Words::new(&rows, &["L"]), answer);
}

/// Sheet and bindings just long enough are tried by `expect_answer`; here is one word fewer.
#[test]
fn one_word_fewer() {
    let refusal = Refusal { number: 7, index: 0 };
    for rows in [1, 2, 100, 1999, 2000] {
        let (words, what) = (Words::new(&flat(rows), &[]), format!("{rows} rows"));
        expect_unwritten(&what, &words, (8 * rows - 1, rows), refusal);
        expect_unwritten(&what, &words, (8 * rows, rows - 1), refusal);
        let bindings = vec![0; rows];
        let answer = Answer { sheet: &[], bindings: &bindings, placing: None, verdict: false };
        expect_answer(&what, &words, answer);
    }
}
