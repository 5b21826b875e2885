//! Empty slices and slices of all lengths.

mod common;

use common::bodies::{LABELS, TABLE};
use common::*;
use zesthull::{Body, Place, Refusal, Walk};

/// What the example gets where some of its slices are empty: rows, pairs, bytes, sheet, bindings.
fn refusal_without([rows, pairs, bytes, sheet, bindings]: [bool; 5]) -> Option<(u32, usize)> {
    match () {
        _ if rows => Some((1, 0)),
        _ if bytes && !pairs => Some((3, 0)),
        _ if pairs => Some((4, 1)),
        _ if sheet || bindings => Some((7, 0)),
        _ => None,
    }
}

fn example_without([rows, pairs, bytes, ..]: [bool; 5]) -> Words {
    let mut words = example();
    if rows {
        words.rows.clear();
    }
    if pairs {
        words.pairs.clear();
    }
    if bytes {
        words.bytes.clear();
    }
    words
}

/// Each set of empty slices.
#[test]
fn empty_slices() {
    for set in 1..1 << 5 {
        let empty = [0, 1, 2, 3, 4].map(|slice| set >> slice & 1 == 1);
        let (words, what) = (example_without(empty), format!("the example without {empty:?}"));
        let (number, index) = refusal_without(empty).unwrap();
        if number < 7 {
            expect_refusal(&what, &words, number, index);
        }
        let lent = (if empty[3] { 0 } else { 40 }, if empty[4] { 0 } else { 5 });
        expect_unwritten(&what, &words, lent, Refusal { number, index });
    }
}

/// The same with the empty slices of the language, which lead to no memory.
#[test]
fn empty_slices_without_memory() {
    let body = Body { rows: &[], pairs: &[], bytes: &[] };
    let refusal = Refusal { number: 1, index: 0 };
    assert_eq!(zesthull::refusal(body), Err(refusal));
    assert_eq!(zesthull::placing(body), Err(refusal));
    assert_eq!(zesthull::verdict(body), Err(refusal));
    assert_eq!(zesthull::labels(body, &mut [], &mut []), Err(refusal));
    assert_eq!(zesthull::marks(body, &mut [], &mut []), Err(refusal));
    assert_eq!(zesthull::walk(body, &[], 9), Err(refusal));
    let body = Body { rows: &[12, 0, 1, 0, 1], ..body };
    let refusal = Refusal { number: 7, index: 0 };
    assert_eq!(zesthull::refusal(body), Ok(()));
    assert_eq!(zesthull::placing(body), Ok(None));
    assert_eq!(zesthull::verdict(body), Ok(false));
    assert_eq!(zesthull::labels(body, &mut [], &mut []), Err(refusal));
    assert_eq!(zesthull::marks(body, &mut [], &mut []), Err(refusal));
    assert_eq!(zesthull::labels(body, &mut [0; 8], &mut [0]), Ok(0));
    let walk = Walk { place: Place::Brace, steps: 1, used: 0 };
    assert_eq!(zesthull::walk(body, &[], 9), Ok(walk));
}

/// The first words of the example, and one more than it has: row 0 ends past a shorter body.
#[test]
fn row_words_of_the_example() {
    for count in 0..=26 {
        let mut words = example();
        words.rows.resize(count, 1);
        let what = format!("{count} row words");
        match count {
            25 => assert_eq!(zesthull::refusal(words.body()), Ok(())),
            5 | 10 | 15 | 20 => expect_refusal(&what, &words, 5, 0),
            _ => expect_refusal(&what, &words, 1, 0),
        }
    }
}

/// Block and Empty items, with each count of row words.
#[test]
fn row_words() {
    for count in 0..=60 {
        let mut words = Words::new(&flat(13), &[]);
        words.rows.truncate(count);
        if count > 4 {
            words.rows[4] = count as u32 / 5;
        }
        let what = format!("{count} row words");
        if count == 0 || count % 5 != 0 {
            expect_refusal(&what, &words, 1, 0);
            continue;
        }
        let bindings = vec![0; count / 5];
        let answer = Answer { sheet: &[], bindings: &bindings, placing: None, verdict: false };
        expect_answer(&what, &words, answer);
    }
}

/// Pair words of each count past the limit. The example needs two pairs.
#[test]
fn pair_words() {
    let all: Vec<u32> = (0..510).flat_map(|at| [at, 1]).collect();
    for count in 0..=1020 {
        let words = Words { pairs: all[..count].to_vec(), bytes: vec![b'a'; 510], ..example() };
        let what = format!("{count} pair words");
        match count {
            _ if count % 2 == 1 || count > 1000 => expect_refusal(&what, &words, 2, 0),
            0 => expect_refusal(&what, &words, 4, 1),
            2 => expect_refusal(&what, &words, 4, 2),
            _ => assert_eq!(zesthull::refusal(words.body()), Ok(()), "{what}"),
        }
    }
}

/// Bytes of each count past the limit. The example's names need two.
#[test]
fn byte_counts() {
    let all = [b"ML".to_vec(), vec![b'a'; 8018]].concat();
    for count in 0..=all.len() {
        let words = Words { bytes: all[..count].to_vec(), ..example() };
        let what = format!("{count} bytes");
        match count {
            0 => expect_refusal(&what, &words, 3, 0),
            1 => expect_refusal(&what, &words, 3, 1),
            2..=8000 => assert_eq!(zesthull::verdict(words.body()), Ok(true), "{what}"),
            _ => expect_refusal(&what, &words, 2, 0),
        }
    }
}

/// Each length of the sheet with each length of the bindings.
#[test]
fn sheet_and_bindings() {
    let (words, refusal) = (example(), Refusal { number: 7, index: 0 });
    for sheet_words in 0..=50 {
        for binding_words in 0..=8 {
            let lent = (sheet_words, binding_words);
            if sheet_words < 40 || binding_words < 5 {
                expect_unwritten(&format!("{lent:?} words"), &words, lent, refusal);
                continue;
            }
            let (mut sheet, mut bindings) = (pattern(sheet_words), pattern(binding_words));
            assert_eq!(zesthull::labels(words.body(), &mut sheet, &mut bindings), Ok(2));
            assert_eq!(sheet, pattern_after(&[8, 7, 1, 0, 9, 9, 2, 0], sheet_words));
            assert_eq!(bindings, pattern_after(&[0, 0, 3, 0, 0], binding_words));
        }
    }
}

/// Slices that start anywhere in the caller's memory, with other words on both sides.
#[test]
fn slices_inside_others() {
    for case in TABLE.iter().chain(&LABELS) {
        for start in 1..=4 {
            let words = case.words();
            let rows = [pattern(start), words.rows.clone(), pattern(3)].concat();
            let pairs = [pattern(start), words.pairs.clone(), pattern(3)].concat();
            let bytes = [vec![b'L'; start], words.bytes.clone(), vec![b'L'; 3]].concat();
            let body = Body {
                rows: &rows[start..start + words.rows.len()],
                pairs: &pairs[start..start + words.pairs.len()],
                bytes: &bytes[start..start + words.bytes.len()],
            };
            expect_inside(case.text, body, case.answer(), start);
        }
    }
}

/// The marks of a body into the middle of two buffers, whose other words stay.
fn expect_inside(what: &str, body: Body, answer: Answer, start: usize) {
    let rows = body.rows.len() / 5;
    let (sheet_end, bindings_end) = (start + 8 * rows, start + rows);
    let (mut sheet, mut bindings) = (pattern(sheet_end + 3), pattern(bindings_end + 3));
    let (mut sheet_after, mut bindings_after) = (sheet.clone(), bindings.clone());
    let faults = answer.sheet.len();
    sheet_after[start..start + 4 * faults].copy_from_slice(answer.sheet.as_flattened());
    bindings_after[start..bindings_end].copy_from_slice(answer.bindings);

    let (lent, bound) = (&mut sheet[start..sheet_end], &mut bindings[start..bindings_end]);
    let marks = zesthull::marks(body, lent, bound).unwrap();
    assert_eq!(marks.faults, faults, "{what}");
    assert_eq!((marks.badly_placed, marks.terminating), (answer.placing, answer.verdict), "{what}");
    assert_eq!((sheet, bindings), (sheet_after, bindings_after), "{what}");
}
