//! Refusals 1 to 4, 6 and 7, each with its index, through every call that has it. Refusal 5 stands in
//! shapes.rs, 10 in defaults.rs.

mod common;

use common::*;
use zesthull::Refusal;

/// How many details each kind allows, from 0 on.
const DETAILS: [u32; 21] = [1, 2, 1, 1, 2, 1, 1, 2, 1, 1, 1, 4, 1, 2, 2, 1, 1, 2, 1, 2, 1];

const GOTO: u32 = 2;

/// A Block of one row, with one name at hand.
fn lone(kind: u32, detail: u32, position: u32, name: u32) -> Words {
    Words::new(&[[BLOCK, 0, 1, 0, 2], [kind, detail, position, name, 1]], &["L"])
}

/// A number of a name that a row of this kind and detail may have.
fn name_for(kind: u32, detail: u32) -> u32 {
    (kind == LABELED || (kind == BRANCH && detail == GOTO)) as u32
}

/// A lone row that is allowed as a row still needs the children and the parent of its kind.
#[track_caller]
fn expect_allowed(what: &str, words: &Words) {
    match words.rows[5] {
        3 | 13 | 15 | 16 | 18 | 19 | 20 => expect_refusal(what, words, 5, 1),
        14 | 17 => expect_refusal(what, words, 5, 0),
        _ => assert_eq!(zesthull::refusal(words.body()), Ok(()), "{what}"),
    }
}

#[test]
fn row_words() {
    let names = ["M", "L"];
    expect_refusal("no rows", &Words::new(&[], &names), 1, 0);
    for words in [1, 2, 3, 4, 6, 24, 26] {
        let mut body = example();
        body.rows.resize(words, 1);
        expect_refusal(&format!("{words} row words"), &body, 1, 0);
    }
    expect_refusal("2,001 rows", &Words::new(&flat(2001), &[]), 1, 0);
}

#[test]
fn name_words() {
    let mut body = example();
    body.pairs.push(2);
    expect_refusal("odd pair words", &body, 2, 0);
    body.pairs = vec![0];
    expect_refusal("one pair word", &body, 2, 0);
    body.pairs = (0..501).flat_map(|at| [at, 1]).collect();
    body.bytes = vec![b'a'; 501];
    expect_refusal("501 pairs", &body, 2, 0);
    body = example();
    body.bytes.resize(8001, b'a');
    expect_refusal("8,001 bytes", &body, 2, 0);
}

#[test]
fn pairs() {
    let cases: [(&str, &[u32], usize); 9] = [
        ("first of length 0", &[0, 0, 1, 1], 0),
        ("second of length 0", &[0, 1, 1, 0], 1),
        ("both of length 0", &[0, 0, 0, 0], 0),
        ("starts before the previous end", &[0, 2, 1, 1], 1),
        ("not sorted", &[2, 1, 0, 1], 1),
        ("the same twice", &[1, 1, 1, 1], 1),
        ("ends past the bytes", &[0, 1, 1, 3], 1),
        ("starts past the bytes", &[4, 1, 5, 1], 0),
        ("third past the bytes", &[0, 1, 1, 1, 2, 2], 2),
    ];
    for (what, pairs, index) in cases {
        let body = Words { pairs: pairs.to_vec(), bytes: b"abc".to_vec(), ..example() };
        expect_refusal(what, &body, 3, index);
    }
}

/// Offset + length is a sum of whole numbers: it doesn't wrap.
#[test]
fn pairs_with_large_words() {
    let top = u32::MAX;
    let firsts = [[top, 1], [top, top], [1, top], [1 << 31, 1 << 31], [top - 1, 4]];
    for [offset, length] in firsts {
        let body = Words { pairs: vec![offset, length, 1, 1], ..example() };
        expect_refusal(&format!("pair {offset} {length}"), &body, 3, 0);
        let body = Words { pairs: vec![0, 1, offset, length], ..example() };
        expect_refusal(&format!("second pair {offset} {length}"), &body, 3, 1);
    }
}

#[test]
fn kinds() {
    for kind in [21, 22, 32, 255, 256, 268, 1 << 31, u32::MAX] {
        expect_refusal(&format!("kind {kind}"), &lone(kind, 0, 2, 0), 4, 1);
    }
    let mut body = example();
    body.rows[0] = 21;
    expect_refusal("kind 21 at row 0", &body, 4, 0);
}

#[test]
fn details() {
    for (kind, allowed) in (0..).zip(DETAILS) {
        for detail in 0..allowed {
            let what = format!("kind {kind} detail {detail}");
            expect_allowed(&what, &lone(kind, detail, 2, name_for(kind, detail)));
        }
        for detail in [allowed, allowed + 1, 255, 256, u32::MAX] {
            let what = format!("kind {kind} detail {detail}");
            expect_refusal(&what, &lone(kind, detail, 2, name_for(kind, 0)), 4, 1);
        }
    }
}

#[test]
fn positions() {
    for kind in 0..21 {
        let name = name_for(kind, 0);
        expect_refusal(&format!("kind {kind} at 0"), &lone(kind, 0, 0, name), 4, 1);
        for position in [1, u32::MAX] {
            expect_allowed(&format!("kind {kind}"), &lone(kind, 0, position, name));
        }
    }
}

#[test]
fn names() {
    for (kind, allowed) in (0..).zip(DETAILS) {
        for detail in 0..allowed {
            expect_name_rule(kind, detail);
        }
    }
}

/// Labeled and goto must have a name, other Branches may, the rest have none.
fn expect_name_rule(kind: u32, detail: u32) {
    let what = |name| format!("kind {kind} detail {detail} name {name}");
    let must = kind == LABELED || (kind == BRANCH && detail == GOTO);
    let may = kind == LABELED || kind == BRANCH;
    for (name, allowed) in [(0, !must), (1, may)] {
        let body = lone(kind, detail, 2, name);
        match allowed {
            true => expect_allowed(&what(name), &body),
            false => expect_refusal(&what(name), &body, 4, 1),
        }
    }
    for past in [2, 3, 501, 65536, 1 << 31, u32::MAX] {
        expect_refusal(&what(past), &lone(kind, detail, 2, past), 4, 1);
    }
}

/// Of several rows that aren't allowed, the first is told, whatever isn't allowed there.
#[test]
fn first_row_not_allowed() {
    let faults = [(0, 21), (1, 1), (2, 0), (3, 9)];
    for (first, word) in faults {
        for (second, other) in faults {
            let mut rows = flat(6);
            rows[2][first] = word;
            rows[4][second] = other;
            let what = format!("words {first} and {second} not allowed");
            expect_refusal(&what, &Words::new(&rows, &["L"]), 4, 2);
        }
    }
}

#[test]
fn depth() {
    expect_refusal("101 Blocks", &Words::new(&nested(101), &[]), 6, 100);
    let mut rows = nested(102);
    rows[100][4] = 1;
    rows[101][4] = 1;
    expect_refusal("two items 101 deep", &Words::new(&rows, &[]), 6, 100);
    let mut rows = nested(150);
    rows.insert(1, [EMPTY, 0, 1, 0, 1]);
    rows[0][4] += 1;
    expect_refusal("101 deep after an item", &Words::new(&rows, &[]), 6, 101);
}

/// Each row below another is one deeper: labels, If, For and its Block.
#[test]
fn depth_of_other_kinds() {
    let below = |kinds: &[[u32; 3]], rows: usize| {
        let mut all = vec![[BLOCK, 0, 1, 0, rows as u32]];
        for row in 1..rows - 1 {
            let [kind, detail, name] = kinds[(row - 1) % kinds.len()];
            all.push([kind, detail, 1, name, (rows - row) as u32]);
        }
        all.push([BLOCK, 0, 1, 0, 1]);
        Words::new(&all, &["L"])
    };
    let (labels, if_, for_) = ([[LABELED, 0, 1]], [13, 0, 0], [19, 0, 0]);
    let chains: [&[[u32; 3]]; 3] = [&labels, &[if_, [BLOCK, 0, 0]], &[for_, [BLOCK, 0, 0]]];
    for kinds in chains {
        assert_eq!(zesthull::refusal(below(kinds, 100).body()), Ok(()));
        let deeper = if kinds.len() == 1 { 101 } else { 102 };
        expect_refusal("a deep chain", &below(kinds, deeper), 6, 100);
    }
}

/// Refusal 7 is that of the calls that write; the others don't have it.
#[test]
fn too_short() {
    let body = example();
    let refusal = Refusal { number: 7, index: 0 };
    for lent in [(39, 5), (40, 4), (39, 4), (0, 5), (40, 0), (0, 0), (39, 100), (1000, 4)] {
        expect_unwritten(&format!("{lent:?} words"), &body, lent, refusal);
    }
    assert_eq!(zesthull::refusal(body.body()), Ok(()));
    assert_eq!(zesthull::placing(body.body()), Ok(None));
    assert_eq!(zesthull::verdict(body.body()), Ok(true));
}
