//! Words on both sides of each limit, one limit at a time.

use oracle::bodies::at_limits;
use oracle::bodies::rows::{block, body, goto, label, leaf, over, row, Rows};
use oracle::{kind, Words};

pub fn both_sides() -> Vec<Words> {
    let mut all = lengths();
    all.extend(pairs());
    all.extend(rows().into_iter().map(in_block));
    all.extend(sizes());
    all.extend(depths());
    all.extend(defaults());
    all
}

/// Every limit body with one row more; then counts of words, pairs and bytes.
fn lengths() -> Vec<Words> {
    let mut all = vec![];
    for (_, mut body) in at_limits() {
        body.rows[0][4] += 1;
        body.rows.push([kind::EMPTY, 0, 1, 0, 1]);
        all.push(body.words());
    }
    let full = full();
    let resized = |rows: usize, pairs: usize, bytes: usize| {
        let mut words = full.clone();
        words.0.resize(rows, 1);
        words.1.resize(pairs, 1);
        words.2.resize(bytes, b'x');
        words
    };
    for rows in [0, 1, 4, 5, 6, 9_999, 10_000, 10_001, 10_004, 10_005] {
        all.push(resized(rows, 1_000, 8_000));
    }
    for pairs in [0, 1, 998, 999, 1_000, 1_001, 1_002] {
        all.push(resized(10_000, pairs, 8_000));
    }
    for bytes in [0, 1, 7_999, 8_000, 8_001] {
        all.push(resized(10_000, 1_000, bytes));
    }
    all.push((vec![], vec![], vec![]));
    all
}

/// A body with 2,000 rows, 500 names and 8,000 bytes.
fn full() -> Words {
    let full =
        |words: &Words| (words.0.len(), words.1.len(), words.2.len()) == (10_000, 1_000, 8_000);
    at_limits().into_iter().map(|(_, body)| body.words()).find(full).unwrap()
}

/// Each word of the first, a middle and the last pair, moved and at extremes.
fn pairs() -> Vec<Words> {
    let full = full();
    let mut all = vec![];
    for at in [0, 1, 2, 3, 500, 501, 996, 997, 998, 999] {
        let word = full.1[at];
        for other in [0, 1, word + 1, word.wrapping_sub(1), 8_000, u32::MAX - word, u32::MAX] {
            let mut words = full.clone();
            words.1[at] = other;
            all.push(words);
        }
    }
    all
}

/// Positions and names at their edges; 1 and 2 are the names there are.
const POSITIONS_AND_NAMES: [[u32; 2]; 8] =
    [[0, 0], [0, 1], [1, 0], [1, 1], [1, 2], [1, 3], [1, u32::MAX], [u32::MAX, 0]];

/// Details at the edges of the table, of a byte's bits, of a shift's width and of a word.
const DETAILS: [u32; 13] = [0, 1, 2, 3, 4, 5, 7, 8, 31, 32, 33, 256, u32::MAX];

/// Rows of every kind at the edges of detail, position and name.
fn rows() -> Vec<[u32; 5]> {
    let mut all = vec![];
    for kind in (0..=22).chain([255, 256, u32::MAX - 1, u32::MAX]) {
        for detail in DETAILS {
            let row = |[position, name]: [u32; 2]| [kind, detail, position, name, 1];
            all.extend(POSITIONS_AND_NAMES.map(row));
        }
    }
    all
}

/// A row between others; those that need rows below them are refused.
fn in_block(row: [u32; 5]) -> Words {
    let items = [goto(1), vec![row], label(2, leaf(kind::EMPTY, 0))];
    let mut body = body(&items, &["L", "M"]);
    body.rows[2][2] = row[2];
    body.words()
}

/// Each size of a body with most shapes and of one with two defaults, moved
/// and at extremes.
fn sizes() -> Vec<Words> {
    [most_shapes(), two_inside_two()].iter().flat_map(other_sizes).collect()
}

fn most_shapes() -> Words {
    let case = |items: &[Rows]| row(kind::CASE, 0, 0, items);
    let if_else = row(kind::IF, 1, 0, &[block(&[goto(1)]), block(&[])]);
    let switch = over(kind::SWITCH, &[case(&[if_else]), case(&[])]);
    let select = over(kind::SELECT, &[row(kind::COMM, 1, 0, &[leaf(kind::RETURN, 0)])]);
    body(&[label(1, over(kind::FOR, &[switch])), select], &["L"]).words()
}

/// `switch { default: switch { default: ; default: }; default: }; empty`.
fn two_inside_two() -> Words {
    let default = |items: &[Rows]| row(kind::CASE, 1, 0, items);
    let inner = over(kind::SWITCH, &[default(&[]), default(&[])]);
    let outer = over(kind::SWITCH, &[default(&[inner]), default(&[])]);
    body(&[outer, leaf(kind::EMPTY, 0)], &[""; 0]).words()
}

fn other_sizes(words: &Words) -> Vec<Words> {
    let mut all = vec![];
    for at in (4..words.0.len()).step_by(5) {
        let size = words.0[at];
        let left = ((words.0.len() - at) / 5 + 1) as u32;
        for other in [0, 1, size - 1, size + 1, left, left + 1, u32::MAX - 1, u32::MAX] {
            let mut words = words.clone();
            words.0[at] = other;
            all.push(words);
        }
    }
    all
}

/// Rows less than, exactly and more than 100 deep, below Blocks, labels,
/// loops, Selects and else parts.
fn depths() -> Vec<Words> {
    let around: [fn(Rows) -> Rows; 5] = [
        |inner| block(&[inner]),
        |inner| label(1, inner),
        |inner| over(kind::RANGE, &[inner]),
        |inner| over(kind::SELECT, &[row(kind::COMM, 0, 0, &[inner])]),
        |inner| row(kind::IF, 1, 0, &[block(&[]), block(&[inner])]),
    ];
    let mut all = vec![];
    for around in around {
        for levels in 25..=101 {
            let inner = (0..levels).fold(leaf(kind::RETURN, 0), |inner, _| around(inner));
            all.push(body(&[leaf(kind::EMPTY, 0), inner, goto(1)], &["L"]).words());
        }
    }
    all
}

/// Switches and Selects with and without a second default, in row 0 and inside
/// so many Blocks that their clauses are less than, exactly and more than 100
/// deep. Then one with two, each of its positions once 0.
fn defaults() -> Vec<Words> {
    let bodies = oracle::bodies::defaults();
    let mut all: Vec<Words> = bodies.iter().map(|body| body.words()).collect();
    for levels in 91..=97 {
        let inside = |rows: &Rows| (0..levels).fold(rows.clone(), |inner, _| block(&[inner]));
        all.extend(bodies.iter().map(|plain| body(&[inside(&plain.rows)], &[""; 0]).words()));
    }
    let two = two_inside_two();
    for at in (2..two.0.len()).step_by(5) {
        let mut words = two.clone();
        words.0[at] = 0;
        all.push(words);
    }
    all
}
