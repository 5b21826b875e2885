//! What the classes share: plain statements, names, order.

use oracle::bodies::rows::{leaf, Rows};
use oracle::bodies::Rng;
use oracle::kind;

/// Adds calls until the items and row 0 are `rows` rows.
pub fn fill(items: &mut Vec<Rows>, rows: usize) {
    let taken: usize = 1 + items.iter().map(Vec::len).sum::<usize>();
    items.extend(vec![leaf(kind::EXPR, 0); rows - taken]);
}

/// Puts items in any order.
pub fn shuffle<T>(rng: &mut Rng, items: &mut [T]) {
    for i in (1..items.len()).rev() {
        items.swap(i, rng.below(i + 1));
    }
}

/// Names as people write them, in any order: a word, and a number from the
/// second time on.
pub fn names(rng: &mut Rng, count: usize) -> Vec<String> {
    const WORDS: [&str; 12] = [
        "outer", "inner", "loop", "next", "done", "retry", "fail", "scan", "read", "again", "end", "L",
    ];
    let name = |i: usize| match i / WORDS.len() {
        0 => WORDS[i].to_string(),
        turn => format!("{}{turn}", WORDS[i % WORDS.len()]),
    };
    let mut names: Vec<String> = (0..count).map(name).collect();
    shuffle(rng, &mut names);
    names
}

/// Names of 16 bytes that differ in their last three, in any order.
pub fn long_names(rng: &mut Rng, count: usize) -> Vec<String> {
    let mut names: Vec<String> = (0..count).map(|i| format!("label_of_a_na{i:03}")).collect();
    shuffle(rng, &mut names);
    names
}

/// Names of 16 bytes that have the same hash (crates/canonical), in any order:
/// 37 more in one byte is one more in the byte after it.
pub fn names_of_one_hash(rng: &mut Rng, count: usize) -> Vec<String> {
    let pair = |digit: usize| [b'0' + 37 * digit as u8, b'z' - digit as u8].map(char::from);
    let name = |i: usize| (0..8).flat_map(|at| pair(i / 3_usize.pow(at) % 3)).collect();
    let mut names: Vec<String> = (0..count).map(name).collect();
    shuffle(rng, &mut names);
    names
}
