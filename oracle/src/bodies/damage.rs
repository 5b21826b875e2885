//! Damaged copies of bodies, for the refusals.

use super::Rng;
use crate::{kind, Body, Words};

const EDGES: [u32; 16] =
    [0, 1, 2, 3, 4, 5, 20, 21, 100, 500, 501, 2_000, 2_001, 1 << 31, u32::MAX - 1, u32::MAX];

/// A copy as words, damaged in one to three places.
pub fn damage(rng: &mut Rng, body: &Body) -> Words {
    let rows = match rng.one_in(6) {
        true => deepened(rng, body),
        false => body.rows.concat(),
    };
    let mut words = (rows, body.pairs.concat(), body.bytes.clone());
    for _ in 0..rng.pick(&[1, 1, 1, 2, 3]) {
        damage_once(rng, &mut words);
    }
    words
}

/// The rows with Blocks put between row 0 and its items; often too deep.
fn deepened(rng: &mut Rng, body: &Body) -> Vec<u32> {
    let count = body.rows.len() as u32;
    let more = rng.between(90, 101) as u32;
    let mut rows: Vec<u32> = vec![];
    for i in 0..more {
        rows.extend([kind::BLOCK, 0, 1, 0, count + more - i]);
    }
    rows.extend(body.rows.concat());
    rows
}

fn damage_once(rng: &mut Rng, (rows, pairs, bytes): &mut Words) {
    match rng.below(14) {
        0..=4 => replace(rng, rows),
        5 => move_a_little(rng, rows),
        6 => replace(rng, pairs),
        7 => move_a_little(rng, pairs),
        8 => drop_row(rng, rows),
        9 => swap_rows(rng, rows),
        10 => cut(rng, rows),
        11 => cut(rng, pairs),
        12 => cut(rng, bytes),
        _ => lengthen(rng, rows, pairs, bytes),
    }
}

/// Another value for one word.
fn replace(rng: &mut Rng, words: &mut [u32]) {
    if !words.is_empty() {
        let at = rng.below(words.len());
        words[at] = match rng.below(5) {
            0 => rng.next() as u32,
            1 => (words.len() / 5) as u32,
            2 => rng.below(21) as u32,
            _ => rng.pick(&EDGES),
        };
    }
}

/// One word up or down by 1.
fn move_a_little(rng: &mut Rng, words: &mut [u32]) {
    if !words.is_empty() {
        let at = rng.below(words.len());
        let up = rng.one_in(2);
        words[at] = if up { words[at].wrapping_add(1) } else { words[at].wrapping_sub(1) };
    }
}

fn drop_row(rng: &mut Rng, rows: &mut Vec<u32>) {
    if rows.len() >= 5 {
        let at = 5 * rng.below(rows.len() / 5);
        rows.drain(at..at + 5);
    }
}

/// Two rows change places, but for their sizes.
fn swap_rows(rng: &mut Rng, rows: &mut [u32]) {
    if rows.len() >= 5 {
        let (a, b) = (5 * rng.below(rows.len() / 5), 5 * rng.below(rows.len() / 5));
        for word in 0..4 {
            rows.swap(a + word, b + word);
        }
    }
}

/// A few words or bytes less; once in a while, none left.
fn cut<T>(rng: &mut Rng, words: &mut Vec<T>) {
    let less = rng.pick(&[1, 1, 2, 5, 10, usize::MAX]);
    words.truncate(words.len().saturating_sub(less));
}

/// More rows, pairs or bytes; sometimes more than are allowed.
fn lengthen(rng: &mut Rng, rows: &mut Vec<u32>, pairs: &mut Vec<u32>, bytes: &mut Vec<u8>) {
    let large = rng.one_in(2);
    match rng.below(3) {
        0 => rows.resize(if large { 10_005 } else { rows.len() + rng.between(1, 6) }, 1),
        1 => pairs.resize(if large { 1_002 } else { pairs.len() + rng.between(1, 3) }, 1),
        _ => bytes.resize(if large { 8_001 } else { 8_000 }, b'x'),
    }
}
