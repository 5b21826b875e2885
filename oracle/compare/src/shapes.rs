//! Words of every shape, right or wrong, of a few rows.

use oracle::{kind, Words};

/// Calls `f` on all words of one or two rows, and on all of three or four
/// whose row 0 is a Block of all rows. Kinds, sizes (0 to one past the last
/// row) and the details of If and clauses are free, other words allowed.
pub fn every(f: &mut dyn FnMut(&Words)) {
    let mut words: Words = (vec![], vec![0, 1], b"L".to_vec());
    for count in 1..=4 {
        words.0.clear();
        if count > 2 {
            words.0.extend([kind::BLOCK, 0, 1, 0, count as u32]);
        }
        more(&mut words, count, f);
    }
}

/// Adds rows up to `count` in every way.
fn more(words: &mut Words, count: usize, f: &mut dyn FnMut(&Words)) {
    let row = words.0.len() / 5;
    if row == count {
        return f(words);
    }
    let past = (count - row + 1) as u32;
    for kind in 0..=kind::RANGE {
        let name = (kind == kind::LABELED) as u32;
        for detail in 0..=[kind::IF, kind::CASE, kind::COMM].contains(&kind) as u32 {
            for size in 0..=past {
                words.0.extend([kind, detail, 1, name, size]);
                more(words, count, f);
                words.0.truncate(5 * row);
            }
        }
    }
}
