//! The refusals 1 to 6 of document 01, read plainly from its table, and 10 of
//! document 02 (U4), which is tested after 5 and before 6.

use crate::{branch, kind, Body};

const ROWS: usize = 2_000;
const NAMES: usize = 500;
const BYTES: usize = 8_000;
const DEPTH: usize = 100;

/// How many details each kind has: they are 0, 1, .. up to this.
const DETAILS: [u32; 21] = [1, 2, 1, 1, 2, 1, 1, 2, 1, 1, 1, 4, 1, 2, 2, 1, 1, 2, 1, 2, 1];

/// The first cause that applies, with its index; none for a well-formed body.
pub fn refusal(rows: &[u32], pairs: &[u32], bytes: &[u8]) -> Option<(u32, u32)> {
    if rows.is_empty() || rows.len() % 5 != 0 || rows.len() / 5 > ROWS {
        return Some((1, 0));
    }
    if pairs.len() % 2 != 0 || pairs.len() / 2 > NAMES || bytes.len() > BYTES {
        return Some((2, 0));
    }
    let rows: Vec<[u32; 5]> = rows.chunks(5).map(|row| row.try_into().unwrap()).collect();
    let found = |cause: u32| move |index: usize| (cause, index as u32);
    bad_pair(pairs, bytes.len() as u64)
        .map(found(3))
        .or_else(|| bad_word(&rows, pairs.len() as u32 / 2).map(found(4)))
        .or_else(|| bad_size(&rows).map(found(5)))
        .or_else(|| match tree(&rows) {
            Err(row) => Some((5, row as u32)),
            Ok(parents) => second_default(&rows, &parents)
                .map(found(10))
                .or_else(|| too_deep(&parents).map(found(6))),
        })
}

/// The refusal of a body as records.
pub fn refusal_of(body: &Body) -> Option<(u32, u32)> {
    refusal(&body.rows.concat(), &body.pairs.concat(), &body.bytes)
}

/// Cause 3: the first pair that is empty, starts early or ends late.
fn bad_pair(pairs: &[u32], bytes: u64) -> Option<usize> {
    let mut previous_end = 0;
    for (i, pair) in pairs.chunks(2).enumerate() {
        let (offset, length) = (pair[0] as u64, pair[1] as u64);
        if length == 0 || offset < previous_end || offset + length > bytes {
            return Some(i);
        }
        previous_end = offset + length;
    }
    None
}

/// Cause 4: the first row with a word that isn't allowed.
fn bad_word(rows: &[[u32; 5]], names: u32) -> Option<usize> {
    rows.iter().position(|&[kind, detail, position, name, _]| {
        kind > kind::RANGE
            || detail >= DETAILS[kind as usize]
            || position == 0
            || name > names
            || !match kind {
                kind::LABELED => name != 0,
                kind::BRANCH => name != 0 || detail != branch::GOTO,
                _ => name == 0,
            }
    })
}

/// Cause 5, first half: the first row of size 0 or past the last row.
fn bad_size(rows: &[[u32; 5]]) -> Option<usize> {
    let count = rows.len() as u64;
    (0..rows.len()).find(|&row| {
        let size = rows[row][4] as u64;
        size == 0 || row as u64 + size > count
    })
}

/// Cause 5, second half: the parent of each row, or the lowest row whose
/// children break its shape. Parents are known before their children are
/// judged, since all lower rows are right by then.
fn tree(rows: &[[u32; 5]]) -> Result<Vec<Option<usize>>, usize> {
    let mut parents = vec![None; rows.len()];
    if rows[0][0] != kind::BLOCK || rows[0][4] as usize != rows.len() {
        return Err(0);
    }
    for row in 0..rows.len() {
        let children = children(rows, row).ok_or(row)?;
        let kinds: Vec<u32> = children.iter().map(|&child| rows[child][0]).collect();
        let parent = parents[row].map(|parent: usize| rows[parent][0]);
        if !allowed(rows[row], parent, &kinds) {
            return Err(row);
        }
        for child in children {
            parents[child] = Some(row);
        }
    }
    Ok(parents)
}

/// The children of a row, stepped through by size; none if they overrun it.
fn children(rows: &[[u32; 5]], row: usize) -> Option<Vec<usize>> {
    let end = row + rows[row][4] as usize;
    let (mut children, mut next) = (vec![], row + 1);
    while next < end {
        children.push(next);
        next += rows[next][4] as usize;
    }
    (next == end).then_some(children)
}

/// Whether a row of this kind may have children of these kinds.
fn allowed([kind, detail, ..]: [u32; 5], parent: Option<u32>, children: &[u32]) -> bool {
    let clause = |kind: u32| kind == kind::CASE || kind == kind::COMM;
    let items = || !children.iter().any(|&child| clause(child));
    let only = |kind: u32| children.iter().all(|&child| child == kind);
    match kind {
        kind::LABELED => children.len() == 1 && items(),
        kind::IF if detail == 0 => children == [kind::BLOCK],
        kind::IF => children == [kind::BLOCK, kind::BLOCK] || children == [kind::BLOCK, kind::IF],
        kind::FOR | kind::RANGE | kind::SWITCH | kind::TYPE_SWITCH | kind::SELECT => {
            children == [kind::BLOCK]
        }
        kind::BLOCK => match parent {
            Some(kind::SWITCH | kind::TYPE_SWITCH) => only(kind::CASE),
            Some(kind::SELECT) => only(kind::COMM),
            _ => items(),
        },
        kind::CASE | kind::COMM => items(),
        _ => children.is_empty(),
    }
}

/// Cause 10: the first default clause that has another before it among the
/// children of its Block.
fn second_default(rows: &[[u32; 5]], parents: &[Option<usize>]) -> Option<usize> {
    let default = |row: usize| matches!(rows[row], [kind::CASE | kind::COMM, 1, ..]);
    let beside = |row: usize, other: usize| parents[row] == parents[other];
    let second = |row: usize| (0..row).any(|before| default(before) && beside(before, row));
    (0..rows.len()).find(|&row| default(row) && second(row))
}

/// Cause 6: the first row that is too deep, row 0 being 1 deep.
fn too_deep(parents: &[Option<usize>]) -> Option<usize> {
    let mut depths: Vec<usize> = vec![];
    for parent in parents {
        depths.push(parent.map_or(1, |parent| depths[parent] + 1));
    }
    depths.iter().position(|&depth| depth > DEPTH)
}
