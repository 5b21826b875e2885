//! Bodies as people write them: plain statements, few nested deeply, and
//! seldom a label.

use super::Rng;
use crate::{branch, kind, Body};

const DEPTH: usize = 8;

const PLAIN: [(u32, u32); 11] = [
    (kind::EXPR, 0),
    (kind::ASSIGN, 0),
    (kind::ASSIGN, 1),
    (kind::DECL, 1),
    (kind::INC_DEC, 0),
    (kind::DEFER, 0),
    (kind::GO, 0),
    (kind::SEND, 0),
    (kind::DECL, 0),
    (kind::EXPR, 1),
    (kind::EMPTY, 0),
];
const PLAIN_WEIGHTS: [u32; 11] = [36, 24, 28, 4, 3, 2, 1, 1, 1, 2, 1];

/// A body of exactly `rows` rows. One in 16 has a labelled loop.
pub fn people(rng: &mut Rng, rows: usize) -> Body {
    let named = rng.one_in(16);
    let mut maker = Maker { rng, body: Body::default(), unlabelled: named, inside: 0 };
    if named {
        maker.body.pairs.push([0, 5]);
        maker.body.bytes.extend(b"outer");
    }
    maker.push(kind::BLOCK, 0, 0, rows);
    maker.list(rows - 1, 2);
    maker.body
}

struct Maker<'a> {
    rng: &'a mut Rng,
    body: Body,
    /// Whether the label is still to be placed.
    unlabelled: bool,
    /// How many loops are around the next row.
    inside: usize,
}

impl Maker<'_> {
    fn push(&mut self, kind: u32, detail: u32, name: u32, size: usize) {
        let position = 1 + 12 * self.body.rows.len() as u32;
        self.body.rows.push([kind, detail, position, name, size as u32]);
    }

    fn list(&mut self, mut rows: usize, depth: usize) {
        while rows > 0 {
            let part = rows.min(self.rng.pick(&[3, 4, 5, 6, 8, 12, 20, 40]));
            let nested = part > 2 && depth + 4 <= DEPTH && self.rng.one_in(4);
            rows -= match nested {
                true => self.nested(part, depth),
                false => self.plain(rows == 1),
            };
        }
    }

    /// A statement without rows below it; the last of a list often leaves it.
    fn plain(&mut self, last: bool) -> usize {
        if last && self.inside > 0 && self.rng.one_in(4) {
            let detail = self.rng.pick(&[branch::BREAK, branch::CONTINUE]);
            self.push(kind::BRANCH, detail, 0, 1);
        } else if last && self.rng.one_in(2) {
            self.push(kind::RETURN, 0, 0, 1);
        } else {
            let (kind, detail) = PLAIN[self.rng.weighted(&PLAIN_WEIGHTS)];
            self.push(kind, detail, 0, 1);
        }
        1
    }

    fn nested(&mut self, rows: usize, depth: usize) -> usize {
        match self.rng.weighted(&[60, 16, 14, 8, 2, 1]) {
            0 => self.if_statement(rows, depth),
            1 => self.loops(kind::RANGE, 0, rows, depth),
            2 => self.for_statement(rows, depth),
            3 => self.clauses(kind::SWITCH, rows, depth),
            4 => self.clauses(kind::TYPE_SWITCH, rows, depth),
            _ => self.clauses(kind::SELECT, rows, depth),
        }
        rows
    }

    fn block(&mut self, rows: usize, depth: usize) {
        self.push(kind::BLOCK, 0, 0, rows);
        self.list(rows - 1, depth + 1);
    }

    fn if_statement(&mut self, rows: usize, depth: usize) {
        let with_else = rows > 4 && self.rng.one_in(5);
        self.push(kind::IF, with_else as u32, 0, rows);
        let body = if with_else { rows / 2 } else { rows - 1 };
        self.block(body, depth + 1);
        if with_else {
            self.block(rows - 1 - body, depth + 1);
        }
    }

    /// A For; once in a body that has a name, with the label on it and a
    /// branch to the label as first item.
    fn for_statement(&mut self, rows: usize, depth: usize) {
        if !self.unlabelled || rows < 4 || depth + 5 > DEPTH {
            let detail = !self.rng.one_in(5) as u32;
            return self.loops(kind::FOR, detail, rows, depth);
        }
        self.unlabelled = false;
        self.push(kind::LABELED, 0, 1, rows);
        self.push(kind::FOR, 1, 0, rows - 1);
        self.push(kind::BLOCK, 0, 0, rows - 2);
        let detail = self.rng.pick(&[branch::BREAK, branch::CONTINUE]);
        self.push(kind::BRANCH, detail, 1, 1);
        self.list(rows - 4, depth + 3);
    }

    fn loops(&mut self, kind: u32, detail: u32, rows: usize, depth: usize) {
        self.push(kind, detail, 0, rows);
        self.inside += 1;
        self.block(rows - 1, depth + 1);
        self.inside -= 1;
    }

    fn clauses(&mut self, kind: u32, rows: usize, depth: usize) {
        let clause = if kind == kind::SELECT { kind::COMM } else { kind::CASE };
        self.push(kind, 0, 0, rows);
        self.push(kind::BLOCK, 0, 0, rows - 1);
        let mut left = rows - 2;
        while left > 0 {
            let size = left.min(self.rng.between(2, 5));
            let default = size == left && self.rng.one_in(2);
            self.push(clause, default as u32, 0, size);
            self.list(size - 1, depth + 3);
            left -= size;
        }
    }
}
