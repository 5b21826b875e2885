//! Random well-formed bodies of every kind.

use super::names::add_names;
use super::Rng;
use crate::{branch, kind, Body};

/// What a random body is to be like.
#[derive(Clone, Debug)]
pub struct Shape {
    /// Rows wanted, 1 to 2,000; the body has exactly as many.
    pub rows: usize,
    /// How deep at most, 2 to 100.
    pub depth: usize,
    /// Pairs, 0 to 500.
    pub names: usize,
    /// How many of the pairs rows take their names from.
    pub named: usize,
    /// Weights beside 10 for other statements.
    pub labels: u32,
    pub gotos: u32,
    pub breaks: u32,
    /// Whether equal bytes stand under several numbers.
    pub repeated: bool,
    /// Whether there are names with characters past ASCII.
    pub wide: bool,
    /// Whether one name is `_`.
    pub blank: bool,
}

impl Shape {
    /// A shape of up to `rows` rows; labels and branches collide often.
    pub fn any(rng: &mut Rng, rows: usize) -> Shape {
        let names = rng.pick(&[0, 1, 2, 2, 3, 3, 5, 8, 40, 500]);
        Shape {
            rows: rng.between(1, rows),
            depth: rng.pick(&[3, 5, 8, 12, 30, 100]),
            names,
            named: names.min(rng.pick(&[1, 2, 3, 5, 500])),
            labels: rng.pick(&[1, 4, 10, 30]),
            gotos: rng.pick(&[0, 2, 10, 30]),
            breaks: rng.pick(&[0, 2, 10, 30]),
            repeated: rng.one_in(2),
            wide: rng.one_in(3),
            blank: rng.one_in(3),
        }
    }
}

/// A random well-formed body of a shape.
pub fn random(rng: &mut Rng, shape: Shape) -> Body {
    let mut body = Body::default();
    add_names(rng, &shape, &mut body);
    let mut maker = Maker { rng, shape, body, labels: vec![] };
    let rows = maker.shape.rows;
    maker.block(rows, 1);
    maker.body
}

struct Maker<'a> {
    rng: &'a mut Rng,
    shape: Shape,
    body: Body,
    /// The names of the labels around the next row.
    labels: Vec<u32>,
}

/// The kinds of statements without rows below them, and their weights.
const PLAIN: [u32; 11] = [
    kind::EMPTY,
    kind::ASSIGN,
    kind::DECL,
    kind::RETURN,
    kind::EXPR,
    kind::BAD,
    kind::SEND,
    kind::INC_DEC,
    kind::GO,
    kind::DEFER,
    kind::BLOCK,
];
const PLAIN_WEIGHTS: [u32; 11] = [6, 6, 4, 6, 6, 1, 1, 1, 1, 1, 3];

/// The kinds of statements with rows below them, and their weights.
const NESTED: [u32; 7] =
    [kind::BLOCK, kind::IF, kind::FOR, kind::RANGE, kind::SWITCH, kind::TYPE_SWITCH, kind::SELECT];
const NESTED_WEIGHTS: [u32; 7] = [3, 4, 4, 2, 2, 2, 2];

impl Maker<'_> {
    fn push(&mut self, kind: u32, detail: u32, name: u32, size: usize) {
        let row = self.body.rows.len();
        let position = match self.rng.below(4) {
            0 => row as u32 + 1,
            1 => self.rng.between(1, 5) as u32,
            2 => u32::MAX - self.rng.below(3) as u32,
            _ => (self.rng.next() as u32).max(1),
        };
        self.body.rows.push([kind, detail, position, name, size as u32]);
    }

    /// A detail of the kinds that have two.
    fn detail(&mut self) -> u32 {
        self.rng.below(2) as u32
    }

    /// A Block of `rows` rows.
    fn block(&mut self, rows: usize, depth: usize) {
        self.push(kind::BLOCK, 0, 0, rows);
        self.list(rows - 1, depth + 1);
    }

    /// A list of `rows` rows.
    fn list(&mut self, mut rows: usize, depth: usize) {
        while rows > 0 {
            let part = match self.rng.below(4) {
                0 => rows,
                1 => self.rng.between(1, rows),
                _ => self.rng.between(1, rows.min(8)),
            };
            rows -= self.statement(part, depth);
        }
    }

    /// A statement of up to `rows` rows at this depth; gives its rows.
    fn statement(&mut self, rows: usize, depth: usize) -> usize {
        let deeper = self.shape.depth.saturating_sub(depth);
        let named = self.shape.named > 0;
        let weights = [
            10,
            if rows > 1 && deeper > 0 { 10 } else { 0 },
            if named && rows > 1 && deeper > 0 { self.shape.labels } else { 0 },
            if named { self.shape.gotos } else { 0 },
            self.shape.breaks,
        ];
        match self.rng.weighted(&weights) {
            0 => self.plain(),
            1 => self.nested(rows, depth),
            2 => self.labeled(rows, depth),
            3 => self.branch(branch::GOTO),
            _ => {
                let detail = self.rng.pick(&[branch::BREAK, branch::CONTINUE, branch::BREAK]);
                let rare = self.rng.one_in(5);
                self.branch(if rare { branch::FALLTHROUGH } else { detail })
            }
        }
    }

    fn plain(&mut self) -> usize {
        let kind = PLAIN[self.rng.weighted(&PLAIN_WEIGHTS)];
        let detail = match kind {
            kind::DECL | kind::EXPR | kind::ASSIGN => self.detail(),
            _ => 0,
        };
        self.push(kind, detail, 0, 1);
        1
    }

    fn labeled(&mut self, rows: usize, depth: usize) -> usize {
        let name = self.rng.between(1, self.shape.named) as u32;
        let row = self.body.rows.len();
        self.push(kind::LABELED, 0, name, 0);
        self.labels.push(name);
        let size = 1 + self.statement(rows - 1, depth + 1);
        self.labels.pop();
        self.body.rows[row][4] = size as u32;
        size
    }

    /// A branch; often to a label around it, where it may have one.
    fn branch(&mut self, detail: u32) -> usize {
        let around = self.labels.len();
        let named = self.shape.named;
        let name = match self.rng.below(6) {
            0 | 1 if detail != branch::GOTO => 0,
            2..=4 if around > 0 => self.labels[self.rng.below(around)],
            _ if named > 0 => self.rng.between(1, named) as u32,
            _ => 0,
        };
        self.push(kind::BRANCH, detail, name, 1);
        1
    }

    fn nested(&mut self, rows: usize, depth: usize) -> usize {
        let kind = NESTED[self.rng.weighted(&NESTED_WEIGHTS)];
        let fits = kind == kind::BLOCK || depth + 2 <= self.shape.depth;
        let rows = if fits { rows } else { 2 };
        match kind {
            kind::BLOCK => self.block(rows, depth),
            kind::IF => self.if_statement(rows, depth),
            kind::FOR | kind::RANGE => {
                let detail = if kind == kind::FOR { self.detail() } else { 0 };
                self.push(kind, detail, 0, rows);
                self.block(rows - 1, depth + 1);
            }
            _ => self.clauses(kind, rows, depth),
        }
        rows
    }

    fn if_statement(&mut self, rows: usize, depth: usize) {
        let with_else = rows > 2 && self.rng.one_in(2);
        self.push(kind::IF, with_else as u32, 0, rows);
        if !with_else {
            return self.block(rows - 1, depth + 1);
        }
        let body = self.rng.between(1, rows - 2);
        let other = rows - 1 - body;
        self.block(body, depth + 1);
        if other > 1 && depth + 3 <= self.shape.depth && self.rng.one_in(3) {
            self.if_statement(other, depth + 1);
        } else {
            self.block(other, depth + 1);
        }
    }

    /// A switch or Select of `rows` rows; two of three with clauses have a
    /// default among them.
    fn clauses(&mut self, kind: u32, rows: usize, depth: usize) {
        let clause = if kind == kind::SELECT { kind::COMM } else { kind::CASE };
        self.push(kind, 0, 0, rows);
        self.push(kind::BLOCK, 0, 0, rows - 1);
        let mut left = rows - 2;
        let mut clauses = vec![];
        while left > 0 {
            let fits = depth + 3 <= self.shape.depth;
            let size = if fits { self.rng.between(1, left) } else { 1 };
            clauses.push(self.body.rows.len());
            self.push(clause, 0, 0, size);
            self.list(size - 1, depth + 3);
            left -= size;
        }
        if !clauses.is_empty() && !self.rng.one_in(3) {
            let default = self.rng.pick(&clauses);
            self.body.rows[default][1] = 1;
        }
    }
}
