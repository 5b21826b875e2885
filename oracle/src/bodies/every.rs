//! Every small body of Block, Labeled, Return, Branch, If and For.

use super::rows::{block, leaf, row, Rows};
use crate::{branch, kind, Body};

/// The statements and the lists of each number of rows.
struct Tables {
    statements: Vec<Vec<Rows>>,
    lists: Vec<Vec<Rows>>,
}

/// Calls `f` on every well-formed body of up to `max_rows` rows with the names
/// A and B as 1 and 2, and 1 + row as position.
pub fn every(max_rows: usize, f: &mut dyn FnMut(&Body)) {
    let mut tables = Tables { statements: vec![vec![]], lists: vec![vec![vec![]]] };
    let mut body = Body { rows: vec![], pairs: vec![[0, 1], [1, 1]], bytes: b"AB".to_vec() };
    for below in 0..max_rows {
        if below > 0 {
            tables.statements.push(tables.statements_of(below));
            tables.lists.push(vec![]);
        }
        let mut lists = vec![];
        tables.each_list(below, &mut |list| {
            set(&mut body, list);
            f(&body);
            if below + 1 < max_rows {
                lists.push(list.to_vec());
            }
        });
        tables.lists[below] = lists;
    }
}

fn set(body: &mut Body, list: &[[u32; 5]]) {
    body.rows.clear();
    body.rows.push([kind::BLOCK, 0, 0, 0, 1 + list.len() as u32]);
    body.rows.extend(list);
    for (i, row) in body.rows.iter_mut().enumerate() {
        row[2] = i as u32 + 1;
    }
}

impl Tables {
    /// Calls `f` on each list of `count` rows: a statement and a shorter list.
    fn each_list(&self, count: usize, f: &mut dyn FnMut(&[[u32; 5]])) {
        if count == 0 {
            return f(&[]);
        }
        let mut list: Rows = vec![];
        for first in 1..=count {
            for statement in &self.statements[first] {
                for rest in &self.lists[count - first] {
                    list.clear();
                    list.extend(statement);
                    list.extend(rest);
                    f(&list);
                }
            }
        }
    }

    fn statements_of(&self, count: usize) -> Vec<Rows> {
        let mut all = self.blocks(count);
        if count == 1 {
            all.push(leaf(kind::RETURN, 0));
            all.extend(branches());
        } else {
            for statement in &self.statements[count - 1] {
                all.extend([1, 2].map(|name| row(kind::LABELED, 0, name, &[statement.clone()])));
            }
            for block in self.blocks(count - 1) {
                all.extend([0, 1].map(|detail| row(kind::FOR, detail, 0, &[block.clone()])));
                all.push(row(kind::IF, 0, 0, &[block]));
            }
            all.extend(self.with_else(count));
        }
        all
    }

    /// The Blocks of `count` rows.
    fn blocks(&self, count: usize) -> Vec<Rows> {
        match count {
            0 => vec![],
            _ => self.lists[count - 1].iter().map(|list| block(&[list.clone()])).collect(),
        }
    }

    fn with_else(&self, count: usize) -> Vec<Rows> {
        let mut all = vec![];
        for body in 1..count - 1 {
            let others = &self.statements[count - 1 - body];
            let allowed = |rows: &&Rows| [kind::BLOCK, kind::IF].contains(&rows[0][0]);
            for other in others.iter().filter(allowed) {
                for block in self.blocks(body) {
                    all.push(row(kind::IF, 1, 0, &[block, other.clone()]));
                }
            }
        }
        all
    }
}

fn branches() -> Vec<Rows> {
    let mut all = vec![];
    for detail in [branch::BREAK, branch::CONTINUE, branch::GOTO, branch::FALLTHROUGH] {
        let first = (detail == branch::GOTO) as u32;
        all.extend((first..=2).map(|name| row(kind::BRANCH, detail, name, &[])));
    }
    all
}
