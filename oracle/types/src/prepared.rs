//! A body made ready: goscript's tree of it, and a checker to walk the tree.

use crate::answer;
use crate::check::check::{Checker, TypeInfo};
use crate::importer::{SourceRead, TraceConfig};
use crate::objects::{PackageKey, TCObjects};
use crate::tree::Tree;
use go_parser::ast::{BlockStmt, Stmt};
use go_parser::{AstObjects, ErrorList, FileSet, Map};
use records::{Answer, Body};
use std::rc::Rc;

/// A body reads no source.
pub struct Reader;

impl SourceRead for Reader {}

/// What a checker borrows.
struct Parts {
    tc_objs: TCObjects,
    ast_objs: AstObjects,
    fset: FileSet,
    errors: ErrorList,
    pkgs: Map<String, PackageKey>,
    results: Map<PackageKey, TypeInfo>,
    trace: TraceConfig,
    reader: Reader,
}

/// Owns the parts behind a pointer, so that a checker may borrow them.
struct Held(*mut Parts);

impl Drop for Held {
    fn drop(&mut self) {
        // The pointer came from a box and no one else frees it.
        drop(unsafe { Box::from_raw(self.0) });
    }
}

pub struct Prepared {
    // Borrows from `held`: stands before it and so is dropped before it.
    checker: Checker<'static, Reader>,
    held: Held,
    block: Rc<BlockStmt>,
    stmt: Stmt,
    body: Body,
}

impl Prepared {
    /// Takes a well-formed body whose names are UTF-8.
    pub fn new(body: &Body) -> Prepared {
        let tree = Tree::new(body);
        let held = Held(Box::into_raw(Box::new(Parts {
            tc_objs: TCObjects::new(),
            ast_objs: tree.objs,
            fset: file_set(body),
            errors: ErrorList::new(),
            pkgs: Map::new(),
            results: Map::new(),
            trace: TraceConfig::default(),
            reader: Reader,
        })));
        let mut checker = checker(&held);
        checker.octx.panics = Some(tree.panics).filter(|panics| !panics.is_empty());
        let stmt = Stmt::Block(tree.body.clone());
        Prepared { checker, held, block: tree.body, stmt, body: body.clone() }
    }

    /// goscript's answer, with nothing in it of earlier calls.
    pub fn answer(&mut self) -> Answer {
        let result = &self.checker.result;
        if self.checker.errors().len() + result.defs.len() + result.uses.len() > 0 {
            self.clear();
        }
        self.labels();
        Answer {
            sheet: answer::sheet(&self.body, self.checker.errors()),
            bindings: answer::bindings(&self.body, &self.checker),
            terminating: self.is_terminating(),
        }
    }

    /// goscript's `labels` and nothing else. Its errors and label objects stay
    /// until `clear`, as they do in goscript.
    #[inline]
    pub fn labels(&mut self) {
        self.checker.labels(&self.block)
    }

    /// goscript's `is_terminating` on row 0 and nothing else.
    #[inline]
    pub fn is_terminating(&self) -> bool {
        self.checker.is_terminating(&self.stmt, None)
    }

    /// Drops what earlier calls of `labels` left.
    pub fn clear(&mut self) {
        let panics = self.checker.octx.panics.take();
        // No one reads the parts while they are replaced: the only borrower
        // is the old checker, which isn't used again.
        let parts = unsafe { &mut *self.held.0 };
        parts.tc_objs = TCObjects::new();
        parts.errors = ErrorList::new();
        self.checker = checker(&self.held);
        self.checker.octx.panics = panics;
    }
}

fn checker(held: &Held) -> Checker<'static, Reader> {
    // The parts live as long as `held`, which outlives the checker.
    let parts: &'static mut Parts = unsafe { &mut *held.0 };
    let pkg = parts.tc_objs.new_package("body".to_string());
    Checker::new(
        &mut parts.tc_objs,
        &mut parts.ast_objs,
        &mut parts.fset,
        &parts.errors,
        &mut parts.pkgs,
        &mut parts.results,
        pkg,
        &parts.trace,
        &parts.reader,
    )
}

/// One file in which every declaration row starts a line, so that the line of
/// a message tells the declaration. See `answer::declaration`.
fn file_set(body: &Body) -> FileSet {
    let mut set = FileSet::new();
    let file = set.add_file("body".to_string(), None, body.rows.len() + 2);
    for row in answer::declarations(body) {
        file.add_line(row + 1);
    }
    set
}
