//! goscript's syntax tree of a well-formed body. Every node of a row has
//! position 1 + row, so that a position leads back to its row.

use go_parser::ast::*;
use go_parser::{AstObjects, IdentKey, Token};
use records::{branch, kind, Body};
use std::collections::HashSet;
use std::rc::Rc;

pub struct Tree {
    pub objs: AstObjects,
    pub panics: HashSet<NodeId>,
    pub body: Rc<BlockStmt>,
}

impl Tree {
    pub fn new(body: &Body) -> Tree {
        let objs = AstObjects::new();
        let mut maker = Maker { body, objs, panics: HashSet::new() };
        let block = maker.block(0);
        Tree { objs: maker.objs, panics: maker.panics, body: block }
    }
}

struct Maker<'a> {
    body: &'a Body,
    objs: AstObjects,
    panics: HashSet<NodeId>,
}

impl Maker<'_> {
    fn detail(&self, row: usize) -> u32 {
        self.body.rows[row][1]
    }

    fn list(&mut self, row: usize) -> Vec<Stmt> {
        let body = self.body;
        body.children(row).map(|item| self.stmt(item)).collect()
    }

    fn block(&mut self, row: usize) -> Rc<BlockStmt> {
        let last = row + self.body.rows[row][4] as usize;
        Rc::new(BlockStmt::new(row + 1, self.list(row), last))
    }

    fn stmt(&mut self, row: usize) -> Stmt {
        let pos = row + 1;
        match self.body.rows[row][0] {
            kind::BAD => Stmt::new_bad(pos, pos),
            kind::DECL => self.decl(row),
            kind::EMPTY => Stmt::Empty(Rc::new(EmptyStmt { semi: pos, implicit: false })),
            kind::LABELED => self.labeled(row),
            kind::EXPR => self.expr_stmt(row),
            kind::SEND => {
                Stmt::Send(Rc::new(SendStmt { chan: expr(pos), arrow: pos, val: expr(pos) }))
            }
            kind::INC_DEC => {
                let token = Token::INC;
                Stmt::IncDec(Rc::new(IncDecStmt { expr: expr(pos), token_pos: pos, token }))
            }
            kind::ASSIGN => self.assign(row),
            kind::GO => Stmt::Go(Rc::new(GoStmt { go: pos, call: call(pos) })),
            kind::DEFER => Stmt::Defer(Rc::new(DeferStmt { defer: pos, call: call(pos) })),
            kind::RETURN => Stmt::Return(Rc::new(ReturnStmt { ret: pos, results: vec![] })),
            kind::BRANCH => self.branch(row),
            kind::BLOCK => Stmt::Block(self.block(row)),
            kind::IF => self.if_stmt(row),
            kind::CASE | kind::COMM => self.clause(row),
            _ => self.breakable(row),
        }
    }

    fn decl(&mut self, row: usize) -> Stmt {
        let pos = row + 1;
        let token = if self.detail(row) == 1 { Token::VAR } else { Token::CONST };
        let (l_paran, r_paren) = (Some(pos), Some(pos));
        let decl = GenDecl { token_pos: pos, token, l_paran, specs: vec![], r_paren };
        Stmt::Decl(Rc::new(Decl::Gen(Rc::new(decl))))
    }

    /// The identifier of a row's name.
    fn ident(&mut self, row: usize) -> IdentKey {
        let name = self.body.name(self.body.rows[row][3]);
        let name = std::str::from_utf8(name).expect("a name that is UTF-8");
        self.objs.idents.insert(Ident::with_str(row + 1, name))
    }

    fn labeled(&mut self, row: usize) -> Stmt {
        let label = self.ident(row);
        let stmt = self.stmt(row + 1);
        Stmt::Labeled(LabeledStmt::arena_new(&mut self.objs, label, row + 1, stmt))
    }

    fn expr_stmt(&mut self, row: usize) -> Stmt {
        let call = call(row + 1);
        if self.detail(row) == 1 {
            self.panics.insert(call.id());
        }
        Stmt::Expr(Box::new(call))
    }

    fn assign(&mut self, row: usize) -> Stmt {
        let pos = row + 1;
        let token = if self.detail(row) == 1 { Token::DEFINE } else { Token::ASSIGN };
        Stmt::new_assign(&mut self.objs, vec![expr(pos)], pos, token, vec![expr(pos)])
    }

    fn branch(&mut self, row: usize) -> Stmt {
        let token = match self.detail(row) {
            branch::BREAK => Token::BREAK,
            branch::CONTINUE => Token::CONTINUE,
            branch::GOTO => Token::GOTO,
            _ => Token::FALLTHROUGH,
        };
        let label = (self.body.rows[row][3] != 0).then(|| self.ident(row));
        Stmt::Branch(Rc::new(BranchStmt { token_pos: row + 1, token, label }))
    }

    fn if_stmt(&mut self, row: usize) -> Stmt {
        let (pos, block) = (row + 1, row + 1);
        let els = block + self.body.rows[block][4] as usize;
        let body = self.block(block);
        let els = (self.detail(row) == 1).then(|| self.stmt(els));
        Stmt::If(Rc::new(IfStmt { if_pos: pos, init: None, cond: expr(pos), body, els }))
    }

    fn clause(&mut self, row: usize) -> Stmt {
        let (case, colon) = (row + 1, row + 1);
        let default = self.detail(row) == 1;
        let body = self.list(row);
        if self.body.rows[row][0] == kind::CASE {
            let list = (!default).then(|| vec![expr(case)]);
            return Stmt::Case(Rc::new(CaseClause { case, list, colon, body }));
        }
        let comm = (!default).then(|| Stmt::Expr(Box::new(expr(case))));
        Stmt::Comm(Rc::new(CommClause { case, comm, colon, body }))
    }

    /// The kinds that a break can leave; each has one Block.
    fn breakable(&mut self, row: usize) -> Stmt {
        let pos = row + 1;
        let body = self.block(row + 1);
        match self.body.rows[row][0] {
            kind::SWITCH => {
                Stmt::Switch(Rc::new(SwitchStmt { switch: pos, init: None, tag: None, body }))
            }
            kind::TYPE_SWITCH => {
                let assign = Stmt::Expr(Box::new(expr(pos)));
                Stmt::TypeSwitch(Rc::new(TypeSwitchStmt { switch: pos, init: None, assign, body }))
            }
            kind::SELECT => Stmt::Select(Rc::new(SelectStmt { select: pos, body })),
            kind::FOR => {
                let cond = (self.detail(row) == 1).then(|| expr(pos));
                Stmt::For(Rc::new(ForStmt { for_pos: pos, init: None, cond, post: None, body }))
            }
            _ => Stmt::Range(Rc::new(RangeStmt {
                for_pos: pos,
                key: None,
                val: None,
                token_pos: pos,
                token: Token::ASSIGN,
                expr: expr(pos),
                body,
            })),
        }
    }
}

/// Some expression; labels and verdicts look at none but calls.
fn expr(pos: usize) -> Expr {
    Expr::new_bad(pos, pos)
}

fn call(pos: usize) -> Expr {
    let func = expr(pos);
    Expr::Call(Rc::new(CallExpr { func, l_paren: pos, args: vec![], ellipsis: None, r_paren: pos }))
}
