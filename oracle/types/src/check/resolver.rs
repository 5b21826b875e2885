//! Stand-in for resolver.rs: package-level declarations.

use crate::objects::{ObjKey, ScopeKey};
use go_parser::ast::Expr;
use go_parser::FuncDeclKey;

pub struct DeclInfoConst {
    pub typ: Option<Expr>,
    pub init: Option<Expr>,
}

pub struct DeclInfoVar {
    pub lhs: Option<Vec<ObjKey>>,
    pub typ: Option<Expr>,
    pub init: Option<Expr>,
}

pub struct DeclInfoType {
    pub typ: Expr,
    pub alias: bool,
}

pub struct DeclInfoFunc {
    pub fdecl: FuncDeclKey,
}

/// A body declares nothing at package level, so there is no value of this.
pub enum DeclInfo {}

impl DeclInfo {
    pub fn file_scope(&self) -> &ScopeKey {
        match *self {}
    }

    pub fn as_const(&self) -> &DeclInfoConst {
        match *self {}
    }

    pub fn as_var(&self) -> &DeclInfoVar {
        match *self {}
    }

    pub fn as_type(&self) -> &DeclInfoType {
        match *self {}
    }

    pub fn as_func(&self) -> &DeclInfoFunc {
        match *self {}
    }

    pub fn add_dep(&mut self, _: ObjKey) {
        match *self {}
    }
}
