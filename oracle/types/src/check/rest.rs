//! Stand-ins for what check.rs, decl.rs and util.rs call in the rest of the
//! checker. Labels and verdicts call none of it.

use super::check::{Checker, FilesContext};
use super::stmt::BodyContainer;
use crate::constant::Value;
use crate::objects::{DeclInfoKey, ObjKey, TypeKey};
use crate::operand::Operand;
use crate::SourceRead;
use go_parser::ast::{Expr, FieldList, ValueSpec};
use go_parser::FuncTypeKey;

type Files<'f, S> = FilesContext<'f, S>;

impl<'a, S: SourceRead> Checker<'a, S> {
    pub fn collect_objects(&mut self, _: &mut Files<S>) {
        unreachable!()
    }

    pub fn package_objects(&mut self, _: &mut Files<S>) {
        unreachable!()
    }

    pub fn unused_imports(&mut self, _: &mut Files<S>) {
        unreachable!()
    }

    pub fn init_order(&mut self) {
        unreachable!()
    }

    pub fn expr(&mut self, _: &mut Operand, _: &Expr, _: &mut Files<S>) {
        unreachable!()
    }

    pub fn multi_expr(&mut self, _: &mut Operand, _: &Expr, _: &mut Files<S>) {
        unreachable!()
    }

    pub fn raw_expr(&mut self, _: &mut Operand, _: &Expr, _: Option<TypeKey>, _: &mut Files<S>) {
        unreachable!()
    }

    pub fn type_expr(&mut self, _: &Expr, _: &mut Files<S>) -> TypeKey {
        unreachable!()
    }

    pub fn defined_type(&mut self, _: &Expr, _: Option<TypeKey>, _: &mut Files<S>) -> TypeKey {
        unreachable!()
    }

    pub fn func_type(
        &mut self,
        _: Option<&FieldList>,
        _: FuncTypeKey,
        _: &mut Files<S>,
    ) -> TypeKey {
        unreachable!()
    }

    pub fn func_body(
        &mut self,
        _: Option<DeclInfoKey>,
        _: &str,
        _: TypeKey,
        _: BodyContainer,
        _: Option<Value>,
        _: &mut Files<S>,
    ) {
        unreachable!()
    }

    pub fn init_const(&mut self, _: ObjKey, _: &mut Operand, _: &mut Files<S>) {
        unreachable!()
    }

    pub fn init_var(&mut self, _: ObjKey, _: &mut Operand, _: &str, _: &mut Files<S>) {
        unreachable!()
    }

    pub fn init_vars(
        &mut self,
        _: &Vec<ObjKey>,
        _: &Vec<Expr>,
        _: Option<usize>,
        _: &mut Files<S>,
    ) {
        unreachable!()
    }

    pub fn arity_match(&self, _: &ValueSpec, _: bool, _: Option<&ValueSpec>) {
        unreachable!()
    }
}
