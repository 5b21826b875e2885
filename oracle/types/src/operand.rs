//! Stand-in for operand.rs: operands of expressions.

use super::constant::Value;
use super::objects::TypeKey;
use go_parser::ast::Expr;

#[derive(Clone, Debug, PartialEq)]
pub enum OperandMode {
    Invalid,
    Constant(Value),
    Value,
    MapIndex,
    CommaOk,
}

#[derive(Debug)]
pub struct Operand {
    pub mode: OperandMode,
    pub expr: Option<Expr>,
    pub typ: Option<TypeKey>,
}

impl Operand {
    pub fn new() -> Operand {
        Operand { mode: OperandMode::Invalid, expr: None, typ: None }
    }

    pub fn invalid(&self) -> bool {
        self.mode == OperandMode::Invalid
    }
}
