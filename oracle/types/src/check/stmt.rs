//! Stand-in for stmt.rs: the check of statements.

use go_parser::FuncDeclKey;

pub enum BodyContainer {
    FuncDecl(FuncDeclKey),
}
