//! goscript's errors and recorded uses, read back as sheet and bindings.

use crate::check::check::Checker;
use crate::objects::ObjKey;
use crate::prepared::Reader;
use go_parser::errors::Error;
use go_parser::{ErrorList, IdentKey};
use records::{kind, Body};

/// The rows that declare variables, which are the lines of the file.
pub fn declarations(body: &Body) -> impl Iterator<Item = usize> + '_ {
    (0..body.rows.len()).filter(|&row| {
        let [kind, detail, ..] = body.rows[row];
        (kind == kind::DECL || kind == kind::ASSIGN) && detail == 1
    })
}

/// The sheet: the errors in the order in which goscript reported them.
pub fn sheet(body: &Body, errors: &ErrorList) -> Vec<[u32; 4]> {
    errors.borrow().iter().map(|error| sheet_row(body, error)).collect()
}

fn sheet_row(body: &Body, error: &Error) -> [u32; 4] {
    let [kind, _, position, number, _] = body.rows[error.pos.offset - 1];
    let name = std::str::from_utf8(body.name(number)).unwrap();
    let code = match kind {
        kind::LABELED => label_code(&error.msg, name),
        _ => branch_code(&error.msg, name),
    };
    match code {
        Some(code) => [code, position, number, 0],
        None => [3, position, number, declaration(body, &error.msg, name)],
    }
}

fn label_code(message: &str, name: &str) -> Option<u32> {
    let messages = [
        (1, format!("label {name} already declared")),
        (2, format!("\tother declaration of {name}")),
        (9, format!("label {name} declared but not used")),
    ];
    let found = messages.iter().find(|(_, text)| text == message);
    Some(found.unwrap_or_else(|| panic!("{message}")).0)
}

/// The code of a message at a branch; none for a goto over a declaration.
fn branch_code(message: &str, name: &str) -> Option<u32> {
    let messages = [
        (4, format!("invalid break label {name}")),
        (5, format!("invalid continue label {name}")),
        (6, format!("invalid AST: branch statement: fallthrough {name}")),
        (7, format!("goto {name} jumps into block")),
        (8, format!("label {name} not declared")),
    ];
    messages.iter().find(|(_, text)| text == message).map(|(code, _)| *code)
}

/// The position of the declaration whose line the message gives. The first
/// line has no declaration; lines are counted from 1.
fn declaration(body: &Body, message: &str, name: &str) -> u32 {
    let start = format!("goto {name} jumps over variable declaration at line ");
    let line = message.strip_prefix(&start).unwrap_or_else(|| panic!("{message}"));
    let line: usize = line.parse().unwrap();
    let row = declarations(body).nth(line - 2).unwrap();
    body.rows[row][2]
}

/// 1 + the row of the label that each row was recorded to define or use.
pub fn bindings(body: &Body, checker: &Checker<Reader>) -> Vec<u32> {
    let mut words = vec![0; body.rows.len()];
    let mut record = |ident: IdentKey, label: ObjKey| {
        let row = checker.ast_ident(ident).pos - 1;
        words[row] = checker.lobj(label).pos() as u32;
    };
    for (&ident, &label) in &checker.result.defs {
        record(ident, label.expect("a label's object"));
    }
    for (&ident, &label) in &checker.result.uses {
        record(ident, label);
    }
    words
}
