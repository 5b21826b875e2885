//! Bodies and words in a form to read.

use oracle::{branch, kind, Body, Words};

const KINDS: [&str; 21] = [
    "Bad",
    "Decl",
    "Empty",
    "Labeled",
    "Expr",
    "Send",
    "IncDec",
    "Assign",
    "Go",
    "Defer",
    "Return",
    "Branch",
    "Block",
    "If",
    "Case",
    "Switch",
    "TypeSwitch",
    "Comm",
    "Select",
    "For",
    "Range",
];

/// The rows of a well-formed body, each below its parent.
pub fn body(body: &Body) -> String {
    let mut text = String::from("  row  position  size  statement\n");
    let mut ends: Vec<usize> = vec![];
    for (row, &[kind, detail, position, number, size]) in body.rows.iter().enumerate() {
        while ends.last().is_some_and(|&end| end <= row) {
            ends.pop();
        }
        let indent = "  ".repeat(ends.len());
        ends.push(row + size as usize);
        let statement = format!("{}{}", KINDS[kind as usize], detail_text(kind, detail));
        let name = if number == 0 { String::new() } else { format!(" name {number}") };
        text += &format!("{row:5} {position:>9} {size:>5}  {indent}{statement}{name}\n");
    }
    for (number, [offset, _]) in (1..).zip(&body.pairs) {
        let name = body.name(number).escape_ascii();
        text += &format!("name {number} at offset {offset}: {name}\n");
    }
    text
}

/// What a detail says of its row.
fn detail_text(kind: u32, detail: u32) -> &'static str {
    match (kind, detail) {
        (kind::BRANCH, branch::BREAK) => " break",
        (kind::BRANCH, branch::CONTINUE) => " continue",
        (kind::BRANCH, branch::GOTO) => " goto",
        (kind::BRANCH, _) => " fallthrough",
        (_, 0) => "",
        (kind::DECL, _) => " VAR",
        (kind::EXPR, _) => " panic",
        (kind::ASSIGN, _) => " :=",
        (kind::IF, _) => " with else",
        (kind::FOR, _) => " with condition",
        _ => " default",
    }
}

/// Words as they are, five a line, then pairs and bytes.
pub fn words((rows, pairs, bytes): &Words) -> String {
    let mut text = format!("{} row words: kind, detail, position, name, size\n", rows.len());
    for (row, words) in rows.chunks(5).enumerate() {
        text += &format!("{row:5}  {words:?}\n");
    }
    let pairs: Vec<&[u32]> = pairs.chunks(2).collect();
    text + &format!("pairs {pairs:?}\n{} bytes {}\n", bytes.len(), bytes.escape_ascii())
}
