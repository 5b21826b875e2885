//! Cases as definitions.

use crate::chosen::Case;
use oracle::Answer;
use std::fmt::Write;

const HEAD: &str = "\
-- Bodies with what goscript's own label.rs and returns.rs answer for them, made by `definition` in oracle/compare.
-- Assumes nothing.
use Rattle.std.specs.Prelude.{true, false, List, [], ◌∷◌}
use Rattle.goscript_cases.specs.Case.{Case, both, each}

";

/// A file of definitions with one list of cases.
pub fn file(cases: &[Case]) -> String {
    let mut text = format!("{HEAD}abbrev pub cases : List Case\ncases =\n");
    for (i, case) in cases.iter().enumerate() {
        let before = if i == 0 { "" } else { "∷ " };
        writeln!(text, "    {before}{}", term(case)).unwrap();
    }
    text + "    ∷ []\n"
}

fn term(Case { body, stock, mended }: &Case) -> String {
    let (rows, pairs, bytes) = body.words();
    let bytes: Vec<u32> = bytes.iter().map(|&byte| byte.into()).collect();
    let words = format!("{} {} {}", list(&rows), list(&pairs), list(&bytes));
    if stock == mended {
        format!("both {words} {}", answer(stock))
    } else {
        format!("each {words} {} {}", answer(stock), answer(mended))
    }
}

fn answer(Answer { sheet, bindings, terminating }: &Answer) -> String {
    format!(
        "(record {{ sheet = {}; bindings = {}; verdict = {terminating} }})",
        list(&sheet.concat()),
        list(bindings)
    )
}

fn list(words: &[u32]) -> String {
    let mut text = "(".to_string();
    for word in words {
        write!(text, "{word} ∷ ").unwrap();
    }
    text + "[])"
}
