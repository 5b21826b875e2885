//! The port beside stock: equal inside the domains of document 01; outside,
//! differences are told by kind.

use crate::difference::{caught, same, Checked};
use oracle::domains::{same_labels, same_verdict};
use oracle::{stock, with_utf8_names, Answer, Body, Marks};

/// How a body stands to stock.
pub struct Beside {
    pub same_labels: bool,
    pub same_verdict: bool,
    /// The kinds of differences, all outside the domains.
    pub kinds: Vec<String>,
}

/// Compares the port's answer, which is the mended build's, with stock's.
pub fn check(body: &Body, port: &Answer) -> Checked<Beside> {
    let (same_labels, same_verdict) = (same_labels(body), same_verdict(body));
    let stock =
        caught("goscript, stock", || stock::Prepared::new(&with_utf8_names(body)).answer())?;
    if stock == *port {
        return Ok(Beside { same_labels, same_verdict, kinds: vec![] });
    }
    if same_labels {
        let labels = |answer: &Answer| Answer { terminating: true, ..answer.clone() };
        same("stock, sheet and bindings", &labels(port), &labels(&stock), text)?;
    }
    if same_verdict {
        same("stock, verdict", &port.terminating, &stock.terminating, bool::to_string)?;
    }
    Ok(Beside { same_labels, same_verdict, kinds: kinds(&stock, port) })
}

fn text(answer: &Answer) -> String {
    Marks { answer: answer.clone(), badly_placed: None }.to_string()
}

/// What differs: one kind for sheet and bindings, one for the verdict.
fn kinds(stock: &Answer, port: &Answer) -> Vec<String> {
    let mut kinds = vec![];
    match (stock.sheet != port.sheet, stock.bindings != port.bindings) {
        (true, true) => kinds.push(format!("sheet and bindings: {}", codes(stock, port))),
        (true, false) => kinds.push(format!("sheet: {}", codes(stock, port))),
        (false, true) => kinds.push("bindings".to_string()),
        (false, false) => {}
    }
    match (stock.terminating, port.terminating) {
        (true, false) => kinds.push("verdict: stock yes, port no".to_string()),
        (false, true) => kinds.push("verdict: stock no, port yes".to_string()),
        _ => {}
    }
    kinds
}

/// The codes that one sheet has more often than the other.
fn codes(stock: &Answer, port: &Answer) -> String {
    let count = |answer: &Answer, code| answer.sheet.iter().filter(|row| row[0] == code).count();
    let only = |who, one, other| {
        let more = (1..=9).filter(|&code| count(one, code) > count(other, code));
        let codes: Vec<String> = more.map(|code| code.to_string()).collect();
        (!codes.is_empty()).then(|| format!("{who} alone has {}", codes.join(" and ")))
    };
    let texts = [only("stock", stock, port), only("port", port, stock)];
    let texts: Vec<String> = texts.into_iter().flatten().collect();
    match texts.is_empty() {
        true => "as many of each code".to_string(),
        false => texts.join(", "),
    }
}
