//! The port's calls on a body, as the oracle tells its answers.

use crate::lent::Lent;
use crate::runner::State;
use crate::walk::Walk;
use oracle::{Answer, Body, Marks, Words};
use zesthull::{Place, Refusal};

pub fn lend(body: &Body) -> zesthull::Body<'_> {
    let (rows, pairs) = (body.rows.as_flattened(), body.pairs.as_flattened());
    zesthull::Body { rows, pairs, bytes: &body.bytes }
}

pub fn lend_words((rows, pairs, bytes): &Words) -> zesthull::Body<'_> {
    zesthull::Body { rows, pairs, bytes }
}

/// The refusal, label, placing and verdict calls, one by one.
pub fn one_by_one(body: zesthull::Body, lent: &mut Lent) -> Result<Marks, Refusal> {
    zesthull::refusal(body)?;
    let faults = zesthull::labels(body, &mut lent.sheet, &mut lent.bindings)?;
    let badly_placed = zesthull::placing(body)?;
    let terminating = zesthull::verdict(body)?;
    Ok(marks(body, lent, zesthull::Marks { faults, badly_placed, terminating }))
}

/// The one call for all of them.
pub fn at_once(body: zesthull::Body, lent: &mut Lent) -> Result<Marks, Refusal> {
    let told = zesthull::marks(body, &mut lent.sheet, &mut lent.bindings)?;
    Ok(marks(body, lent, told))
}

fn marks(body: zesthull::Body, lent: &Lent, told: zesthull::Marks) -> Marks {
    let sheet = lent.sheet.as_chunks().0.iter().take(told.faults).copied().collect();
    let bindings = lent.bindings[..body.rows.len() / 5].to_vec();
    let answer = Answer { sheet, bindings, terminating: told.terminating };
    let row = |row: usize| u32::try_from(row).unwrap_or(u32::MAX);
    Marks { answer, badly_placed: told.badly_placed.map(row) }
}

/// The walk call.
pub fn walk(body: &Body, choices: &[u32], limit: usize) -> Result<Walk, Refusal> {
    let zesthull::Walk { place, steps, used } = zesthull::walk(lend(body), choices, limit)?;
    let place = match place {
        Place::Row(row) => State::Row(row),
        Place::Stopped => State::Stopped,
        Place::Brace => State::Brace,
    };
    Ok(Walk { place, steps, used })
}

/// A refusal or none, as text.
pub fn refusal_text(refusal: &Option<Refusal>) -> String {
    match refusal {
        Some(Refusal { number, index }) => format!("refused {number} {index}\n"),
        None => "not refused\n".to_string(),
    }
}
