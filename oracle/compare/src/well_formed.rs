//! Everything that is compared on a well-formed body.

use crate::difference::{caught, same, unchanged, Checked};
use crate::lent::Lent;
use crate::names;
use crate::port::{at_once, lend, one_by_one, refusal_text};
use crate::stock::{self, Beside};
use crate::tally::{self, Tally};
use crate::walked::Walked;
use crate::walks;
use oracle::{Body, Marks};
use zesthull::Refusal;

/// Words lent beyond those needed.
const MORE: usize = 11;

const TOO_SHORT: Refusal = Refusal { number: 7, index: 0 };

/// What was seen where nothing differs.
pub struct Seen {
    pub marks: Marks,
    pub stock: Beside,
    pub tally: Tally,
    pub walked: Walked,
}

pub fn check(body: &Body) -> Checked<Seen> {
    let marks = caught("goscript, mended", || Marks::of(body))?;
    let rows = body.rows.len();
    for (what, call) in [("calls one by one", one_by_one as Call), ("marks call", at_once)] {
        let mut lent = Lent::new(8 * rows + MORE, rows + MORE);
        let port = call(lend(body), &mut lent);
        same(what, &port, &Ok(marks.clone()), told)?;
        let kept = lent.kept_past(4 * marks.answer.sheet.len(), rows);
        unchanged(format_args!("{what}: words past sheet and bindings"), kept)?;
        lengths(body, what, call)?;
    }
    names::check(body.pairs.as_flattened(), &body.bytes)?;
    let stock = stock::check(body, &marks.answer)?;
    let tally = tally::check(body, &marks.answer)?;
    let walked = walks::check(body, &marks)?;
    Ok(Seen { marks, stock, tally, walked })
}

type Call = fn(zesthull::Body, &mut Lent) -> Result<Marks, Refusal>;

fn told(answer: &Result<Marks, Refusal>) -> String {
    match answer {
        Ok(marks) => marks.to_string(),
        Err(refusal) => refusal_text(&Some(*refusal)),
    }
}

/// Buffers exactly as long as needed do; one word less is refused, and
/// nothing is written.
fn lengths(body: &Body, what: &str, call: Call) -> Checked {
    let rows = body.rows.len();
    let exact = call(lend(body), &mut Lent::new(8 * rows, rows)).err();
    same(format_args!("{what}: buffers of the length needed"), &exact, &None, refusal_text)?;
    for (sheet, bindings) in [(8 * rows - 1, rows), (8 * rows, rows - 1)] {
        let mut lent = Lent::new(sheet, bindings);
        let port = call(lend(body), &mut lent).err();
        let what = format_args!("{what}: sheet of {sheet} words, bindings of {bindings}");
        same(what, &port, &Some(TOO_SHORT), refusal_text)?;
        unchanged(what, lent.unchanged())?;
    }
    Ok(())
}
