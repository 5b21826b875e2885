//! Everything that is compared on words that may be refused.

use crate::difference::{same, unchanged, Checked};
use crate::lent::Lent;
use crate::port::{lend_words, refusal_text};
use crate::{names, well_formed};
use oracle::refusals::refusal;
use oracle::{Body, Words};
use zesthull::Refusal;

/// What was seen where nothing differs.
pub enum Seen {
    Refused(u32),
    WellFormed(Body, Box<well_formed::Seen>),
}

pub fn check(words: &Words) -> Checked<Seen> {
    let (rows, pairs, bytes) = words;
    let oracle = refusal(rows, pairs, bytes)
        .map(|(number, index)| Refusal { number, index: index as usize });
    let port = zesthull::refusal(lend_words(words)).err();
    same("refusal call", &port, &oracle, refusal_text)?;
    names::check(pairs, bytes)?;
    match oracle {
        Some(refusal) => refused(words, refusal),
        None => {
            let body = Body::of_words(words);
            well_formed::check(&body).map(|seen| Seen::WellFormed(body, Box::new(seen)))
        }
    }
}

type Call = fn(zesthull::Body, &mut Lent) -> Option<Refusal>;

/// The other calls, as far as they refuse.
const CALLS: [(&str, Call); 5] = [
    ("label call", |body, lent| zesthull::labels(body, &mut lent.sheet, &mut lent.bindings).err()),
    ("placing call", |body, _| zesthull::placing(body).err()),
    ("verdict call", |body, _| zesthull::verdict(body).err()),
    ("marks call", |body, lent| zesthull::marks(body, &mut lent.sheet, &mut lent.bindings).err()),
    ("walk call", |body, _| zesthull::walk(body, &[u32::MAX], 9).err()),
];

/// Every call gives the same refusal and writes nothing, be the buffers long
/// enough or empty.
fn refused(words: &Words, refusal: Refusal) -> Checked<Seen> {
    let rows = words.0.len() / 5 + 1;
    for (sheet, bindings) in [(8 * rows, rows), (0, 0)] {
        let mut lent = Lent::new(sheet, bindings);
        for (what, call) in CALLS {
            let port = call(lend_words(words), &mut lent);
            same(what, &port, &Some(refusal), refusal_text)?;
            unchanged(format_args!("{what}: sheet and bindings"), lent.unchanged())?;
        }
    }
    Ok(Seen::Refused(refusal.number))
}
