//! The differences from stock outside the domains, counted by kind.

use crate::letters::with_letters;
use crate::numbers::grouped;
use crate::{go, well_formed};
use oracle::bodies::smallest;
use oracle::Body;
use std::collections::BTreeMap;

#[derive(Default)]
pub struct Kinds(BTreeMap<String, Found>);

struct Found {
    bodies: u64,
    /// The one with the fewest rows so far.
    smallest: Body,
}

impl Kinds {
    pub fn note(&mut self, body: &Body, kinds: &[String]) {
        for kind in kinds {
            let found = self.0.entry(kind.clone());
            let found = found.or_insert_with(|| Found { bodies: 0, smallest: body.clone() });
            found.bodies += 1;
            if body.rows.len() < found.smallest.rows.len() {
                found.smallest = body.clone();
            }
        }
    }

    pub fn show(&self) {
        println!("\nOutside, stock differs from port and mended build\n");
        println!("{:>9}  in, and the smallest body", "bodies");
        for (kind, Found { bodies, smallest: body }) in &self.0 {
            let same_kind = |body: &Body| {
                well_formed::check(body).is_ok_and(|seen| seen.stock.kinds.contains(kind))
            };
            let body = smallest(body.clone(), &same_kind);
            let named = Some(with_letters(&body)).filter(same_kind).unwrap_or(body);
            println!("{:>9}  {kind}\n{:13}{}", grouped(*bodies), "", go::text(&named));
        }
    }
}
