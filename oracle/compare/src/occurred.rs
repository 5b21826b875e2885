//! What occurred, so that a comparison that never saw a case can say so.

use crate::numbers::grouped;
use crate::tally::Tally;
use crate::walked::Walked;
use crate::well_formed;
use oracle::placing::placing;
use oracle::{kind, Body, Marks};

#[derive(Default)]
pub struct Occurred {
    /// Sheet rows of each code.
    codes: [u64; 10],
    /// Rows of each kind in well-formed bodies.
    kinds: [u64; 21],
    /// Bodies and words with each refusal, walks with 9; 0 is none.
    refusals: [u64; 11],
    /// Bodies badly placed and well placed.
    placed: [u64; 2],
    /// Bodies whose placing hangs on a type switch.
    type_switches: u64,
    /// Bodies with verdict no and yes.
    verdicts: [u64; 2],
    /// Bodies on which stock had to be equalled.
    same_labels: u64,
    same_verdict: u64,
    /// The labelled branches of all bodies.
    tally: Tally,
    /// The walks of all bodies without faults.
    walked: Walked,
}

impl Occurred {
    pub fn well_formed(&mut self, body: &Body, seen: &well_formed::Seen) {
        let Marks { answer, badly_placed } = &seen.marks;
        for row in &answer.sheet {
            self.codes[row[0] as usize] += 1;
        }
        for row in &body.rows {
            self.kinds[row[0] as usize] += 1;
        }
        self.refusals[0] += 1;
        // Every well-formed body is also tried with buffers too short.
        self.refusals[7] += 1;
        self.placed[badly_placed.is_none() as usize] += 1;
        self.type_switches += by_type_switch(body, *badly_placed) as u64;
        self.verdicts[answer.terminating as usize] += 1;
        self.same_labels += seen.stock.same_labels as u64;
        self.same_verdict += seen.stock.same_verdict as u64;
        self.tally.labelled += seen.tally.labelled;
        self.tally.bound += seen.tally.bound;
        self.tally.unbound += seen.tally.unbound;
        self.refusals[8] += seen.walked.faulty;
        self.refusals[9] += seen.walked.out_of_range();
        self.walked.add(&seen.walked);
    }

    pub fn refused(&mut self, number: u32) {
        self.refusals[number as usize] += 1;
    }

    /// What should have occurred and didn't.
    pub fn missing(&self) -> Vec<String> {
        let mut missing = vec![];
        let mut look = |name: &str, first: usize, counts: &[u64]| {
            for (i, _) in counts.iter().enumerate().filter(|(_, &count)| count == 0) {
                missing.push(format!("{name} {}", first + i));
            }
        };
        look("code", 1, &self.codes[1..]);
        look("kind", 0, &self.kinds);
        look("refusal", 1, &self.refusals[1..]);
        look("placing (0 bad, 1 well)", 0, &self.placed);
        look("row badly placed in a type switch", 1, &[self.type_switches]);
        look("verdict (0 no, 1 yes)", 0, &self.verdicts);
        look("domain of stock's", 1, &[self.same_labels, self.same_verdict]);
        look("labelled branch (1 bound, 2 not)", 1, &[self.tally.bound, self.tally.unbound]);
        look("step from kind", 0, &self.walked.kinds);
        let never = |(_, count): &(&str, u64)| *count == 0;
        missing.extend(
            self.walked.by_branch().filter(never).map(|(name, _)| format!("step by {name}")),
        );
        missing.extend(self.walked.by_end().filter(never).map(|(name, _)| format!("walk {name}")));
        missing
    }

    pub fn show(&self) {
        println!("\nOccurred in well-formed bodies");
        println!("  sheet rows of code  {}", list(1, &self.codes[1..]));
        println!("  rows of kind  {}", list(0, &self.kinds));
        println!(
            "  badly placed {}, well placed {}; by a type switch {}",
            grouped(self.placed[0]),
            grouped(self.placed[1]),
            grouped(self.type_switches)
        );
        println!("  verdict no {}, yes {}", grouped(self.verdicts[0]), grouped(self.verdicts[1]));
        println!("Not refused: {}. Refused with", grouped(self.refusals[0]));
        println!("  number  {}", list(1, &self.refusals[1..]));
        println!("Stock had to be equalled, and is, in");
        println!("  sheet and bindings on {} bodies", grouped(self.same_labels));
        println!("  verdict on {} bodies", grouped(self.same_verdict));
        let Tally { labelled, bound, unbound } = self.tally;
        let [labelled, bound, unbound] = [labelled, bound, unbound].map(grouped);
        println!("Labelled branches {labelled}: bound {bound}, on the sheet with 4 to 8 {unbound}");
        self.show_walks();
    }

    fn show_walks(&self) {
        let Walked { bodies, walks, steps, used, kinds, .. } = &self.walked;
        let [bodies, walks] = [bodies, walks].map(|&count| grouped(count));
        let [steps, used] = [steps, used].map(|&count| grouped(count));
        println!("Walks {walks}, of {bodies} bodies without faults: steps {steps}, choices {used}");
        println!("  {}", named(self.walked.by_end()));
        println!("  steps from kind  {}", list(0, kinds));
        println!("  steps by {}", named(self.walked.by_branch()));
    }
}

/// Whether a row is badly placed that wouldn't be in a switch of the other kind.
fn by_type_switch(body: &Body, badly_placed: Option<u32>) -> bool {
    badly_placed.is_some() && placing(&without_type_switches(body.clone())) != badly_placed
}

/// The body with a switch for each type switch.
fn without_type_switches(mut body: Body) -> Body {
    for row in body.rows.iter_mut().filter(|row| row[0] == kind::TYPE_SWITCH) {
        row[0] = kind::SWITCH;
    }
    body
}

/// Counts with their names.
fn named<'a>(counts: impl Iterator<Item = (&'a str, u64)>) -> String {
    let texts = counts.map(|(name, count)| format!("{name} {}", grouped(count)));
    texts.collect::<Vec<String>>().join(", ")
}

/// Counts with their numbers.
fn list(first: usize, counts: &[u64]) -> String {
    let each = counts.iter().enumerate();
    let texts = each.map(|(i, &count)| format!("{}: {}", first + i, grouped(count)));
    texts.collect::<Vec<String>>().join("  ")
}
