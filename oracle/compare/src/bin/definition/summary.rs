//! What occurs in the list.

use crate::chosen::Case;
use oracle::domains::{same_labels, same_verdict};
use std::fmt;

/// Counts of bodies, of rows by kind and of faults by code, of verdicts, of
/// answers in which the builds differ, and of bodies outside stock's domains.
#[derive(Default)]
pub struct Summary {
    bodies: usize,
    rows: usize,
    codes: [usize; 10],
    kinds: [usize; 21],
    verdicts: [usize; 2],
    /// Sheets, bindings, verdicts.
    different: [usize; 3],
    /// Of sheet and bindings, of the verdict.
    outside: [usize; 2],
}

impl Summary {
    pub fn of(cases: &[Case]) -> Summary {
        let mut summary = Summary::default();
        cases.iter().for_each(|case| summary.count(case));
        summary
    }

    fn count(&mut self, Case { body, stock, mended }: &Case) {
        self.bodies += 1;
        self.rows += body.rows.len();
        body.rows.iter().for_each(|row| self.kinds[row[0] as usize] += 1);
        stock.sheet.iter().for_each(|fault| self.codes[fault[0] as usize] += 1);
        self.verdicts[stock.terminating as usize] += 1;
        self.different[0] += (stock.sheet != mended.sheet) as usize;
        self.different[1] += (stock.bindings != mended.bindings) as usize;
        self.different[2] += (stock.terminating != mended.terminating) as usize;
        self.outside[0] += !same_labels(body) as usize;
        self.outside[1] += !same_verdict(body) as usize;
    }

    /// What should occur and doesn't, by its place in the counts.
    pub fn missing(&self) -> Vec<String> {
        let counts: [(&str, &[usize]); 4] = [
            ("kind", &self.kinds),
            ("code", &self.codes),
            ("verdict (0 no, 1 yes)", &self.verdicts),
            ("difference (0 sheet, 1 bindings, 2 verdict)", &self.different),
        ];
        let absent = |name: &str, counts: &[usize]| -> Vec<String> {
            let zero = counts.iter().enumerate().filter(|(_, &count)| count == 0);
            zero.map(|(place, _)| format!("{name} {place}")).collect()
        };
        let missing = counts.iter().flat_map(|(name, counts)| absent(name, counts));
        missing.filter(|name| name != "code 0").collect()
    }
}

impl fmt::Display for Summary {
    fn fmt(&self, f: &mut fmt::Formatter) -> fmt::Result {
        let [sheets, bindings, verdicts] = self.different;
        let [labels, verdict] = self.outside;
        write!(f, "{} bodies, {} rows; the builds differ on ", self.bodies, self.rows)?;
        write!(f, "{sheets} sheets, {bindings} bindings, {verdicts} verdicts; ")?;
        write!(f, "{labels} and {verdict} bodies are outside stock's two domains")
    }
}
