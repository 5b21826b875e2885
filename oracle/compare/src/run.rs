//! One run of the comparison: its phases, and what was seen in them.

use crate::difference::Difference;
use crate::failure::{Case, Failure};
use crate::kinds::Kinds;
use crate::occurred::Occurred;
use crate::progress::Progress;
use crate::{well_formed, words};
use oracle::{Body, Words};

#[derive(Default)]
pub struct Run {
    pub occurred: Occurred,
    pub kinds: Kinds,
    pub lines: Vec<Line>,
}

/// One line of the table at the end.
pub struct Line {
    pub phase: String,
    pub cases: u64,
    pub rows: u64,
    pub refused: u64,
}

pub type Step = Result<(), Box<Failure>>;

/// A phase under way.
pub struct Phase<'a> {
    run: &'a mut Run,
    line: Line,
    progress: Progress,
}

impl Run {
    /// Goes through the cases of a phase, which `cases` hands on one by one.
    pub fn phase(
        &mut self,
        name: &str,
        total: u64,
        cases: impl FnOnce(&mut Phase) -> Step,
    ) -> Step {
        let line = Line { phase: name.to_string(), cases: 0, rows: 0, refused: 0 };
        let mut phase = Phase { run: self, line, progress: Progress::new(name, total) };
        let result = cases(&mut phase);
        phase.progress.end();
        let line = phase.line;
        self.lines.push(line);
        result
    }
}

impl Phase<'_> {
    /// Compares on a well-formed body.
    pub fn body(&mut self, body: &Body) -> Step {
        match well_formed::check(body) {
            Ok(seen) => self.well_formed(body, &seen),
            Err(difference) => return Err(self.failure(Case::Body(body.clone()), difference)),
        }
        self.count(body.rows.len());
        Ok(())
    }

    /// Compares on words that may be refused.
    pub fn words(&mut self, words: &Words) -> Step {
        match words::check(words) {
            Ok(words::Seen::WellFormed(body, seen)) => self.well_formed(&body, &seen),
            Ok(words::Seen::Refused(number)) => {
                self.line.refused += 1;
                self.run.occurred.refused(number);
            }
            Err(difference) => return Err(self.failure(Case::Words(words.clone()), difference)),
        }
        self.count(words.0.len() / 5);
        Ok(())
    }

    fn well_formed(&mut self, body: &Body, seen: &well_formed::Seen) {
        self.run.occurred.well_formed(body, seen);
        self.run.kinds.note(body, &seen.stock.kinds);
    }

    fn count(&mut self, rows: usize) {
        self.line.cases += 1;
        self.line.rows += rows as u64;
        self.progress.at(self.line.cases);
    }

    fn failure(&self, case: Case, difference: Difference) -> Box<Failure> {
        let (phase, number) = (self.line.phase.clone(), self.line.cases + 1);
        Box::new(Failure { phase, number, case, difference })
    }
}
