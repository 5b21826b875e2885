//! The table at the end: what was compared in each phase.

use crate::numbers::grouped;
use crate::run::Line;

pub fn show(lines: &[Line]) {
    println!("{HEADER}");
    let mut all = Line { phase: "all".to_string(), cases: 0, rows: 0, refused: 0 };
    for line in lines {
        all.cases += line.cases;
        all.rows += line.rows;
        all.refused += line.refused;
        show_line(line);
    }
    show_line(&all);
    println!("{COMPARED}");
}

/// A line is shown only where nothing differs: the first difference ends all.
fn show_line(Line { phase, cases, rows, refused }: &Line) {
    let compared = if *refused > 0 { "answers, refusals" } else { "answers" };
    let [cases, rows, refused] = [cases, rows, refused].map(|&count| grouped(count));
    println!("{phase:31}{cases:>10}{rows:>12}{refused:>11}  {compared:19}{:>11}", 0);
}

const HEADER: &str = "\
phase                              bodies        rows    refused  compared           differences";

const COMPARED: &str = "
answers: of each body not refused; refusal (none), sheet, bindings and verdict
  with goscript, mended; placing and names with the documents read plainly; the
  marks call with all of these; sheet and bindings lent longer than needed, as
  long, and one word short; stock inside its domains; goscript's labelled
  branches add up, those bound and those on the sheet; walks of bodies without
  faults by random choices with document 01's runner read plainly, and refusal 8
  of bodies with a fault
refusals: of words refused; number and index in every call with documents 01
  and 02 read plainly; no lent word changed; names";
