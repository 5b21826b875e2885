//! What program `marks` prints, made from what the oracle says.

use crate::refusals::refusal;
use crate::{file, Body, Marks};
use std::fmt;

/// What `marks` prints for a file.
pub fn printed(file: &[u8]) -> String {
    let Some(words) = file::words(file) else {
        return refused(0, 0);
    };
    match refusal(&words.0, &words.1, &words.2) {
        Some((number, index)) => refused(number, index),
        None => Marks::of(&Body::of_words(&words)).to_string(),
    }
}

pub fn refused(number: u32, index: u32) -> String {
    format!("refused {number} {index}\n")
}

/// The lines for a well-formed body.
impl fmt::Display for Marks {
    fn fmt(&self, f: &mut fmt::Formatter) -> fmt::Result {
        let Marks { answer, badly_placed } = self;
        writeln!(f, "sheet {}", answer.sheet.len())?;
        for [code, position, name, other] in &answer.sheet {
            writeln!(f, "{code} {position} {name} {other}")?;
        }
        let bound = || answer.bindings.iter().enumerate().filter(|(_, &binding)| binding != 0);
        writeln!(f, "binds {}", bound().count())?;
        for (row, binding) in bound() {
            writeln!(f, "{row} {}", binding - 1)?;
        }
        match badly_placed {
            Some(row) => writeln!(f, "placed no {row}")?,
            None => writeln!(f, "placed yes")?,
        }
        writeln!(f, "verdict {}", if answer.terminating { "yes" } else { "no" })
    }
}
