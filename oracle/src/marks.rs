//! All that is said of a well-formed body.

use crate::placing::placing;
use crate::{mended, with_utf8_names, Answer, Body};

/// Sheet, bindings and verdict, and the first row badly placed.
#[derive(Clone, Debug, Default, PartialEq, Eq)]
pub struct Marks {
    pub answer: Answer,
    pub badly_placed: Option<u32>,
}

impl Marks {
    /// What the mended build and `placing` say of a body.
    pub fn of(body: &Body) -> Marks {
        let answer = mended::Prepared::new(&with_utf8_names(body)).answer();
        Marks { answer, badly_placed: placing(body) }
    }
}
