//! The first difference: where it was found, and its smallest case.

use crate::difference::{Checked, Difference};
use crate::numbers::grouped;
use crate::{go, show, shrink, well_formed, words};
use oracle::bodies::{smallest, smallest_tree};
use oracle::refusals::refusal;
use oracle::{Body, Words};

pub enum Case {
    /// A well-formed body.
    Body(Body),
    /// One of right shape that may be refused.
    Tree(Body),
    Words(Words),
}

pub struct Failure {
    pub phase: String,
    /// Which case of the phase, from 1.
    pub number: u64,
    pub case: Case,
    pub difference: Difference,
}

impl Case {
    fn check(&self) -> Checked {
        match self {
            Case::Body(body) => well_formed::check(body).map(|_| ()),
            Case::Tree(body) => words::check(&body.words()).map(|_| ()),
            Case::Words(words) => words::check(words).map(|_| ()),
        }
    }

    /// A case that differs, too, and of which nothing can be taken away.
    fn smallest(self) -> Case {
        match self {
            Case::Body(body) => Case::Body(smallest(body, &body_fails)),
            Case::Tree(body) => Case::Tree(smallest_tree(body, &tree_fails)),
            Case::Words(words) => match refusal(&words.0, &words.1, &words.2) {
                None => Case::Body(Body::of_words(&words)).smallest(),
                Some((6 | 10, _)) => Case::Tree(Body::of_words(&words)).smallest(),
                Some(_) => Case::Words(shrink::smallest(words, &words_fail)),
            },
        }
    }

    fn text(&self) -> String {
        match self {
            Case::Body(body) | Case::Tree(body) => {
                format!("{}\n{}", go::text(body), show::body(body))
            }
            Case::Words(words) => show::words(words),
        }
    }
}

impl Failure {
    /// Says what differs, on the smallest case that can be found.
    pub fn report(self, seed: u64) {
        let Failure { phase, number, case, difference } = self;
        eprintln!("Difference in phase \"{phase}\", case {}, seed {seed}:", grouped(number));
        eprintln!("{}", difference.what);
        eprintln!("Looking for the smallest case ...");
        let case = case.smallest();
        let Difference { what, port, oracle } = case.check().err().unwrap_or(difference);
        eprintln!("\nSmallest case found: {what}\n{}", case.text());
        if !port.is_empty() {
            eprintln!("The port's answer:\n{port}\nThe oracle's answer:\n{oracle}");
        }
    }
}

fn body_fails(body: &Body) -> bool {
    well_formed::check(body).is_err()
}

fn tree_fails(body: &Body) -> bool {
    words_fail(&body.words())
}

fn words_fail(words: &Words) -> bool {
    words::check(words).is_err()
}
