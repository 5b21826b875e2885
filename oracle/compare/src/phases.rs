//! The phases of the comparison, in order.

use crate::options::Options;
use crate::random::{Source, RANDOM};
use crate::run::{Run, Step};
use crate::{edges, shapes};
use oracle::bodies::{at_limits, every, fallthroughs, Rng};

pub fn all(run: &mut Run, options: &Options) -> Step {
    every_small_body(run)?;
    at_edges(run)?;
    every_shape(run)?;
    every_fallthrough(run)?;
    for (number, source) in RANDOM.iter().enumerate() {
        random(run, options, number as u64, source)?;
    }
    Ok(())
}

fn every_small_body(run: &mut Run) -> Step {
    let mut total = 0;
    every(6, &mut |_| total += 1);
    run.phase("every body of up to 6 rows", total, |phase| {
        let mut result = Ok(());
        every(6, &mut |body| {
            if result.is_ok() {
                result = phase.body(body);
            }
        });
        result
    })
}

/// Both sides of every limit.
fn at_edges(run: &mut Run) -> Step {
    let bodies = at_limits();
    run.phase("at the limits", bodies.len() as u64, |phase| {
        bodies.iter().try_for_each(|(_, body)| phase.body(body))
    })?;
    let words = edges::both_sides();
    run.phase("both sides of each limit", words.len() as u64, |phase| {
        words.iter().try_for_each(|words| phase.words(words))
    })
}

fn every_shape(run: &mut Run) -> Step {
    let mut total = 0;
    shapes::every(&mut |_| total += 1);
    run.phase("every shape of up to 4 rows", total, |phase| {
        let mut result = Ok(());
        shapes::every(&mut |words| {
            if result.is_ok() {
                result = phase.words(words);
            }
        });
        result
    })
}

/// A fallthrough in each place of each statement that holds clauses.
fn every_fallthrough(run: &mut Run) -> Step {
    let bodies = fallthroughs();
    run.phase("fallthroughs in clauses", bodies.len() as u64, |phase| {
        bodies.iter().try_for_each(|body| phase.body(body))
    })
}

/// Random bodies, or words made by spoiling them.
fn random(run: &mut Run, options: &Options, number: u64, source: &Source) -> Step {
    // A seed for each phase, so that no phase depends on those before it.
    let mut rng = Rng::new(options.seed ^ (number << 56));
    let total = options.random * source.share / 1_000;
    run.phase(source.name, total, |phase| {
        for _ in 0..total {
            let body = (source.make)(&mut rng);
            match source.spoil {
                Some(spoil) => phase.words(&spoil(&mut rng, &body))?,
                None => phase.body(&body)?,
            }
        }
        Ok(())
    })
}
