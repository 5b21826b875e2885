//! Document 02, U2: the port's walks of a body beside the runner read plainly.

use crate::course::Course;
use crate::difference::{caught, same, Checked, Difference};
use crate::port::{self, refusal_text};
use crate::walk::{walk, Answer, Walk};
use crate::walked::Walked;
use oracle::bodies::Rng;
use oracle::{Body, Marks};
use zesthull::Refusal;

const FAULTY: Refusal = Refusal { number: 8, index: 0 };

/// Compares the port's walks of a body with the runner read plainly; a body
/// with a fault is refused, whatever is given.
pub fn check(body: &Body, marks: &Marks) -> Checked<Walked> {
    let mut walked = Walked::default();
    if !marks.answer.sheet.is_empty() || marks.badly_placed.is_some() {
        for (choices, limit) in [(&[][..], 0), (&[u32::MAX], usize::MAX)] {
            let port = port::walk(body, choices, limit);
            same("walk of a body with a fault", &port, &Err(FAULTY), text)?;
        }
        walked.faulty += 1;
        return Ok(walked);
    }
    walked.bodies += 1;
    let mut rng = Rng::new(seed(body));
    // Small bodies more often, so that a difference lasts while a body shrinks.
    for _ in 0..if body.rows.len() <= 12 { 8 } else { 2 } {
        let most = rng.pick(&[3, 10, 30, 30, 100, 1_000]);
        let course = caught("the runner", || Course::random(&mut rng, body, most))?;
        for (choices, limit) in course.variants(&mut rng) {
            compare(body, &choices, limit, &mut walked)?;
        }
    }
    Ok(walked)
}

/// A seed of a body's own: the same body is always walked the same way.
fn seed(body: &Body) -> u64 {
    let mix = |seed: u64, &word: &u32| (seed ^ word as u64).wrapping_mul(0x0100_0000_01B3);
    body.rows.as_flattened().iter().fold(0xCBF2_9CE4_8422_2325, mix)
}

fn compare(body: &Body, choices: &[u32], limit: usize, walked: &mut Walked) -> Checked {
    let oracle = caught("the runner", || {
        walk(body, choices, limit, |row| walked.note_step(body.rows[row]))
    })?;
    if port::walk(body, choices, limit) != oracle {
        return Err(difference(body, choices, limit));
    }
    walked.note_end(&oracle, limit);
    Ok(())
}

/// The limits that are tried for the least one that shows a difference.
const LIMITS: usize = 2_000;

/// A difference with the least limit that shows one, then with the fewest
/// choices.
fn difference(body: &Body, choices: &[u32], limit: usize) -> Difference {
    let answers = |choices: &[u32], limit: usize| {
        (port::walk(body, choices, limit), walk(body, choices, limit, |_| ()))
    };
    let differ = |choices: &[u32], limit: usize| {
        let (port, oracle) = answers(choices, limit);
        port != oracle
    };
    let lower = (0..limit.min(LIMITS)).find(|&limit| differ(choices, limit));
    let limit = lower.unwrap_or(limit);
    let fewer =
        (0..choices.len()).map(|count| &choices[..count]).find(|fewer| differ(fewer, limit));
    let choices = fewer.unwrap_or(choices);
    let (port, oracle) = answers(choices, limit);
    let what = format!("walk by the choices {choices:?}, limit {limit}");
    Difference { what, port: text(&port), oracle: text(&oracle) }
}

fn text(answer: &Answer) -> String {
    match answer {
        Ok(Walk { place, steps, used }) => format!("{place:?}, steps {steps}, used {used}\n"),
        Err(refusal) => refusal_text(&Some(*refusal)),
    }
}
