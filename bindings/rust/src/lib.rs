//! The marks of a Go function body: label faults (the sheet), where labels bind, whether unlabelled
//! branches are well placed, and whether the body is terminating (the verdict). And walks of it by
//! given choices.
//!
//! Each function answers on any words: a body that isn't well-formed gets a [`Refusal`], and then no
//! lent buffer is changed. The calls themselves are proved; here they are only made safe to name.
//!
//! ```
//! // {goto M;L:for{}}
//! let rows = [[12, 0, 1, 0, 5], [11, 2, 7, 1, 1], [3, 0, 9, 2, 3], [19, 0, 11, 0, 2], [12, 0, 14, 0, 1]];
//! let body = zesthull::Body { rows: rows.as_flattened(), pairs: &[0, 1, 1, 1], bytes: b"ML" };
//! let (mut sheet, mut bindings) = ([0; 40], [0; 5]);
//! let marks = zesthull::marks(body, &mut sheet, &mut bindings).unwrap();
//! assert_eq!(marks.faults, 2);
//! assert_eq!(sheet[..8], [8, 7, 1, 0, 9, 9, 2, 0]);
//! assert_eq!(bindings, [0, 0, 3, 0, 0]);
//! assert_eq!((marks.badly_placed, marks.terminating), (None, true));
//! ```

mod calls;

use std::fmt;

/// The words of a body: five a row (kind, detail, position, name, size), two a name (offset, length),
/// and the name bytes.
#[derive(Clone, Copy, Debug)]
pub struct Body<'a> {
    pub rows: &'a [u32],
    pub pairs: &'a [u32],
    pub bytes: &'a [u8],
}

/// Why there is no answer: the number and index of documents 01 and 02. The numbers 1 to 6 and 10, two
/// defaults in one switch or select, are those of bodies that aren't well-formed; 10 is tested after 5
/// and before 6.
#[derive(Clone, Copy, Debug, PartialEq, Eq)]
pub struct Refusal {
    pub number: u32,
    pub index: usize,
}

impl fmt::Display for Refusal {
    fn fmt(&self, f: &mut fmt::Formatter) -> fmt::Result {
        let index = self.index;
        match self.number {
            1 => write!(f, "row words empty, not a multiple of 5, or over 2,000 rows"),
            2 => write!(f, "odd pair words, over 500 pairs, or over 8,000 name bytes"),
            3 => write!(f, "pair {index} is empty, starts before the previous end or ends past the bytes"),
            4 => write!(f, "row {index} has a kind, detail, position or name that isn't allowed"),
            5 => write!(f, "row {index} breaks the shape of its kind"),
            10 => write!(f, "row {index} is a second default in its switch or select"),
            6 => write!(f, "row {index} is over 100 deep"),
            7 => write!(f, "sheet shorter than 8 words a row, or bindings shorter than 1 word a row"),
            8 => write!(f, "the sheet isn't empty, or a row is badly placed"),
            _ => write!(f, "choice {index} is out of range where it is met"),
        }
    }
}

impl std::error::Error for Refusal {}

/// The marks of a body beside its sheet and its bindings.
#[derive(Clone, Copy, Debug, PartialEq, Eq)]
pub struct Marks {
    /// The sheet's row count.
    pub faults: usize,
    /// The first row badly placed.
    pub badly_placed: Option<usize>,
    /// The verdict.
    pub terminating: bool,
}

/// Where a walk stands.
#[derive(Clone, Copy, Debug, PartialEq, Eq)]
pub enum Place {
    Stopped,
    /// The closing brace.
    Brace,
    Row(usize),
}

/// How far a walk went.
#[derive(Clone, Copy, Debug, PartialEq, Eq)]
pub struct Walk {
    /// The place reached.
    pub place: Place,
    /// The steps made.
    pub steps: usize,
    /// The choices used.
    pub used: usize,
}

/// Whether the body is well-formed: none of the refusals 1 to 6 and 10 applies.
///
/// ```
/// // {switch {default: default:}}
/// let rows =
///     [[12, 0, 1, 0, 5], [15, 0, 2, 0, 4], [12, 0, 3, 0, 3], [14, 1, 4, 0, 1], [14, 1, 5, 0, 1]];
/// let body = zesthull::Body { rows: rows.as_flattened(), pairs: &[], bytes: &[] };
/// assert_eq!(zesthull::refusal(body), Err(zesthull::Refusal { number: 10, index: 4 }));
/// ```
pub fn refusal(body: Body) -> Result<(), Refusal> {
    told(|value| calls::refusal(body, value)).map(|_| ())
}

/// The label call. It writes the sheet (code, position, name, other) and the bindings (one word a
/// row), and answers the sheet's row count.
pub fn labels(body: Body, sheet: &mut [u32], bindings: &mut [u32]) -> Result<usize, Refusal> {
    told(|value| calls::labels(body, sheet, bindings, value))
}

/// The placing call: the first row badly placed.
pub fn placing(body: Body) -> Result<Option<usize>, Refusal> {
    told(|value| calls::placing(body, value)).map(|value| value.checked_sub(1))
}

/// The verdict call: whether the body is terminating.
pub fn verdict(body: Body) -> Result<bool, Refusal> {
    told(|value| calls::verdict(body, value)).map(|value| value == 1)
}

/// The label, placing and verdict calls in one, after one look for refusals.
pub fn marks(body: Body, sheet: &mut [u32], bindings: &mut [u32]) -> Result<Marks, Refusal> {
    let (mut placing, mut verdict) = (0, 0);
    let count = told(|value| calls::marks(body, sheet, bindings, value, &mut placing, &mut verdict))?;
    Ok(Marks { faults: count, badly_placed: placing.checked_sub(1), terminating: verdict == 1 })
}

/// The walk call: from row 0 by the choices given, of `limit` steps at most. At If, For with a condition
/// and Range a choice is 1 for the body and 0 for the other way; at a switch or Select it is the clause
/// from 0, and the number of clauses for going on where a switch has no default. An empty Select takes
/// none. The walk ends at a stop, the closing brace, the limit, which is looked at first, or where it
/// needs a choice and none is left.
///
/// ```
/// // {for c {}}
/// let rows = [[12, 0, 1, 0, 3], [19, 1, 2, 0, 2], [12, 0, 3, 0, 1]];
/// let body = zesthull::Body { rows: rows.as_flattened(), pairs: &[], bytes: &[] };
/// let walk = zesthull::walk(body, &[1, 0], 100).unwrap();
/// assert_eq!((walk.place, walk.steps, walk.used), (zesthull::Place::Brace, 4, 2));
/// let walk = zesthull::walk(body, &[1], 100).unwrap();
/// assert_eq!((walk.place, walk.steps, walk.used), (zesthull::Place::Row(1), 3, 1));
/// ```
pub fn walk(body: Body, choices: &[u32], limit: usize) -> Result<Walk, Refusal> {
    let (mut steps, mut used) = (0, 0);
    let place = told(|value| calls::walk(body, choices, limit, value, &mut steps, &mut used))?;
    Ok(Walk { place: place_of(place), steps, used })
}

/// The bytes of a name, as a part of the caller's own; an empty part for number 0, for a number past
/// the last pair, and for pairs or bytes that are refused.
pub fn name<'b>(pairs: &[u32], bytes: &'b [u8], number: usize) -> &'b [u8] {
    let mut offset = 0;
    let length = calls::name(pairs, bytes, number, &mut offset);
    &bytes[offset..offset + length]
}

/// The version of the archive linked: major * 1,000,000 + minor * 1,000 + patch.
pub fn version() -> u32 {
    calls::version()
}

/// The place that a value stands for.
fn place_of(value: usize) -> Place {
    match value {
        0 => Place::Stopped,
        1 => Place::Brace,
        _ => Place::Row(value - 2),
    }
}

/// The value that a call writes where it refuses nothing; else the refusal.
fn told(call: impl FnOnce(&mut usize) -> u32) -> Result<usize, Refusal> {
    let mut value = 0;
    match call(&mut value) {
        0 => Ok(value),
        number => Err(Refusal { number, index: value }),
    }
}
