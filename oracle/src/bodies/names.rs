//! Names of random bodies.

use super::random::Shape;
use super::Rng;
use crate::Body;

/// Names that sort, end or look in ways worth trying.
const PLAIN: [&str; 10] = ["L", "M", "a", "ab", "abc", "b", "A", "Loop", "L1", "L10"];
const WIDE: [&str; 8] = ["é", "e\u{301}", "标签", "ж", "\u{10FFFF}", "\u{80}", "a b", "a\0"];

/// Gives a body its pairs and name bytes: sorted, with gaps here and there.
pub fn add_names(rng: &mut Rng, shape: &Shape, body: &mut Body) {
    let mut names: Vec<String> = vec![];
    for number in 0..shape.names {
        let name = match number {
            0 if shape.blank => "_".to_string(),
            _ if shape.repeated && number > 0 && rng.one_in(2) => names[rng.below(number)].clone(),
            _ => fresh(rng, shape, &names),
        };
        names.push(name);
    }
    for number in (1..names.len()).rev() {
        names.swap(number, rng.below(number + 1));
    }
    for name in names {
        for _ in 0..rng.pick(&[0, 0, 0, 1, 3]) {
            body.bytes.push(rng.below(256) as u8);
        }
        body.pairs.push([body.bytes.len() as u32, name.len() as u32]);
        body.bytes.extend(name.as_bytes());
    }
    for _ in 0..rng.pick(&[0, 0, 2]) {
        body.bytes.push(0xFF);
    }
}

/// A name; if names aren't to be repeated, one that isn't there yet.
fn fresh(rng: &mut Rng, shape: &Shape, names: &[String]) -> String {
    loop {
        let mut name = match shape.wide && rng.one_in(2) {
            true => rng.pick(&WIDE).to_string(),
            false => rng.pick(&PLAIN).to_string(),
        };
        if shape.names > 4 {
            name += &names.len().to_string();
        }
        if shape.repeated || !names.contains(&name) {
            return name;
        }
    }
}

/// The body with other name bytes, UTF-8 or not; so few different ones that
/// short names are often equal or `_`.
pub fn with_any_bytes(rng: &mut Rng, mut body: Body) -> Body {
    let few = rng.pick(&[2, 4, 8]);
    for byte in &mut body.bytes {
        *byte = rng.pick(&[b'_', 0xFF, 0x80, 0x00, 0x5E, 0x60, 0x7F, 0xC4][..few]);
    }
    body
}
