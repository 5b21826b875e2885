//! The random bodies to compare on.

use crate::lawful::lawful;
use oracle::bodies::{damage, people, random, two_defaults, with_any_bytes, Rng, Shape};
use oracle::{Body, Words};

/// One sort of random bodies.
pub struct Source {
    pub name: &'static str,
    /// Of 1,000 random bodies, how many are of this sort.
    pub share: u64,
    pub make: fn(&mut Rng) -> Body,
    /// How they are spoilt, so that most are refused.
    pub spoil: Option<fn(&mut Rng, &Body) -> Words>,
}

const fn bodies(name: &'static str, share: u64, make: fn(&mut Rng) -> Body) -> Source {
    Source { name, share, make, spoil: None }
}

const fn damaged(name: &'static str, share: u64, make: fn(&mut Rng) -> Body) -> Source {
    Source { name, share, make, spoil: Some(damage) }
}

const fn with_two(name: &'static str, share: u64, make: fn(&mut Rng) -> Body) -> Source {
    Source { name, share, make, spoil: Some(|rng, body| two_defaults(rng, body).words()) }
}

const fn with_two_damaged(name: &'static str, share: u64, make: fn(&mut Rng) -> Body) -> Source {
    Source { name, share, make, spoil: Some(damaged_two_defaults) }
}

pub const RANDOM: [Source; 18] = [
    bodies("random, up to 12 rows", 200, |rng| any(rng, 12)),
    bodies("random, up to 60 rows", 140, |rng| any(rng, 60)),
    bodies("random, up to 400 rows", 26, |rng| any(rng, 400)),
    bodies("random, up to 2,000 rows", 4, |rng| any(rng, 2_000)),
    bodies("equal names, several numbers", 80, equal_names),
    bodies("UTF-8 names", 60, utf8_names),
    bodies("names of any bytes", 80, any_bytes),
    bodies("as people write them", 10, as_people),
    damaged("damaged, up to 12 rows", 160, |rng| any(rng, 12)),
    damaged("damaged, up to 100 rows", 96, |rng| any(rng, 100)),
    damaged("damaged, up to 2,000 rows", 4, |rng| any(rng, 2_000)),
    bodies("without faults, up to 40 rows", 60, |rng| without_faults(rng, 40)),
    bodies("without faults, up to 400 rows", 18, |rng| without_faults(rng, 400)),
    bodies("without faults, to 2,000 rows", 2, |rng| without_faults(rng, 2_000)),
    with_two("two defaults, up to 12 rows", 25, |rng| any(rng, 12)),
    with_two("two defaults, up to 100 rows", 18, |rng| any(rng, 100)),
    with_two("two defaults, up to 2,000 rows", 2, |rng| any(rng, 2_000)),
    with_two_damaged("two defaults, damaged", 15, |rng| any(rng, 40)),
];

fn any(rng: &mut Rng, rows: usize) -> Body {
    let shape = Shape::any(rng, rows);
    random(rng, shape)
}

fn damaged_two_defaults(rng: &mut Rng, body: &Body) -> Words {
    let body = two_defaults(rng, body);
    damage(rng, &body)
}

fn equal_names(rng: &mut Rng) -> Body {
    let names = rng.between(2, 30);
    let shape = Shape { names, named: names, repeated: true, ..Shape::any(rng, 40) };
    random(rng, shape)
}

fn utf8_names(rng: &mut Rng) -> Body {
    let names = rng.between(1, 12);
    let shape = Shape { names, named: names, wide: true, ..Shape::any(rng, 40) };
    random(rng, shape)
}

fn any_bytes(rng: &mut Rng) -> Body {
    let body = utf8_names(rng);
    with_any_bytes(rng, body)
}

/// With more forks and fewer gotos than others, so that walks go far.
fn without_faults(rng: &mut Rng, rows: usize) -> Body {
    let (labels, gotos, breaks) =
        (rng.pick(&[1, 4, 10]), rng.pick(&[0, 1, 3]), rng.pick(&[1, 4, 10]));
    let shape = Shape { names: 1, named: 1, labels, gotos, breaks, ..Shape::any(rng, rows) };
    let from = random(rng, shape);
    lawful(rng, &from)
}

fn as_people(rng: &mut Rng) -> Body {
    let most = rng.pick(&[20, 60, 200, 600, 2_000]);
    let rows = rng.between(1, most);
    people(rng, rows)
}
