//! The classes of bodies that are timed. Each makes well-formed bodies of
//! exactly so many rows, as different as the number of rows allows.

mod deep;
mod fill;
mod gotos;
mod labels;
mod names;
mod unused;

use oracle::bodies::{people, Rng};
use oracle::Body;

pub struct Class {
    pub name: &'static str,
    pub make: fn(&mut Rng, usize) -> Body,
}

pub const CLASSES: [Class; 7] = [
    Class { name: "as people write them", make: people },
    Class { name: "label-heavy", make: labels::make },
    Class { name: "goto-heavy", make: gotos::make },
    Class { name: "deep", make: deep::make },
    Class { name: "name-heavy", make: names::make },
    Class { name: "unused labels", make: unused::make },
    Class { name: "names of one hash", make: names::of_one_hash },
];

pub const SIZES: [usize; 4] = [10, 100, 1_000, 2_000];

#[test]
fn bodies_are_well_formed_and_as_large_as_wanted() {
    let mut rng = Rng::new(2);
    for class in &CLASSES {
        for rows in (10..60).chain(SIZES) {
            let body = (class.make)(&mut rng, rows);
            assert_eq!(oracle::refusals::refusal_of(&body), None, "{}", class.name);
            assert_eq!(body.rows.len(), rows, "{}", class.name);
        }
    }
    let names = SIZES.map(|rows| names::make(&mut rng, rows).pairs.len());
    assert_eq!(names, [4, 49, 499, 500]);
}
