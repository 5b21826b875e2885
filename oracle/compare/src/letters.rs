//! Letters for names, to make a small body readable.

use oracle::bodies::rows::body;
use oracle::Body;

/// The body with its different names called A, B, .. if there are letters
/// enough; `_` stays.
pub fn with_letters(from: &Body) -> Body {
    let numbers = 1..=from.pairs.len() as u32;
    let mut different: Vec<&[u8]> = vec![];
    for name in numbers.clone().map(|number| from.name(number)) {
        if name != b"_" && !different.contains(&name) {
            different.push(name);
        }
    }
    if different.len() > 26 {
        return from.clone();
    }
    let letter = |number: u32| match different.iter().position(|&name| name == from.name(number)) {
        Some(place) => [b'A' + place as u8],
        None => *b"_",
    };
    let names: Vec<[u8; 1]> = numbers.map(letter).collect();
    Body { rows: from.rows.clone(), ..body(&[], &names) }
}

#[test]
fn equal_names_get_equal_letters() {
    let named = with_letters(&body(&[], &["x1", "_", "y", "x1"]));
    assert_eq!(named.bytes, b"A_BA");
    assert_eq!(named.pairs, [[0, 1], [1, 1], [2, 1], [3, 1]]);
}
