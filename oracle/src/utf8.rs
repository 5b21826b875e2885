//! goscript's names are UTF-8; those of a body may be any bytes.

use crate::Body;
use std::borrow::Cow;
use std::str::from_utf8;

/// A body with UTF-8 names that has the same sheet, bindings and verdict: the
/// body itself if all its names are UTF-8. Else byte b of every name becomes
/// the character U+0100 + b, two bytes that keep equality and order. `_`
/// stays; its order is never asked for.
pub fn with_utf8_names(body: &Body) -> Cow<'_, Body> {
    let names = (1..=body.pairs.len() as u32).map(|number| body.name(number));
    if names.clone().all(|name| from_utf8(name).is_ok()) {
        return Cow::Borrowed(body);
    }
    let mut mapped = Body { rows: body.rows.clone(), ..Body::default() };
    for name in names {
        let text: String = match name {
            b"_" => "_".to_string(),
            _ => name.iter().map(|&byte| char::from_u32(0x100 + byte as u32).unwrap()).collect(),
        };
        mapped.pairs.push([mapped.bytes.len() as u32, text.len() as u32]);
        mapped.bytes.extend(text.as_bytes());
    }
    Cow::Owned(mapped)
}
