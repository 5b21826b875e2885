//! The name call on any pairs and bytes.

use crate::difference::{caught, same, Checked};
use oracle::refusals::refusal;

/// The words of a body without items.
const NO_ITEMS: [u32; 5] = [12, 0, 1, 0, 1];

/// A name's bytes are the caller's own part; a number that is none, and
/// every number where pairs or bytes are refused, gets an empty part.
pub fn check(pairs: &[u32], bytes: &[u8]) -> Checked {
    let parts: Vec<&[u8]> = match refusal(&NO_ITEMS, pairs, bytes) {
        Some(_) => vec![],
        None => {
            pairs.chunks(2).map(|pair| &bytes[pair[0] as usize..][..pair[1] as usize]).collect()
        }
    };
    for number in (0..=pairs.len() / 2 + 1).chain([u32::MAX as usize, usize::MAX]) {
        let oracle = number.checked_sub(1).and_then(|i| parts.get(i)).copied().unwrap_or_default();
        let port = caught("name call", || zesthull::name(pairs, bytes, number))?;
        let what = format_args!("name call on {number}");
        same(what, &port, &oracle, |name| name.escape_ascii().to_string())?;
        let own = port.is_empty() || std::ptr::eq(port, oracle);
        same(format_args!("{what}: the caller's own part"), &own, &true, bool::to_string)?;
    }
    Ok(())
}
