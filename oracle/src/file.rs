//! The files that program `marks` reads: little-endian words, first the
//! counts of rows, names and name bytes, then rows, pairs and bytes.

use crate::Words;

pub fn file(words: &Words) -> Vec<u8> {
    let (rows, pairs, bytes) = words;
    let counts = [rows.len() as u32 / 5, pairs.len() as u32 / 2, bytes.len() as u32];
    let mut file: Vec<u8> = vec![];
    for word in counts.iter().chain(rows).chain(pairs) {
        file.extend(word.to_le_bytes());
    }
    file.extend(bytes);
    file
}

/// The words of a file; none where its length isn't what its header says.
pub fn words(file: &[u8]) -> Option<Words> {
    let (header, rest) = file.split_at_checked(12)?;
    let [rows, pairs, bytes] = [0, 1, 2].map(|i| u64::from(read(header)[i]));
    if rest.len() as u64 != 20 * rows + 8 * pairs + bytes {
        return None;
    }
    let (rows, rest) = rest.split_at(20 * rows as usize);
    let (pairs, bytes) = rest.split_at(8 * pairs as usize);
    Some((read(rows), read(pairs), bytes.to_vec()))
}

fn read(bytes: &[u8]) -> Vec<u32> {
    bytes.chunks_exact(4).map(|word| u32::from_le_bytes(word.try_into().unwrap())).collect()
}
