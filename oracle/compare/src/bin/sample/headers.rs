//! Files whose length isn't what their header says, and short ones.

use crate::list::List;
use oracle::file::file;
use oracle::Body;

pub fn add(list: &mut List, body: &Body) {
    let file = file(&body.words());
    for length in [0, 1, 4, 11, 12, 13, file.len() - 1] {
        list.add_file(file[..length].to_vec());
    }
    for length in [11, 12, 13] {
        list.add_file(vec![0; length]);
    }
    list.add_file([&file[..], &[0]].concat());
    list.add_file(vec![0xFF; 12]);
    list.add_file(vec![0xFF; 13]);
    for (place, count) in [body.rows.len(), body.pairs.len(), body.bytes.len()].iter().enumerate() {
        let count = *count as u32;
        // The last two are right again where a sum of 32 bits wraps.
        for other in [0, count - 1, count + 1, u32::MAX, count + (1 << 30), count + (1 << 29)] {
            let mut file = file.clone();
            file[4 * place..][..4].copy_from_slice(&other.to_le_bytes());
            list.add_file(file);
        }
    }
}
