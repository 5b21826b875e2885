//! Makes words smaller while they still fail.

use oracle::Words;

/// Words that fail and of which no row, pair or byte can be taken away.
pub fn smallest(words: Words, fails: &dyn Fn(&Words) -> bool) -> Words {
    let mut words = words;
    while let Some(less) = smaller(&words, fails) {
        words = less;
    }
    words
}

fn smaller(words: &Words, fails: &dyn Fn(&Words) -> bool) -> Option<Words> {
    let (rows, pairs, bytes) = words;
    let fewer_rows = cuts(rows, 5).map(|rows| (rows, pairs.clone(), bytes.clone()));
    let fewer_pairs = cuts(pairs, 2).map(|pairs| (rows.clone(), pairs, bytes.clone()));
    let fewer_bytes = cuts(bytes, 1).map(|bytes| (rows.clone(), pairs.clone(), bytes));
    fewer_rows.chain(fewer_pairs).chain(fewer_bytes).find(fails)
}

/// The list without its second half, without its last word, and without each
/// of its parts of `size` words.
fn cuts<T: Copy>(list: &[T], size: usize) -> impl Iterator<Item = Vec<T>> + '_ {
    let parts = list.len() / size;
    let half = (parts > 1).then(|| list[..parts / 2 * size].to_vec());
    let last = list.split_last().map(|(_, rest)| rest.to_vec());
    let without = move |part: usize| [&list[..part * size], &list[(part + 1) * size..]].concat();
    half.into_iter().chain(last).chain((0..parts).map(without))
}

#[test]
fn smallest_keeps_the_failure_only() {
    let words: Words = ((0..40).collect(), (0..8).collect(), vec![1, 2, 3]);
    let fails =
        |(rows, _, bytes): &Words| rows.chunks(5).any(|row| row[0] == 20) && bytes.contains(&3);
    let found = smallest(words, &fails);
    assert_eq!(found, (vec![20], vec![], vec![3]));
}
