//! The bytes of a name: the caller's own part, or an empty one.

use std::ops::Range;

/// Numbers that are no name's where there are so many pairs. Some would wrap if they were doubled.
fn no_numbers(pairs: usize) -> [usize; 9] {
    let top = usize::MAX;
    [0, pairs + 1, pairs + 2, 501, 1 << 32, (1 << 32) + 1, (1 << 63) + 1, top - 1, top]
}

/// The part is the caller's own memory, from where to where the pair says.
#[track_caller]
fn expect_part(pairs: &[u32], bytes: &[u8], number: usize, part: Range<usize>) {
    let name = zesthull::name(pairs, bytes, number);
    assert_eq!(name, &bytes[part.clone()], "name {number} of {pairs:?}");
    assert_eq!(name.as_ptr_range(), bytes[part].as_ptr_range(), "where name {number} stands");
}

/// The part is empty, and is none of other memory.
#[track_caller]
fn expect_none(pairs: &[u32], bytes: &[u8], number: usize) {
    let name = zesthull::name(pairs, bytes, number);
    assert!(name.is_empty(), "name {number} of {} pair words", pairs.len());
    assert_eq!(name.as_ptr(), bytes.as_ptr(), "where name {number} stands");
}

/// No number is a name's.
#[track_caller]
fn expect_no_names(pairs: &[u32], bytes: &[u8]) {
    for number in (0..=pairs.len() + 2).chain(no_numbers(pairs.len() / 2)) {
        expect_none(pairs, bytes, number);
    }
}

#[test]
fn the_example() {
    expect_part(&[0, 1, 1, 1], b"ML", 1, 0..1);
    expect_part(&[0, 1, 1, 1], b"ML", 2, 1..2);
    assert_eq!(zesthull::name(&[0, 1, 1, 1], b"ML", 1), b"M");
    assert_eq!(zesthull::name(&[0, 1, 1, 1], b"ML", 2), b"L");
}

/// Bytes may stand in no name, and equal names are different parts.
#[test]
fn parts_with_gaps() {
    let (pairs, bytes) = ([1, 2, 5, 3, 8, 2], b"abcdefghbcj");
    expect_part(&pairs, bytes, 1, 1..3);
    expect_part(&pairs, bytes, 2, 5..8);
    expect_part(&pairs, bytes, 3, 8..10);
    assert_eq!(zesthull::name(&pairs, bytes, 1), b"bc");
    assert_eq!(zesthull::name(&pairs, bytes, 3), b"bc");
}

#[test]
fn any_bytes() {
    let bytes: Vec<u8> = (0..=255).collect();
    expect_part(&[0, 256], &bytes, 1, 0..256);
    expect_part(&[0, 1, 255, 1], &bytes, 2, 255..256);
}

/// The part lives as long as the bytes; the pairs may go.
#[test]
fn only_the_bytes_are_kept() {
    let bytes = b"ML".to_vec();
    let part = {
        let pairs = vec![0, 1, 1, 1];
        zesthull::name(&pairs, &bytes, 2)
    };
    assert_eq!(part, b"L");
}

#[test]
fn bytes_that_start_anywhere() {
    let bytes = b"....ML....";
    for start in 0..5 {
        let pairs = [4 - start as u32, 1, 5 - start as u32, 1];
        expect_part(&pairs, &bytes[start..], 1, 4 - start..5 - start);
        expect_part(&pairs, &bytes[start..], 2, 5 - start..6 - start);
    }
}

#[test]
fn no_such_number() {
    for number in no_numbers(2) {
        expect_none(&[0, 1, 1, 1], b"ML", number);
        expect_none(&[1, 1, 2, 1], b"xML", number);
    }
    for number in no_numbers(1) {
        expect_none(&[0, 2], b"ML", number);
    }
}

#[test]
fn empty_slices() {
    expect_no_names(&[], &[]);
    expect_no_names(&[], b"ML");
    expect_no_names(&[0, 1], &[]);
    expect_no_names(&[0, 0], &[]);
}

/// Pairs that refusal 3 is about: no number is a name's, not even that of a good pair.
#[test]
fn refused_pairs() {
    let top = u32::MAX;
    let refused: [&[u32]; 9] = [
        &[0, 0, 1, 1],
        &[0, 1, 1, 0],
        &[0, 2, 1, 1],
        &[1, 1, 0, 1],
        &[0, 1, 1, 2],
        &[0, 3],
        &[2, 1],
        &[0, 1, top, 2],
        &[0, 1, 1, top],
    ];
    for pairs in refused {
        expect_no_names(pairs, b"ML");
    }
}

#[test]
fn odd_pair_words() {
    for count in [1, 3, 5, 999, 1001] {
        let pairs: Vec<u32> = (0..501).flat_map(|at| [at, 1]).take(count).collect();
        expect_no_names(&pairs, &[b'a'; 501]);
    }
}

#[test]
fn both_sides_of_500_pairs() {
    let pairs: Vec<u32> = (0..501).flat_map(|at| [at * 2, 2]).collect();
    let bytes = [b'a'; 1002];
    for number in 1..=500 {
        expect_part(&pairs[..1000], &bytes, number, 2 * number - 2..2 * number);
    }
    for number in no_numbers(500) {
        expect_none(&pairs[..1000], &bytes, number);
    }
    expect_no_names(&pairs, &bytes);
}

#[test]
fn both_sides_of_8000_bytes() {
    let bytes = [b'a'; 8001];
    expect_part(&[0, 8000], &bytes[..8000], 1, 0..8000);
    expect_part(&[0, 1, 7999, 1], &bytes[..8000], 2, 7999..8000);
    expect_no_names(&[0, 8000], &bytes);
    expect_no_names(&[0, 1], &bytes);
    expect_no_names(&[0, 8001], &bytes);
}

/// Each pair-word count and byte count, against the rule said here again.
#[test]
fn lengths() {
    let all: Vec<u32> = (0..12).flat_map(|at| [at, 1]).collect();
    for words in 0..=all.len() {
        for count in 0..=12 {
            let (pairs, bytes) = (&all[..words], &b"abcdefghijkl"[..count]);
            if words % 2 == 1 || words / 2 > count {
                expect_no_names(pairs, bytes);
                continue;
            }
            for number in 1..=words / 2 {
                expect_part(pairs, bytes, number, number - 1..number);
            }
            expect_none(pairs, bytes, words / 2 + 1);
        }
    }
}
