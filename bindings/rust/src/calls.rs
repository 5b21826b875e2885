//! The exported calls. Each slice goes as a pointer and a count. The calls ask nothing more of their
//! caller than what every slice and reference of Rust has: they read and write inside the slices
//! lent, keep none of them, and end.

use crate::Body;

mod exports {
    extern "C" {
        pub fn zesthull_refusal(
            rows: *const u32, row_words: usize, pairs: *const u32, pair_words: usize,
            bytes: *const u8, byte_count: usize, value: *mut usize,
        ) -> u32;
        pub fn zesthull_labels(
            rows: *const u32, row_words: usize, pairs: *const u32, pair_words: usize,
            bytes: *const u8, byte_count: usize, sheet: *mut u32, sheet_words: usize,
            bindings: *mut u32, binding_words: usize, value: *mut usize,
        ) -> u32;
        pub fn zesthull_placing(
            rows: *const u32, row_words: usize, pairs: *const u32, pair_words: usize,
            bytes: *const u8, byte_count: usize, value: *mut usize,
        ) -> u32;
        pub fn zesthull_verdict(
            rows: *const u32, row_words: usize, pairs: *const u32, pair_words: usize,
            bytes: *const u8, byte_count: usize, value: *mut usize,
        ) -> u32;
        pub fn zesthull_marks(
            rows: *const u32, row_words: usize, pairs: *const u32, pair_words: usize,
            bytes: *const u8, byte_count: usize, sheet: *mut u32, sheet_words: usize,
            bindings: *mut u32, binding_words: usize, value: *mut usize,
            placing: *mut usize, verdict: *mut usize,
        ) -> u32;
        pub fn zesthull_walk(
            rows: *const u32, row_words: usize, pairs: *const u32, pair_words: usize,
            bytes: *const u8, byte_count: usize, choices: *const u32, choice_count: usize,
            limit: usize, value: *mut usize, steps: *mut usize, used: *mut usize,
        ) -> u32;
        pub fn zesthull_name(
            pairs: *const u32, pair_words: usize, bytes: *const u8, byte_count: usize,
            number: usize, offset: *mut usize,
        ) -> usize;
        pub fn zesthull_version() -> u32;
    }
}

/// Calls an export with the words of a body and with what follows them.
macro_rules! with_body {
    ($call:ident, $body:expr $(, $more:expr)*) => {
        unsafe {
            exports::$call(
                $body.rows.as_ptr(), $body.rows.len(),
                $body.pairs.as_ptr(), $body.pairs.len(),
                $body.bytes.as_ptr(), $body.bytes.len(),
                $($more),*
            )
        }
    };
}

#[inline]
pub fn refusal(body: Body, value: &mut usize) -> u32 {
    with_body!(zesthull_refusal, body, value)
}

#[inline]
pub fn labels(body: Body, sheet: &mut [u32], bindings: &mut [u32], value: &mut usize) -> u32 {
    let (sheet, sheet_words) = (sheet.as_mut_ptr(), sheet.len());
    let (bindings, binding_words) = (bindings.as_mut_ptr(), bindings.len());
    with_body!(zesthull_labels, body, sheet, sheet_words, bindings, binding_words, value)
}

#[inline]
pub fn placing(body: Body, value: &mut usize) -> u32 {
    with_body!(zesthull_placing, body, value)
}

#[inline]
pub fn verdict(body: Body, value: &mut usize) -> u32 {
    with_body!(zesthull_verdict, body, value)
}

#[inline]
pub fn marks(
    body: Body,
    sheet: &mut [u32],
    bindings: &mut [u32],
    value: &mut usize,
    placing: &mut usize,
    verdict: &mut usize,
) -> u32 {
    let (sheet, sheet_words) = (sheet.as_mut_ptr(), sheet.len());
    let (bindings, binding_words) = (bindings.as_mut_ptr(), bindings.len());
    with_body!(
        zesthull_marks, body, sheet, sheet_words, bindings, binding_words, value, placing, verdict
    )
}

#[inline]
pub fn walk(
    body: Body,
    choices: &[u32],
    limit: usize,
    value: &mut usize,
    steps: &mut usize,
    used: &mut usize,
) -> u32 {
    let (choices, choice_count) = (choices.as_ptr(), choices.len());
    with_body!(zesthull_walk, body, choices, choice_count, limit, value, steps, used)
}

#[inline]
pub fn name(pairs: &[u32], bytes: &[u8], number: usize, offset: &mut usize) -> usize {
    let (pairs, pair_words) = (pairs.as_ptr(), pairs.len());
    unsafe {
        exports::zesthull_name(pairs, pair_words, bytes.as_ptr(), bytes.len(), number, offset)
    }
}

#[inline]
pub fn version() -> u32 {
    unsafe { exports::zesthull_version() }
}
