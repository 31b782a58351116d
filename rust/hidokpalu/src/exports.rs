//! The functions that are exported for benchmarks, from the crate `exports`. Each result is one number.
#![allow(unsafe_code)]

mod archive {
    extern "C" {
        pub fn formula_answer(
            body: *const u8,
            body_len: usize,
            threads: u8,
            words: u8,
            registers: u8,
            values: u8,
        ) -> usize;
        pub fn image_answer(image: *const u8, image_len: usize) -> usize;
        pub fn rows_answer(
            body: *const u8,
            body_len: usize,
            left: usize,
            right: usize,
            range: u8,
        ) -> usize;
        pub fn table_answer(
            body: *const u8,
            body_len: usize,
            places: *const u8,
            places_len: usize,
        ) -> usize;
    }
}

/// Reads a formula with so many threads, words, registers and values: a fault's code, or 8 and the sort.
pub fn formula_answer(body: &[u8], [threads, words, registers, values]: [u8; 4]) -> usize {
    // SAFETY: pointer and length are those of a slice that lives until the call returns, and the function has no precondition. This holds
    // of every call below.
    unsafe { archive::formula_answer(body.as_ptr(), body.len(), threads, words, registers, values) }
}

/// Decodes an image: 0, or the code times 65,536 and the record.
pub fn image_answer(image: &[u8]) -> usize {
    // SAFETY: as of `formula_answer`.
    unsafe { archive::image_answer(image.as_ptr(), image.len()) }
}

/// Whether the test at `right` follows from that at `left`, by rows: 1 or 0.
pub fn rows_answer(body: &[u8], left: usize, right: usize, range: u8) -> usize {
    // SAFETY: as of `formula_answer`.
    unsafe { archive::rows_answer(body.as_ptr(), body.len(), left, right, range) }
}

/// Whether an implication follows from others, by truth table: 1 or 0.
pub fn table_answer(body: &[u8], places: &[u8]) -> usize {
    // SAFETY: as of `formula_answer`.
    unsafe { archive::table_answer(body.as_ptr(), body.len(), places.as_ptr(), places.len()) }
}
