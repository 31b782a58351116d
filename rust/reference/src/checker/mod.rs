//! The independent checker: from bytes to a verdict, on trees.
//!
//! The places of the verdict table follow each other as modules do here:
//! [`frames`] (codes 2 to 4), [`body`] (5 to 9, and 23), [`obligations`] (20 to 22),
//! [`claims`] (26).

pub mod body;
pub mod claims;
pub mod frames;
pub mod further;
pub mod limits;
pub mod obligations;
pub mod rules;
pub mod verdict;

use crate::image::Image;
pub use verdict::{Refusal, Verdict};

/// Judges one image.
pub fn check(image: &[u8]) -> Verdict {
    check_within(image, limits::IMAGE_BYTES)
}

/// Judges one image that has at most so many bytes; code 2 if it has more.
pub fn check_within(image: &[u8], most: usize) -> Verdict {
    match decode_within(image, most) {
        Ok(image) => judge(&image),
        Err(refusal) => Verdict::refused(refusal),
    }
}

/// Judges a decoded image: all obligations, then the claims.
fn judge(image: &Image) -> Verdict {
    let justified = rules::justified_lines(image);
    let met = obligations::judge(image, &justified);
    if met.code != 0 {
        return met;
    }
    let failing = claims::first_failing(image, &justified);
    failing.map_or(met, |failing| Verdict { count: met.count, ..failing })
}

/// What an image says if it is accepted; none if it is not.
pub fn accepted(image: &[u8]) -> Option<Image> {
    decode(image).ok().filter(|image| judge(image).code == 0)
}

/// Reads an image, or finds the first fault of its frames and bodies.
pub fn decode(image: &[u8]) -> Result<Image, Refusal> {
    decode_within(image, limits::IMAGE_BYTES)
}

fn decode_within(image: &[u8], most: usize) -> Result<Image, Refusal> {
    let records = frames::split_within(image, most)?;
    body::decode(&records, rules::Rules::Published)
}

/// Judges one image and writes the verdict record to the front of `out`.
///
/// The result is the verdict's code. Where `out` is too short the result is 1
/// and nothing is written; bytes behind the record stay as they were.
pub fn check_into(image: &[u8], out: &mut [u8]) -> u16 {
    match out.get_mut(..verdict::RECORD_BYTES) {
        None => verdict::OUTPUT_TOO_SHORT,
        Some(record) => {
            let verdict = check(image);
            record.copy_from_slice(&verdict.record());
            verdict.code
        }
    }
}

#[cfg(test)]
mod tests;
