//! The range of values: images from before have 8.

use super::Refusal;

/// The earlier header: threads, words, registers (a byte each), a start value per word, an owner per register.
const COUNTS: usize = 3;
const RANGE: u8 = 8;

/// Puts the range behind the counts of an earlier header.
pub fn add(header: &mut Vec<u8>) -> Result<(), Refusal> {
    let &[_, words, registers, ..] = &header[..] else {
        return Err(Refusal::Header);
    };
    if header.len() != COUNTS + usize::from(words) + usize::from(registers) {
        return Err(Refusal::Header);
    }
    header.insert(COUNTS, RANGE);
    Ok(())
}
