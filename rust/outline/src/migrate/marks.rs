//! Start marks: in images from before every register starts at 0.

use super::Refusal;

/// The earlier header: threads, words, registers, range (a byte each), a start value per word, an owner per register.
const COUNTS: usize = 4;
const CLEARED: u8 = 1;

/// Puts a mark per register behind the owners of an earlier header.
pub fn add(header: &mut Vec<u8>) -> Result<(), Refusal> {
    let &[_, words, registers, _, ..] = &header[..] else {
        return Err(Refusal::Header);
    };
    let (words, registers) = (usize::from(words), usize::from(registers));
    if header.len() != COUNTS + words + registers {
        return Err(Refusal::Header);
    }
    header.resize(header.len() + registers, CLEARED);
    Ok(())
}
