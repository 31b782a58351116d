//! The header: counts, range, start values, owners, start marks.

use super::{demand, Read, LENGTH, RANGE};
use crate::checker::limits;
use crate::formula::parse::Counts;
use crate::image::Header;

/// Reads a header; its thread count must be that of the thread records.
pub fn read(body: &[u8], threads_written: usize) -> Read<Header> {
    let header = Header::read(body).ok_or(LENGTH)?;
    let Counts { threads, words, registers, range } = header.counts;
    demand((1..=limits::THREADS).contains(&threads), RANGE)?;
    demand((1..=limits::WORDS).contains(&words), RANGE)?;
    demand(registers <= limits::REGISTERS, RANGE)?;
    demand((2..=16).contains(&range), RANGE)?;
    demand(header.start.iter().all(|&value| value < range), RANGE)?;
    demand(header.owners.iter().all(|owner| (1..=threads).contains(owner)), RANGE)?;
    demand(header.marks.iter().all(|&mark| mark <= 1), RANGE)?;
    demand(usize::from(threads) == threads_written, RANGE)?;
    Ok(header)
}
