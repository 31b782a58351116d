//! The header: counts of threads, words and registers, range, start values, owners, start marks.

use super::{demand, Checked, LENGTH, RANGE};
use crate::formulas::answer::Counts;

const FIXED: usize = 4;

pub fn check(body: &[u8], threads_written: usize) -> Checked {
    demand(body.len() >= FIXED, LENGTH)?;
    let Counts { threads, words, registers, range } = counts(body);
    demand(body.len() == FIXED + words as usize + 2 * registers as usize, LENGTH)?;
    let (start, rest) = body[FIXED..].split_at(words as usize);
    let (owners, marks) = rest.split_at(registers as usize);
    demand(
        threads as usize == threads_written
            && (1..=4).contains(&threads)
            && (1..=8).contains(&words)
            && registers <= 16
            && (2..=16).contains(&range)
            && start.iter().all(|&value| value < range)
            && owners.iter().all(|owner| (1..=threads).contains(owner))
            && marks.iter().all(|&mark| mark <= 1),
        RANGE,
    )
}

/// The counts of a header that is long enough.
pub fn counts(body: &[u8]) -> Counts {
    Counts { threads: body[0], words: body[1], registers: body[2], range: body[3] }
}

/// The owners of registers 1 and up, of a header that passed.
pub fn owners(body: &[u8]) -> &[u8] {
    &body[FIXED + body[1] as usize..][..body[2] as usize]
}
