//! Readers in Rust, to compare with.

pub mod by_sets;
pub mod by_tables;

use crate::formulas::answer::{Answer, Fault};

/// A whole body is one formula. A code's sort is its eighth; `read` reads a formula of that sort from
/// the start and answers its end.
#[inline(always)]
fn whole(body: &[u8], read: impl FnOnce(u8) -> Result<usize, Fault>) -> Answer {
    let sort = body.first().ok_or(Fault::Form)? / 8;
    if read(sort)? == body.len() {
        Ok(sort)
    } else {
        Err(Fault::Form)
    }
}

#[cfg(test)]
mod tests;
