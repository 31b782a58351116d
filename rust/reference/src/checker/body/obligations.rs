//! The obligations record: a line number per obligation, 0 for none.

use super::{demand, Read, LENGTH, RANGE};
use crate::checker::obligations;
use crate::image::{written, Thread};

pub fn read(body: &[u8], threads: &[Thread], lines: usize) -> Read<Vec<u16>> {
    let named = written::numbers(body).ok_or(LENGTH)?;
    demand(named.len() == obligations::duties(threads).len(), LENGTH)?;
    demand(named.iter().all(|&number| usize::from(number) <= lines), RANGE)?;
    Ok(named)
}
