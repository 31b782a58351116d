//! A claim: two threads, a point of each, and a line number, 0 for none.

use super::{demand, Read, LENGTH, RANGE};
use crate::image::{Claim, Meeting, Thread};

pub fn read(body: &[u8], threads: &[Thread], lines: usize) -> Read<Claim> {
    let claim = Claim::read(body).ok_or(LENGTH)?;
    let Meeting { thread, point, other_thread, other_point } = claim.meeting;
    let has_point = |thread: u8, point: u8| {
        let code = usize::from(thread).checked_sub(1).and_then(|index| threads.get(index));
        code.is_some_and(|code| usize::from(point) <= code.len())
    };
    demand(has_point(thread, point) && has_point(other_thread, other_point), RANGE)?;
    demand(thread != other_thread, RANGE)?;
    demand(usize::from(claim.line) <= lines, RANGE)?;
    Ok(claim)
}
