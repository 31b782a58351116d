//! Stored handovers. In front how many bytes follow (32 bits) of old image, new image and table; then of the first two how
//! many bytes each has (32 bits); the code (16 bits).

use super::{all, body, length, number, take};
use crate::handover::check_handover;

/// What a call is given, and what it answers.
pub struct Case<'a> {
    pub old: &'a [u8],
    pub new: &'a [u8],
    pub table: &'a [u8],
    pub code: u16,
}

/// The cases of a container; none if it is cut short.
pub fn cases(bytes: &[u8]) -> Option<Vec<Case<'_>>> {
    all(bytes, case)
}

fn case<'a>(bytes: &mut &'a [u8]) -> Option<Case<'a>> {
    let mut parts = body(bytes)?;
    let (old, new) = (length(bytes)?, length(bytes)?);
    let (old, new) = (take(&mut parts, old)?, take(&mut parts, new)?);
    Some(Case { old, new, table: parts, code: number(bytes)? })
}

/// For each case of a container whether its code is still the same.
pub fn judged(bytes: &[u8]) -> Option<Vec<bool>> {
    let same = |case: &Case| check_handover(case.old, case.new, case.table) == case.code;
    Some(cases(bytes)?.iter().map(same).collect())
}
