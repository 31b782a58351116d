//! Stored replays across a handover. In front how many bytes follow (32 bits) of old image, new image, handover table,
//! first trace, second trace, given registers and the entries written; then of the first six how many bytes each has, how
//! many bytes of table and how many numbers of answer are lent (32 bits each); the code (16 bits) and the 21 numbers of
//! the answer (32 bits each), which are all 0 with code 1.

use super::replays::Told;
use super::{all, body, length, take};
use crate::handover::{replay_handover, Across, Traces};

/// What a call is given, and what it leaves.
pub struct Case<'a> {
    pub given: Across<'a>,
    pub told: Told<'a>,
}

/// The cases of a container; none if it is cut short.
pub fn cases(bytes: &[u8]) -> Option<Vec<Case<'_>>> {
    all(bytes, case)
}

fn case<'a>(bytes: &mut &'a [u8]) -> Option<Case<'a>> {
    let mut parts = body(bytes)?;
    let mut part = || take(&mut parts, length(bytes)?);
    let (old, new, points) = (part()?, part()?, part()?);
    let traces = Traces { first: part()?, second: part()?, given: part()? };
    let given = Across { old, new, points, traces };
    Some(Case { given, told: Told::read(bytes, parts)? })
}

/// For each case of a container whether its answer and its table are still the same.
pub fn judged(bytes: &[u8]) -> Option<Vec<bool>> {
    Some(cases(bytes)?.iter().map(Case::is_answered).collect())
}

impl Case<'_> {
    fn is_answered(&self) -> bool {
        self.told.is_left_by(|table, answer| replay_handover(&self.given, table, answer))
    }
}
