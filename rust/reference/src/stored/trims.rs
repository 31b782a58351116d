//! Stored cases of trimming. In front how many bytes follow (32 bits) of the image and what it is trimmed to (nothing with an
//! error); then how many bytes the image has and how many of output are lent (32 bits each); the code (16 bits).

use super::{all, body, holds, length, number, take};
use crate::trim::{trim_into, Answer};

/// What a call is given, and what it leaves.
pub struct Case<'a> {
    pub image: &'a [u8],
    pub room: usize,
    pub code: u16,
    pub written: &'a [u8],
}

/// What stands in a buffer before the call.
const BEFORE: u8 = 0xA5;

/// The cases of a container; none if it is cut short.
pub fn cases(bytes: &[u8]) -> Option<Vec<Case<'_>>> {
    all(bytes, |bytes| {
        let mut parts = body(bytes)?;
        let image = length(bytes)?;
        let image = take(&mut parts, image)?;
        let room = length(bytes)?;
        Some(Case { image, room, code: number(bytes)?, written: parts })
    })
}

/// For each case of a container whether its answer and its output are still the same.
pub fn judged(bytes: &[u8]) -> Option<Vec<bool>> {
    Some(cases(bytes)?.iter().map(Case::is_answered).collect())
}

impl Case<'_> {
    fn is_answered(&self) -> bool {
        let mut out = vec![BEFORE; self.room];
        let answer = trim_into(self.image, &mut out);
        answer == Answer { code: self.code, length: self.written.len() }
            && holds(&out, self.written, BEFORE)
    }
}
