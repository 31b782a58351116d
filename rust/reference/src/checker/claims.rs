//! The claims of an image, and the verdict on the first that fails. They come after all obligations.

use super::verdict::Verdict;
use crate::image::{Claim, Image};

/// The code of a claim whose line is 0, unjustified or concludes something else.
const NOT_SHOWN: u16 = 26;

/// The verdict on the first claim that fails, without a count; none if all are shown.
pub fn first_failing(image: &Image, justified: &[bool]) -> Option<Verdict> {
    let before = image.records - image.claims.len();
    let mut numbered = (before + 1..).zip(&image.claims);
    let failing = numbered.find(|(_, claim)| !is_shown(image, justified, claim));
    failing.map(|(record, claim)| refused(record, claim))
}

/// Whether the line that the claim names is justified and rules the meeting out.
pub fn is_shown(image: &Image, justified: &[bool], claim: &Claim) -> bool {
    let Some(index) = usize::from(claim.line).checked_sub(1) else {
        return false;
    };
    image.lines[index].statement == claim.meeting.wanted(&image.program) && justified[index]
}

fn refused(record: usize, claim: &Claim) -> Verdict {
    let Claim { meeting, line } = *claim;
    Verdict {
        code: NOT_SHOWN,
        record: u16::try_from(record).expect("an image has fewer than 65,536 records"),
        thread: meeting.thread.into(),
        point: meeting.point.into(),
        other_thread: meeting.other_thread.into(),
        other_point: meeting.other_point.into(),
        line,
        ..Verdict::default()
    }
}
