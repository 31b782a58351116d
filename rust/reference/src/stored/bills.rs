//! Stored cases of bills: the image's length (32 bits) and bytes; the prices of the classes 1 to 4 and the least charge
//! (16 bits each); how many images are billed (32 bits); how many numbers of answer are lent (32 bits); the code (16
//! bits) and the six numbers of the answer (32 bits each), which are all 0 with code 1.

use super::{all, body, holds, length, number, take, tariff};
use crate::bill::{bill_into, Tariff, ANSWER, ANSWER_TOO_SHORT};

/// What a call is given, and what it leaves.
pub struct Case<'a> {
    pub image: &'a [u8],
    pub tariff: Tariff,
    pub billed: u32,
    pub room: usize,
    pub code: u16,
    pub answer: [u32; ANSWER],
}

/// What stands in an answer before the call.
const BEFORE: u32 = 0xA5A5_A5A5;

/// The cases of a container; none if it is cut short.
pub fn cases(bytes: &[u8]) -> Option<Vec<Case<'_>>> {
    all(bytes, case)
}

fn case<'a>(bytes: &mut &'a [u8]) -> Option<Case<'a>> {
    let image = body(bytes)?;
    let tariff = tariff(bytes)?;
    let billed = long_number(bytes)?;
    let room = length(bytes)?;
    let code = number(bytes)?;
    let mut answer = [0; ANSWER];
    for number in &mut answer {
        *number = long_number(bytes)?;
    }
    Some(Case { image, tariff, billed, room, code, answer })
}

/// A 32-bit number from the front.
fn long_number(bytes: &mut &[u8]) -> Option<u32> {
    Some(u32::from_le_bytes(take(bytes, 4)?.try_into().ok()?))
}

/// For each case of a container whether its answer is still the same.
pub fn judged(bytes: &[u8]) -> Option<Vec<bool>> {
    Some(cases(bytes)?.iter().map(Case::is_answered).collect())
}

impl Case<'_> {
    fn is_answered(&self) -> bool {
        let mut answer = vec![BEFORE; self.room];
        let code = bill_into(self.image, &self.tariff, self.billed, &mut answer);
        let written = if self.code == ANSWER_TOO_SHORT { &[][..] } else { &self.answer };
        code == self.code && holds(&answer, written, BEFORE)
    }
}
