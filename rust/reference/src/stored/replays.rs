//! Stored cases of replay. In front how many bytes follow (32 bits) of image, trace, given registers and the entries
//! written; then of the first three how many bytes each has, how many bytes of table and how many numbers of answer are
//! lent (32 bits each); the code (16 bits) and the 21 numbers of the answer (32 bits each), which are all 0 with code 1.

use super::{all, body, holds, length, number, take};
use crate::replay::{replay, ANSWER, ANSWER_TOO_SHORT};

/// What a call is given, and what it leaves.
pub struct Case<'a> {
    pub image: &'a [u8],
    pub trace: &'a [u8],
    pub given: &'a [u8],
    pub told: Told<'a>,
}

/// What a replay is lent, and what it leaves there.
pub struct Told<'a> {
    /// How many bytes of table are lent.
    pub table: usize,
    /// How many numbers of answer are lent.
    pub numbers: usize,
    pub code: u16,
    pub answer: [usize; ANSWER],
    /// The front of the table afterwards; behind it nothing is written.
    pub written: &'a [u8],
}

/// What stands in a table and in an answer before the call.
const BEFORE: u8 = 0xA5;
const NUMBER_BEFORE: usize = 0xA5A5_A5A5;

/// The cases of a container; none if it is cut short.
pub fn cases(bytes: &[u8]) -> Option<Vec<Case<'_>>> {
    all(bytes, case)
}

fn case<'a>(bytes: &mut &'a [u8]) -> Option<Case<'a>> {
    let mut parts = body(bytes)?;
    let mut part = || take(&mut parts, length(bytes)?);
    let (image, trace, given) = (part()?, part()?, part()?);
    Some(Case { image, trace, given, told: Told::read(bytes, parts)? })
}

/// For each case of a container whether its answer and its table are still the same.
pub fn judged(bytes: &[u8]) -> Option<Vec<bool>> {
    Some(cases(bytes)?.iter().map(Case::is_answered).collect())
}

impl Case<'_> {
    fn is_answered(&self) -> bool {
        self.told
            .is_left_by(|table, answer| replay(self.image, self.trace, self.given, table, answer))
    }
}

impl<'a> Told<'a> {
    /// From the front of what follows the lengths of a case's parts; `written` is the rest of its body.
    pub(super) fn read(bytes: &mut &[u8], written: &'a [u8]) -> Option<Told<'a>> {
        let (table, numbers) = (length(bytes)?, length(bytes)?);
        let code = number(bytes)?;
        let mut answer = [0; ANSWER];
        for number in &mut answer {
            *number = length(bytes)?;
        }
        Some(Told { table, numbers, code, answer, written })
    }

    /// Whether a call leaves this in a table and an answer of these sizes, and what was behind it as it was.
    pub(super) fn is_left_by(&self, call: impl Fn(&mut [u8], &mut [usize]) -> u16) -> bool {
        let mut table = vec![BEFORE; self.table];
        let mut answer = vec![NUMBER_BEFORE; self.numbers];
        let code = call(&mut table, &mut answer);
        let numbers = if self.code == ANSWER_TOO_SHORT { &[][..] } else { &self.answer };
        code == self.code
            && holds(&table, self.written, BEFORE)
            && holds(&answer, numbers, NUMBER_BEFORE)
    }
}
