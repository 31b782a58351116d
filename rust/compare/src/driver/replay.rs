//! One image, both ways of replay, traces, registers and buffers by the seed.

use super::tally::Tally;
use super::Task;
use crate::proved::replay_trace;
use reference::checker::accepted;
use reference::replay::{replayed, room};
use sets::generate::random::Random;
use sets::generate::traces::{self, Call};
use std::fmt::Debug;

/// The replay of a trace.
pub const REPLAY: Task =
    Task { compare, codes: &[0, 1, 24, 27, 28, 29], counted: "calls", image: traces::image };

/// So many calls for an image.
const CALLS: usize = 4;
/// So many bytes stand behind the table and so many numbers behind the answer; none may change.
const BYTES_BEHIND: usize = 32;
const NUMBERS_BEHIND: usize = 8;

/// What a call returned and left in its buffers and behind them.
#[derive(Clone, Debug, PartialEq, Eq)]
pub(super) struct Left {
    pub(super) code: u16,
    table: Vec<u8>,
    answer: Vec<usize>,
}

fn compare(image: &[u8], seed: u64, tally: &mut Tally) -> Result<(), String> {
    let program = accepted(image).map(|image| image.program);
    let random = &mut Random::new(seed);
    for _ in 0..CALLS {
        let call = traces::call(random, program.as_ref());
        let before = before(random, &call);
        let (mut proved, mut independent) = (before.clone(), before);
        let (table, answer) = proved.lent(&call);
        proved.code = replay_trace(image, &call.trace, &call.given, table, answer);
        let expected = replayed(program.as_ref(), &call.trace, &call.given, room(call.table));
        let (table, answer) = independent.lent(&call);
        independent.code = expected.put(table, answer);
        if proved != independent {
            return Err(difference(&call, &proved, &independent));
        }
        tally.count(proved.code);
    }
    Ok(())
}

/// Buffers with room behind what is lent, all filled.
pub(super) fn before(random: &mut Random, call: &Call) -> Left {
    let table = (0..call.table + BYTES_BEHIND).map(|_| random.draw() as u8).collect();
    let answer = (0..call.numbers + NUMBERS_BEHIND).map(|_| random.draw() as usize).collect();
    Left { code: 0, table, answer }
}

impl Left {
    /// What is lent of the buffers.
    pub(super) fn lent(&mut self, call: &Call) -> (&mut [u8], &mut [usize]) {
        (&mut self.table[..call.table], &mut self.answer[..call.numbers])
    }
}

/// The call, both answers, and the first byte of the tables that differs.
pub(super) fn difference(call: &impl Debug, proved: &Left, independent: &Left) -> String {
    let mut bytes = proved.table.iter().zip(&independent.table);
    let byte = match bytes.position(|(one, other)| one != other) {
        None => "both tables are the same".into(),
        Some(at) => format!(
            "byte {at} of the table: proved {}, independent {}",
            proved.table[at], independent.table[at]
        ),
    };
    format!(
        "{call:?}\nproved: {}, {:?}\nindependent: {}, {:?}\n{byte}",
        proved.code, proved.answer, independent.code, independent.answer
    )
}
