//! Replay across a handover: a trace under the old code, then one under the new code, on the same memory.

use super::{permitted, Handover};
use crate::replay::{room, run, start, Replay, ANSWER, ANSWER_TOO_SHORT, NO_ENTRY};

/// What a call is given besides the buffers.
#[derive(Clone, Copy, Debug)]
pub struct Across<'a> {
    pub old: &'a [u8],
    pub new: &'a [u8],
    /// The table of the handover.
    pub points: &'a [u8],
    pub traces: Traces<'a>,
}

/// A trace for each code, and a byte for each register that is open at the start.
#[derive(Clone, Copy, Debug)]
pub struct Traces<'a> {
    pub first: &'a [u8],
    pub second: &'a [u8],
    pub given: &'a [u8],
}

/// Replays both traces and writes table and answer. Entries that hold no write and numbers behind the answer stay.
pub fn replay_handover(call: &Across, table: &mut [u8], answer: &mut [usize]) -> u16 {
    if answer.len() < ANSWER {
        return ANSWER_TOO_SHORT;
    }
    let handover = permitted(call.old, call.new, call.points);
    replayed_across(handover.as_ref(), &call.traces, room(table.len())).put(table, answer)
}

/// The replay across a permitted handover with room for so many writes; of another, its code.
pub fn replayed_across(handover: Result<&Handover, &u16>, traces: &Traces, room: usize) -> Replay {
    let handover = match handover {
        Ok(handover) => handover,
        Err(&code) => return Replay { code, ..Replay::default() },
    };
    let mut state = start(&handover.old.header, traces.given);
    // At the start each word has one write.
    if room < state.rows.len() {
        return Replay { writes: Vec::new(), ..Replay::of(NO_ENTRY, 0, &state) };
    }
    let (code, steps) = run(&handover.old.threads, &mut state, traces.first, room);
    if code != 0 {
        return Replay::of(code, steps, &state);
    }
    let mut state = handover.mapped(&state);
    let (code, more) = run(&handover.new.threads, &mut state, traces.second, room);
    Replay::of(code, steps + more, &state)
}
